//! The work behind the doors: the C functions of the crate `abi_timing`, for timing alone. They test
//! nothing, so only accepted input may be handed to them, in lists of just the needed length.

use crate::step::seven;
use oracle::call::Call;
use std::hint::black_box;

declared! {
    fn inside_build(
        n: usize, count: usize, pairs: &[u32], row_offsets: &mut [u32], cols: &mut [u32], diagonal: &mut [u32],
        work: &mut [u32]
    ) -> usize;
    fn inside_mul(n: usize, row_offsets: &[u32], cols: &[u32], blocks: &[f32], x: &[f32], out: &mut [f32]);
    fn inside_make_dirichlet(
        n: usize, row_offsets: &[u32], cols: &[u32], diagonal: &[u32], row: usize, blocks: &mut [f32]
    );
    fn inside_make_dirichlet_marked(
        n: usize, row_offsets: &[u32], cols: &[u32], diagonal: &[u32], marks: &[u8], blocks: &mut [f32]
    );
    fn inside_well_formed(n: usize, m: usize, row_offsets: &[u32], cols: &[u32], diagonal: &[u32]) -> bool;
    fn inside_plan(
        row_offsets: &[u32], cols: &[u32], perm: &mut [u32], inv_perm: &mut [u32], first: &mut [u32],
        row_start: &mut [u32], degrees: &mut [u32], placed: &mut [u32], mark: &mut [u32], level: &mut [u32],
        queue: &mut [u32]
    ) -> usize;
    fn inside_factorize(
        n: usize, row_offsets: &[u32], cols: &[u32], blocks: &[f32], inv_perm: &[u32], first: &[u32],
        row_start: &[u32], values: &mut [f32]
    ) -> bool;
    fn inside_solve(
        n: usize, perm: &[u32], inv_perm: &[u32], first: &[u32], row_start: &[u32], values: &[f32], b: &[f32],
        x: &mut [f32], scratch: &mut [f32]
    );
    fn inside_block_index(row_offsets: &[u32], cols: &[u32], row: usize, col: u32) -> u32;
    fn inside_update_preconditioner(n: usize, diagonal: &[u32], blocks: &[f32], preconditioner: &mut [f32]);
    fn inside_conjugate_gradient(
        n: usize, row_offsets: &[u32], cols: &[u32], blocks: &[f32], preconditioner: &[f32], b: &[f32],
        tolerance: f32, limit: usize, x: &mut [f32], residual: &mut [f32], direction: &mut [f32],
        a_direction: &mut [f32], z: &mut [f32]
    ) -> usize;
    fn inside_step_route(
        n: usize, row_offsets: &[u32], cols: &[u32], diagonal: &[u32], blocks: &[f32], perm: &[u32],
        inv_perm: &[u32], first: &[u32], row_start: &[u32], values: &[f32], factored: bool, preconditioner: &[f32],
        b: &[f32], tolerance: f32, max_iterations: usize, max_dense_dofs: usize, x: &mut [f32], scratch: &mut [f32],
        residual: &mut [f32], direction: &mut [f32], a_direction: &mut [f32], z: &mut [f32]
    ) -> bool;
    fn inside_respond(
        n: usize, row_offsets: &[u32], cols: &[u32], diagonal: &[u32], blocks: &[f32], perm: &[u32],
        inv_perm: &[u32], first: &[u32], row_start: &[u32], values: &[f32], factored: bool, preconditioner: &[f32],
        tolerance: f32, max_iterations: usize, max_dense_dofs: usize, pinned: &[u8], entries: usize,
        particles: &[u32], gradients: &[f32], out: &mut [f32], rhs: &mut [f32], scratch: &mut [f32],
        residual: &mut [f32], direction: &mut [f32], a_direction: &mut [f32], z: &mut [f32]
    ) -> f32;
    fn inside_compute_columns(
        n: usize, row_offsets: &[u32], cols: &[u32], diagonal: &[u32], blocks: &[f32], perm: &[u32],
        inv_perm: &[u32], first: &[u32], row_start: &[u32], values: &[f32], factored: bool, preconditioner: &[f32],
        tolerance: f32, max_iterations: usize, max_dense_dofs: usize, pinned: &[u8], loaded: usize, column_of: &[u32],
        columns: &mut [f32], rhs: &mut [f32], scratch: &mut [f32], residual: &mut [f32], direction: &mut [f32],
        a_direction: &mut [f32], z: &mut [f32], counts: &mut [u32; 7], ended: &mut [u32; 6]
    );
    fn inside_response_from_columns(
        n: usize, pinned: &[u8], loaded: usize, column_of: &[u32], columns: &[f32], entries: usize, particles: &[u32],
        gradients: &[f32], out: &mut [f32], gain: &mut f32, how: &mut u32
    );
    fn inside_particle_block(
        n: usize, pinned: &[u8], loaded: usize, column_of: &[u32], columns: &[f32], particle: usize, out: &mut [f32],
        how: &mut u32, block: &mut [f32; 4]
    );
}

const SHAPE: &str = "a call has the numbers and lists of its operation";

/// Of `from_pairs`, all but the block values.
pub fn build(call: &mut Call) {
    match (&call.numbers[..], &mut call.lists[..]) {
        (&[n, count], [pairs, row_offsets, cols, diagonal, _, work]) => unsafe {
            lend!(inside_build(n, count; pairs, row_offsets, cols, diagonal, work;;));
        },
        _ => unreachable!("{SHAPE}"),
    }
}

pub fn mul(call: &mut Call) {
    match (&call.numbers[..], &mut call.lists[..]) {
        (&[n], [row_offsets, cols, _, blocks, x, out]) => unsafe {
            lend!(inside_mul(n; row_offsets, cols, blocks, x, out;;));
        },
        _ => unreachable!("{SHAPE}"),
    }
}

pub fn make_dirichlet(call: &mut Call) {
    match (&call.numbers[..], &mut call.lists[..]) {
        (&[n, row], [row_offsets, cols, diagonal, blocks]) => unsafe {
            lend!(inside_make_dirichlet(n; row_offsets, cols, diagonal; row; blocks));
        },
        _ => unreachable!("{SHAPE}"),
    }
}

pub fn make_dirichlet_marked(call: &mut Call, marks: &mut [u8]) {
    match (&call.numbers[..], &mut call.lists[..]) {
        (&[n], [row_offsets, cols, diagonal, _, blocks]) => unsafe {
            lend!(inside_make_dirichlet_marked(n; row_offsets, cols, diagonal, marks, blocks;;));
        },
        _ => unreachable!("{SHAPE}"),
    }
}

pub fn well_formed(call: &mut Call) {
    match (&call.numbers[..], &mut call.lists[..]) {
        (&[n, ..], [row_offsets, cols, diagonal, ..]) => unsafe {
            let m = cols.len();
            assert!(lend!(inside_well_formed(n, m; row_offsets, cols, diagonal;;)));
        },
        _ => unreachable!("{SHAPE}"),
    }
}

pub fn plan(call: &mut Call) {
    match &mut call.lists[..] {
        [r, c, _, perm, inv_perm, first, row_start, degrees, placed, mark, level, queue] => unsafe {
            black_box(
                lend!(inside_plan(; r, c, perm, inv_perm, first, row_start, degrees, placed, mark, level, queue;;)),
            );
        },
        _ => unreachable!("{SHAPE}"),
    }
}

pub fn factorize(call: &mut Call) {
    match (&call.numbers[..], &mut call.lists[..]) {
        (&[n], [r, c, _, blocks, _, inv_perm, first, row_start, values]) => unsafe {
            assert!(lend!(inside_factorize(n; r, c, blocks, inv_perm, first, row_start, values;;)));
        },
        _ => unreachable!("{SHAPE}"),
    }
}

pub fn solve(call: &mut Call) {
    match (&call.numbers[..], &mut call.lists[..]) {
        (&[n], [perm, inv_perm, first, row_start, values, b, x, scratch]) => unsafe {
            lend!(inside_solve(n; perm, inv_perm, first, row_start, values, b, x, scratch;;));
        },
        _ => unreachable!("{SHAPE}"),
    }
}

/// The slots of many rows and columns.
pub fn searches(call: &mut Call, asked: &[(u32, u32)]) {
    match &mut call.lists[..] {
        [row_offsets, cols, _] => {
            for &(row, col) in asked {
                let row = row as usize;
                black_box(unsafe { lend!(inside_block_index(; row_offsets, cols; row, col;)) });
            }
        }
        _ => unreachable!("{SHAPE}"),
    }
}

pub fn update_preconditioner(call: &mut Call) {
    match (&call.numbers[..], &mut call.lists[..]) {
        (&[n], [_, _, diagonal, blocks, preconditioner]) => unsafe {
            lend!(inside_update_preconditioner(n; diagonal, blocks, preconditioner;;));
        },
        _ => unreachable!("{SHAPE}"),
    }
}

pub fn conjugate_gradient(call: &mut Call) {
    match (&call.numbers[..], &mut call.lists[..]) {
        (
            &[n, limit, tolerance],
            [r, c, _, blocks, p, b, x, residual, direction, a_direction, z],
        ) => unsafe {
            let tolerance = f32::from_bits(tolerance as u32);
            black_box(
                lend!(inside_conjugate_gradient(n; r, c, blocks, p, b; tolerance, limit; x, residual, direction, a_direction, z)),
            );
        },
        _ => unreachable!("{SHAPE}"),
    }
}

/// By the factor.
pub fn step_route(call: &mut Call) {
    match (&call.numbers[..], &mut call.lists[..]) {
        (
            &[n, limit, tolerance, dense, factored],
            [r, c, d, blocks, perm, inv_perm, first, row_start, values, p, b, x, scratch, residual, direction, a_direction, z, _],
        ) => unsafe {
            let tolerance = f32::from_bits(tolerance as u32);
            assert!(
                lend!(inside_step_route(n; r, c, d, blocks, perm, inv_perm, first, row_start, values; factored != 0; p, b; tolerance, limit, dense;
                    x, scratch, residual, direction, a_direction, z))
            );
        },
        _ => unreachable!("{SHAPE}"),
    }
}

/// The gain.
pub fn respond(call: &mut Call, pinned: &mut [u8]) -> f32 {
    match (&call.numbers[..], &mut call.lists[..]) {
        (
            &[n, limit, tolerance, dense, factored, entries],
            [r, c, d, blocks, perm, inv_perm, first, row_start, values, p, _, particles, gradients, out, rhs, scratch, residual, direction, a_direction, z, _],
        ) => unsafe {
            let tolerance = f32::from_bits(tolerance as u32);
            lend!(inside_respond(n; r, c, d, blocks, perm, inv_perm, first, row_start, values; factored != 0; p; tolerance, limit, dense; pinned; entries;
                particles, gradients, out, rhs, scratch, residual, direction, a_direction, z))
        },
        _ => unreachable!("{SHAPE}"),
    }
}

/// By the factor. How many solves ended in each way.
pub fn compute_columns(call: &mut Call, pinned: &mut [u8]) -> [u32; 6] {
    let mut ended = [0; 6];
    match (&call.numbers[..], &mut call.lists[..]) {
        (
            &[n, limit, tolerance, dense, factored, loaded],
            [r, c, d, blocks, perm, inv_perm, first, row_start, values, p, _, table, columns, rhs, scratch, residual, direction, a_direction, z, counts],
        ) => unsafe {
            let tolerance = f32::from_bits(tolerance as u32);
            let counts = seven(counts);
            lend!(inside_compute_columns(n; r, c, d, blocks, perm, inv_perm, first, row_start, values; factored != 0; p; tolerance, limit, dense;
                pinned; loaded; table, columns, rhs, scratch, residual, direction, a_direction, z; counts, &mut ended;));
        },
        _ => unreachable!("{SHAPE}"),
    }
    ended
}

/// The gain.
pub fn combine(call: &mut Call, pinned: &mut [u8]) -> f32 {
    let (mut gain, mut how) = (0.0, 0);
    match (&call.numbers[..], &mut call.lists[..]) {
        (&[n, loaded, entries], [_, table, columns, particles, gradients, out]) => unsafe {
            lend!(inside_response_from_columns(n; pinned; loaded; table, columns; entries; particles, gradients, out; &mut gain, &mut how;));
        },
        _ => unreachable!("{SHAPE}"),
    }
    gain
}

pub fn block(call: &mut Call, pinned: &mut [u8]) -> [f32; 4] {
    let (mut how, mut block) = (0, [0.0; 4]);
    match (&call.numbers[..], &mut call.lists[..]) {
        (&[n, loaded, particle], [_, table, columns, out]) => unsafe {
            lend!(inside_particle_block(n; pinned; loaded; table, columns; particle; out; &mut how, &mut block;));
        },
        _ => unreachable!("{SHAPE}"),
    }
    block
}
