//! The C functions (include/bracket.h), and all of the unsafe code. Rust's own rules give what the functions ask of their caller:
//! valid pointers, no list shared with one that is written, a bool of 0 or 1. compare/ takes the C functions from here too.

/// Declares C functions by the crates' own signatures: a slice is a pointer and a length in C. Parameters are read one by one.
macro_rules! declared {
    ($(fn $name:ident($($params:tt)*) $(-> $answer:ty)?;)*) => {
        $(declared!(@ $name [$($answer)?] [] $($params)*,);)*
    };
    (@ $name:ident [$($answer:ty)?] [$($c:tt)*] $p:ident: &[$t:ty], $($rest:tt)*) => {
        declared!(@ $name [$($answer)?] [$($c)* $p: *const $t, _: usize,] $($rest)*);
    };
    (@ $name:ident [$($answer:ty)?] [$($c:tt)*] $p:ident: &mut [$t:ty], $($rest:tt)*) => {
        declared!(@ $name [$($answer)?] [$($c)* $p: *mut $t, _: usize,] $($rest)*);
    };
    (@ $name:ident [$($answer:ty)?] [$($c:tt)*] $p:ident: $t:ty, $($rest:tt)*) => {
        declared!(@ $name [$($answer)?] [$($c)* $p: $t,] $($rest)*);
    };
    (@ $name:ident [$($answer:ty)?] [$($c:tt)*]) => {
        extern "C" {
            pub fn $name($($c)*) $(-> $answer)?;
        }
    };
}

/// Makes of each signature the C function, in `c`, and a safe function of the same name, which hands over what it takes.
macro_rules! calls {
    ($(fn $name:ident($($params:tt)*) -> $answer:ty;)*) => {
        pub mod c {
            declared! { $(fn $name($($params)*) -> $answer;)* }
        }
        $(calls!(@ $name $answer [$($params)*] [] $($params)*,);)*
    };
    (@ $name:ident $answer:ty [$($taken:tt)*] [$($handed:tt)*] $p:ident: &[$t:ty], $($rest:tt)*) => {
        calls!(@ $name $answer [$($taken)*] [$($handed)* $p.as_ptr(), $p.len(),] $($rest)*);
    };
    (@ $name:ident $answer:ty [$($taken:tt)*] [$($handed:tt)*] $p:ident: &mut [$t:ty], $($rest:tt)*) => {
        calls!(@ $name $answer [$($taken)*] [$($handed)* $p.as_mut_ptr(), $p.len(),] $($rest)*);
    };
    (@ $name:ident $answer:ty [$($taken:tt)*] [$($handed:tt)*] $p:ident: $t:ty, $($rest:tt)*) => {
        calls!(@ $name $answer [$($taken)*] [$($handed)* $p,] $($rest)*);
    };
    (@ $name:ident $answer:ty [$($taken:tt)*] [$($handed:tt)*]) => {
        // The wrapper has no pattern without values and finds slots by rows; compare/ calls no safe function.
        #[allow(clippy::too_many_arguments, dead_code)]
        #[inline]
        pub fn $name($($taken)*) -> $answer {
            unsafe { c::$name($($handed)*) }
        }
    };
}

calls! {
    fn bracket_root(x: f32) -> f32;
    fn bracket_dot(ux: f32, uy: f32, vx: f32, vy: f32) -> f32;
    fn bracket_determinant(c0x: f32, c0y: f32, c1x: f32, c1y: f32) -> f32;
    fn bracket_times(c0x: f32, c0y: f32, c1x: f32, c1y: f32, vx: f32, vy: f32, out: &mut [f32]) -> u8;
    fn bracket_inverse(c0x: f32, c0y: f32, c1x: f32, c1y: f32, out: &mut [f32]) -> u8;

    fn bracket_from_pairs(
        n: usize, count: usize, pairs: &[u32],
        row_offsets: &mut [u32], cols: &mut [u32], diagonal: &mut [u32], blocks: &mut [f32], work: &mut [u32]
    ) -> u8;
    fn bracket_pattern_from_pairs(
        n: usize, count: usize, pairs: &[u32],
        row_offsets: &mut [u32], cols: &mut [u32], diagonal: &mut [u32], work: &mut [u32]
    ) -> u8;
    fn bracket_block_index(
        n: usize, row_offsets: &[u32], cols: &[u32], diagonal: &[u32], row: usize, col: u32, slot: &mut u32
    ) -> u8;
    fn bracket_diagonal_index(
        n: usize, row_offsets: &[u32], cols: &[u32], diagonal: &[u32], row: usize, slot: &mut u32
    ) -> u8;
    fn bracket_row_first(
        n: usize, row_offsets: &[u32], cols: &[u32], row: usize, first: &mut usize
    ) -> u8;
    fn bracket_row_len(
        n: usize, row_offsets: &[u32], cols: &[u32], row: usize, len: &mut usize
    ) -> u8;
    fn bracket_row_col(
        n: usize, row_offsets: &[u32], cols: &[u32], row: usize, j: usize, col: &mut u32
    ) -> u8;
    fn bracket_row_slot(
        n: usize, row_offsets: &[u32], cols: &[u32], row: usize, col: u32, slot: &mut u32
    ) -> u8;
    fn bracket_clear_values(
        n: usize, row_offsets: &[u32], cols: &[u32], diagonal: &[u32], blocks: &mut [f32]
    ) -> u8;
    fn bracket_mul(
        n: usize, row_offsets: &[u32], cols: &[u32], diagonal: &[u32], blocks: &[f32], x: &[f32], out: &mut [f32]
    ) -> u8;
    fn bracket_make_dirichlet(
        n: usize, row_offsets: &[u32], cols: &[u32], diagonal: &[u32], row: usize, blocks: &mut [f32]
    ) -> u8;
    fn bracket_make_dirichlet_marked(
        n: usize, row_offsets: &[u32], cols: &[u32], diagonal: &[u32], marks: &[u8], blocks: &mut [f32]
    ) -> u8;

    fn bracket_plan(
        n: usize, row_offsets: &[u32], cols: &[u32], diagonal: &[u32],
        perm: &mut [u32], inv_perm: &mut [u32], first: &mut [u32], row_start: &mut [u32],
        degrees: &mut [u32], placed: &mut [u32], mark: &mut [u32], level: &mut [u32], queue: &mut [u32]
    ) -> u8;
    fn bracket_factorize(
        n: usize, row_offsets: &[u32], cols: &[u32], diagonal: &[u32], blocks: &[f32],
        perm: &[u32], inv_perm: &[u32], first: &[u32], row_start: &[u32], values: &mut [f32],
        how: &mut u32, row: &mut usize, pivot: &mut f32
    ) -> u8;
    fn bracket_solve(
        n: usize, perm: &[u32], inv_perm: &[u32], first: &[u32], row_start: &[u32], values: &[f32],
        b: &[f32], x: &mut [f32], scratch: &mut [f32]
    ) -> u8;

    fn bracket_update_preconditioner(
        n: usize, row_offsets: &[u32], cols: &[u32], diagonal: &[u32], blocks: &[f32], preconditioner: &mut [f32]
    ) -> u8;
    fn bracket_conjugate_gradient(
        n: usize, row_offsets: &[u32], cols: &[u32], diagonal: &[u32], blocks: &[f32], preconditioner: &[f32], b: &[f32],
        tolerance: f32, max_iterations: usize,
        x: &mut [f32], residual: &mut [f32], direction: &mut [f32], a_direction: &mut [f32], z: &mut [f32],
        how: &mut u32, count: &mut usize, residual_squared: &mut f32, denominator: &mut f32
    ) -> u8;

    fn bracket_factorize_step_matrix(
        n: usize, row_offsets: &[u32], cols: &[u32], diagonal: &[u32], blocks: &[f32],
        perm: &[u32], inv_perm: &[u32], first: &[u32], row_start: &[u32],
        max_dense_dofs: usize, values: &mut [f32], preconditioner: &mut [f32],
        how: &mut u32, row: &mut usize, pivot: &mut f32
    ) -> u8;
    fn bracket_solve_step(
        n: usize, row_offsets: &[u32], cols: &[u32], diagonal: &[u32], blocks: &[f32],
        perm: &[u32], inv_perm: &[u32], first: &[u32], row_start: &[u32],
        values: &[f32], factored: bool, preconditioner: &[f32], b: &[f32],
        tolerance: f32, max_iterations: usize, max_dense_dofs: usize,
        x: &mut [f32], scratch: &mut [f32], residual: &mut [f32], direction: &mut [f32], a_direction: &mut [f32], z: &mut [f32],
        counts: &mut [u32; 7],
        how: &mut u32, count: &mut usize, residual_squared: &mut f32, denominator: &mut f32
    ) -> u8;
    fn bracket_response_into(
        n: usize, row_offsets: &[u32], cols: &[u32], diagonal: &[u32], blocks: &[f32],
        perm: &[u32], inv_perm: &[u32], first: &[u32], row_start: &[u32],
        values: &[f32], factored: bool, preconditioner: &[f32],
        tolerance: f32, max_iterations: usize, max_dense_dofs: usize,
        pinned: &[u8], entries: usize, particles: &[u32], gradients: &[f32],
        out: &mut [f32], rhs: &mut [f32], scratch: &mut [f32], residual: &mut [f32], direction: &mut [f32], a_direction: &mut [f32], z: &mut [f32],
        counts: &mut [u32; 7],
        gain: &mut f32, how: &mut u32, count: &mut usize, residual_squared: &mut f32, denominator: &mut f32
    ) -> u8;

    fn bracket_clear_columns(
        n: usize, column_of: &mut [u32], loaded_after: &mut usize
    ) -> u8;
    fn bracket_load_particle(
        n: usize, pinned: &[u8], loaded: usize, particle: usize, column_of: &mut [u32], loaded_after: &mut usize
    ) -> u8;
    fn bracket_compute_columns(
        n: usize, row_offsets: &[u32], cols: &[u32], diagonal: &[u32], blocks: &[f32],
        perm: &[u32], inv_perm: &[u32], first: &[u32], row_start: &[u32],
        values: &[f32], factored: bool, preconditioner: &[f32],
        tolerance: f32, max_iterations: usize, max_dense_dofs: usize,
        pinned: &[u8], loaded: usize, column_of: &[u32],
        columns: &mut [f32], rhs: &mut [f32], scratch: &mut [f32], residual: &mut [f32], direction: &mut [f32], a_direction: &mut [f32], z: &mut [f32],
        counts: &mut [u32; 7], ended: &mut [u32; 6]
    ) -> u8;
    fn bracket_response_from_columns(
        n: usize, pinned: &[u8], loaded: usize, column_of: &[u32], columns: &[f32],
        entries: usize, particles: &[u32], gradients: &[f32],
        out: &mut [f32], gain: &mut f32, how: &mut u32
    ) -> u8;
    fn bracket_particle_block_from_columns(
        n: usize, pinned: &[u8], loaded: usize, column_of: &[u32], columns: &[f32],
        particle: usize, out: &mut [f32], how: &mut u32, block: &mut [f32; 4]
    ) -> u8;
}
