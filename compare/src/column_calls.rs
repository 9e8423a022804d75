//! The proved column calls: C functions of the crate `abi_columns_calls`. Marks of pinned particles are handed on as bytes, counts without a
//! length.

use crate::lend::UNTOUCHED;
use crate::step::{marks, seven};
use crate::sys::c::*;
use oracle::call::Operation::*;
use oracle::call::{Call, Left};
use oracle::columns::{NOT_LOADED, WAYS};

/// What a call says besides its lists, in the places that it has.
#[derive(Clone, Copy, PartialEq)]
pub struct Said {
    pub refused: u8,
    pub loaded: usize,
    pub ended: [u32; WAYS],
    pub how: u32,
    pub gain: u32,
    pub block: [u32; 4],
}

/// Its places as they are lent.
const LENT: Said = Said {
    refused: 0,
    loaded: UNTOUCHED as usize,
    ended: [UNTOUCHED; WAYS],
    how: UNTOUCHED,
    gain: UNTOUCHED,
    block: [UNTOUCHED; 4],
};

/// Makes the call on its own lists.
pub fn made(call: &mut Call, pinned: &mut [u8]) -> Said {
    let mut said = LENT;
    let mut gain = f32::from_bits(said.gain);
    let mut block = said.block.map(f32::from_bits);
    let Said {
        loaded: after,
        ended,
        how,
        ..
    } = &mut said;
    // Each function is handed lists of its own parameters' kinds.
    let refused = unsafe {
        match (call.operation, &call.numbers[..], &mut call.lists[..]) {
            (ClearColumns, &[n], [table]) => lend!(bracket_clear_columns(n; table; after;)),
            (LoadParticle, &[n, loaded, particle], [_, table]) => {
                lend!(bracket_load_particle(n; pinned; loaded, particle; table; after;))
            }
            (
                ComputeColumns,
                &[n, limit, tolerance, dense, factored, loaded],
                [r, c, d, blocks, perm, inv_perm, first, row_start, values, p, _, table, columns, rhs, scratch, rest @ ..],
            ) => {
                let [residual, direction, a_direction, z, counts] = rest else {
                    unreachable!("an iteration has four work lists, and columns their counts")
                };
                let tolerance = f32::from_bits(tolerance as u32);
                lend!(bracket_compute_columns(n; r, c, d, blocks, perm, inv_perm, first, row_start, values; factored != 0; p;
                    tolerance, limit, dense; pinned; loaded; table, columns, rhs, scratch, residual, direction, a_direction, z;
                    seven(counts), ended;))
            }
            (
                ResponseFromColumns,
                &[n, loaded, entries],
                [_, table, columns, particles, gradients, out],
            ) => {
                lend!(bracket_response_from_columns(n; pinned; loaded; table, columns; entries; particles, gradients, out; &mut gain, how;))
            }
            (ParticleBlockFromColumns, &[n, loaded, particle], [_, table, columns, out]) => {
                lend!(bracket_particle_block_from_columns(n; pinned; loaded; table, columns; particle; out; how, &mut block;))
            }
            _ => unreachable!("a call has the numbers and lists of its operation"),
        }
    };
    said.refused = refused;
    said.gain = gain.to_bits();
    said.block = block.map(f32::to_bits);
    said
}

/// What the call answers beside its lists. Its marks must stay, and a refusal must leave the places.
pub fn left(call: &mut Call) -> Left {
    let before = marks(call);
    let mut pinned = before.clone();
    let said = made(call, &mut pinned);
    assert!(before == pinned, "a mark was written: {}", call.line());
    let mut left = Left {
        refused: said.refused,
        ..Left::default()
    };
    let told = call.operation.answered().len() - call.operation.lists().len()
        + call.operation.first_changed();
    if said.refused > 0 {
        let untouched = Said { refused: 0, ..said } == LENT;
        assert!(untouched, "a refusal wrote a place: {}", call.line());
        left.lists = vec![Vec::new(); told];
        return left;
    }
    match call.operation {
        ClearColumns | LoadParticle => left.number = Some(said.loaded),
        ComputeColumns => left.lists = vec![said.ended.to_vec()],
        ResponseFromColumns => left.lists = floats(said.how, &[said.gain]),
        _ => left.lists = floats(said.how, &said.block),
    }
    left
}

/// The answer's number and its floats. 'Not loaded' has none: its places must be +0.0, otherwise they are shown, and differ.
fn floats(how: u32, places: &[u32]) -> Vec<Vec<u32>> {
    let none = how == NOT_LOADED && places.iter().all(|&it| it == 0);
    let floats = if none { Vec::new() } else { places.to_vec() };
    vec![vec![how], floats]
}
