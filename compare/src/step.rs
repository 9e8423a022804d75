//! The proved step calls: C functions of the crate `abi_step_calls`. A call's marks of pinned particles are
//! handed on as bytes, its counts without a length.

use crate::endings::{told, Places};
use crate::lend::UNTOUCHED;
use crate::sys::c::*;
use oracle::blocks::bytes;
use oracle::call::Operation::*;
use oracle::call::{Call, Left};

/// What a call says besides its lists. How a factorization came out is told in the ending's first place.
pub struct Said {
    pub refused: u8,
    pub ending: Places,
    row: usize,
    pivot: u32,
    gain: u32,
}

pub fn seven(counts: &mut [u32]) -> &mut [u32; 7] {
    counts.try_into().expect("a tally has seven counts")
}

/// Makes the call on its own lists.
pub fn made(call: &mut Call, pinned: &mut [u8]) -> Said {
    let mut how = UNTOUCHED;
    let [mut count, mut row] = [UNTOUCHED as usize; 2];
    let [mut residual_squared, mut denominator, mut pivot, mut gain] =
        [f32::from_bits(UNTOUCHED); 4];
    // Each function is handed lists of its own parameters' kinds.
    let refused = unsafe {
        match (call.operation, &call.numbers[..], &mut call.lists[..]) {
            (
                FactorizeStepMatrix,
                &[n, dense],
                [r, c, d, blocks, perm, inv_perm, first, row_start, values, p],
            ) => {
                lend!(bracket_factorize_step_matrix(n; r, c, d, blocks, perm, inv_perm, first, row_start; dense; values, p;
                    &mut how, &mut row, &mut pivot;))
            }
            (
                SolveStep,
                &[n, limit, tolerance, dense, factored],
                [r, c, d, blocks, perm, inv_perm, first, row_start, values, p, b, x, scratch, residual, direction, a_direction, z, counts],
            ) => {
                let tolerance = f32::from_bits(tolerance as u32);
                lend!(bracket_solve_step(n; r, c, d, blocks, perm, inv_perm, first, row_start, values; factored != 0; p, b; tolerance, limit, dense;
                    x, scratch, residual, direction, a_direction, z; seven(counts), &mut how, &mut count, &mut residual_squared, &mut denominator;))
            }
            (
                ResponseInto,
                &[n, limit, tolerance, dense, factored, entries],
                [r, c, d, blocks, perm, inv_perm, first, row_start, values, p, _, particles, gradients, out, rhs, scratch, rest @ ..],
            ) => {
                let [residual, direction, a_direction, z, counts] = rest else {
                    unreachable!("an iteration has four work lists, and a response its counts")
                };
                let tolerance = f32::from_bits(tolerance as u32);
                lend!(bracket_response_into(n; r, c, d, blocks, perm, inv_perm, first, row_start, values; factored != 0; p;
                    tolerance, limit, dense; pinned; entries; particles, gradients, out, rhs, scratch, residual, direction, a_direction, z;
                    seven(counts), &mut gain, &mut how, &mut count, &mut residual_squared, &mut denominator;))
            }
            _ => unreachable!("a call has the numbers and lists of its operation"),
        }
    };
    let [residual_squared, denominator, pivot, gain] =
        [residual_squared, denominator, pivot, gain].map(f32::to_bits);
    Said {
        refused,
        ending: Places {
            how,
            count,
            residual_squared,
            denominator,
        },
        row,
        pivot,
        gain,
    }
}

/// A call's marks, as bytes.
pub fn marks(call: &Call) -> Vec<u8> {
    let at = call.operation.pinned_at();
    at.map_or(Vec::new(), |at| bytes(&call.lists[at]))
}

/// What the call answers beside its lists. Its marks must stay.
pub fn left(call: &mut Call) -> Left {
    let before = marks(call);
    let mut pinned = before.clone();
    let said = made(call, &mut pinned);
    assert!(before == pinned, "a mark was written: {}", call.line());
    if call.operation == FactorizeStepMatrix {
        return marked(call, said);
    }
    let mut lists = told(said.refused, said.ending);
    if said.refused == 0 && call.operation == ResponseInto {
        lists[1].insert(0, said.gain);
    } else {
        let untouched = said.gain == UNTOUCHED;
        assert!(untouched, "a refusal wrote its gain: {}", call.line());
    }
    Left {
        refused: said.refused,
        lists: lists.to_vec(),
        ..Left::default()
    }
}

/// Only a failure writes row and pivot, and a refusal writes nothing.
fn marked(call: &Call, said: Said) -> Left {
    let (refused, how) = (said.refused, said.ending.how);
    let untouched = said.row == UNTOUCHED as usize && said.pivot == UNTOUCHED;
    let (number, failed) = match how {
        UNTOUCHED if refused > 0 && untouched => (None, None),
        0 | 2 if refused == 0 && untouched => (Some(how as usize), None),
        1 if refused == 0 => (None, Some((said.row, said.pivot))),
        _ => panic!("a factorization told what isn't so: {}", call.line()),
    };
    Left {
        refused,
        number,
        failed,
        ..Left::default()
    }
}
