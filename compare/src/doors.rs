//! The proved doors: the C functions of the crate `abi_calls`. A list is a pointer and a length.

use crate::lend::UNTOUCHED;
use crate::sys::c::*;
use crate::{column_calls, endings, step};
use oracle::blocks::bytes;
use oracle::call::Operation::*;
use oracle::call::{Call, Left, COLUMNS};

/// What a call says besides its number and its lists: the slot that it found, or how a factorization
/// came out, and where.
#[derive(PartialEq)]
pub struct Places {
    slot: u32,
    how: u32,
    row: usize,
    pivot: u32,
}

const LENT: Places = Places {
    slot: UNTOUCHED,
    how: UNTOUCHED,
    row: UNTOUCHED as usize,
    pivot: UNTOUCHED,
};

/// Makes the call on its own lists, and hands back the refusal's number and what the places hold.
pub fn made(call: &mut Call) -> (u8, Places) {
    let Places {
        mut slot,
        mut how,
        mut row,
        pivot,
    } = LENT;
    let mut pivot = f32::from_bits(pivot);
    // Each function is handed lists of its own parameters' kinds.
    let refused = unsafe {
        match (call.operation, &call.numbers[..], &mut call.lists[..]) {
            (FromPairs, &[n, count], [pairs, row_offsets, cols, diagonal, blocks, work]) => {
                lend!(bracket_from_pairs(n, count; pairs, row_offsets, cols, diagonal, blocks, work;;))
            }
            (PatternFromPairs, &[n, count], [pairs, row_offsets, cols, diagonal, work]) => {
                lend!(bracket_pattern_from_pairs(n, count; pairs, row_offsets, cols, diagonal, work;;))
            }
            (BlockIndex, &[n, row, col], [row_offsets, cols, diagonal]) => {
                lend!(bracket_block_index(n; row_offsets, cols, diagonal; row, col as u32, &mut slot;))
            }
            (DiagonalIndex, &[n, row], [row_offsets, cols, diagonal]) => {
                lend!(bracket_diagonal_index(n; row_offsets, cols, diagonal; row, &mut slot;))
            }
            (ClearValues, &[n], [row_offsets, cols, diagonal, blocks]) => {
                lend!(bracket_clear_values(n; row_offsets, cols, diagonal, blocks;;))
            }
            (Mul, &[n], [row_offsets, cols, diagonal, blocks, x, out]) => {
                lend!(bracket_mul(n; row_offsets, cols, diagonal, blocks, x, out;;))
            }
            (MakeDirichlet, &[n, row], [row_offsets, cols, diagonal, blocks]) => {
                lend!(bracket_make_dirichlet(n; row_offsets, cols, diagonal; row; blocks))
            }
            (MakeDirichletMarked, ..) => return (pin_marked(call), LENT),
            (Plan, &[n], [r, c, d, perm, inv_perm, first, row_start, work @ ..]) => {
                let [degrees, placed, mark, level, queue] = work else {
                    unreachable!("planning has five work lists")
                };
                lend!(bracket_plan(n; r, c, d, perm, inv_perm, first, row_start, degrees, placed, mark, level, queue;;))
            }
            (Factorize, &[n], [r, c, d, blocks, perm, inv_perm, first, row_start, values]) => {
                lend!(bracket_factorize(n; r, c, d, blocks, perm, inv_perm, first, row_start, values; &mut how, &mut row, &mut pivot;))
            }
            (Solve, &[n], [perm, inv_perm, first, row_start, values, b, x, scratch]) => {
                lend!(bracket_solve(n; perm, inv_perm, first, row_start, values, b, x, scratch;;))
            }
            (UpdatePreconditioner, &[n], [row_offsets, cols, diagonal, blocks, preconditioner]) => {
                lend!(bracket_update_preconditioner(n; row_offsets, cols, diagonal, blocks, preconditioner;;))
            }
            (ConjugateGradient, ..) => return (endings::made(call).0, LENT),
            (FactorizeStepMatrix | SolveStep | ResponseInto, ..) => {
                unreachable!("the step's calls are made in `step`")
            }
            _ => unreachable!("a call has the numbers and lists of its operation"),
        }
    };
    let pivot = pivot.to_bits();
    let places = Places {
        slot,
        how,
        row,
        pivot,
    };
    (refused, places)
}

/// The marks are handed on as bytes, and must stay.
fn pin_marked(call: &mut Call) -> u8 {
    let before = bytes(&call.lists[3]);
    let mut marks = before.clone();
    let refused = make_dirichlet_marked(call, &mut marks);
    assert!(before == marks, "a mark was written: {}", call.line());
    refused
}

pub fn make_dirichlet_marked(call: &mut Call, marks: &mut [u8]) -> u8 {
    match (&call.numbers[..], &mut call.lists[..]) {
        (&[n], [row_offsets, cols, diagonal, _, blocks]) => unsafe {
            lend!(bracket_make_dirichlet_marked(n; row_offsets, cols, diagonal, marks, blocks;;))
        },
        _ => unreachable!("a call has the numbers and lists of its operation"),
    }
}

/// The row and pivot of a failed factorization. A whole one leaves its places as they were.
fn failed(places: &Places, call: &Call) -> Option<(usize, u32)> {
    let &Places {
        how, row, pivot, ..
    } = places;
    let untouched = row == LENT.row && pivot == LENT.pivot;
    match how {
        0 if untouched => None,
        1 => Some((row, pivot)),
        _ => panic!("a factorization is whole or fails: {}", call.line()),
    }
}

/// What the proved call leaves. A list that it is only shown must stay as it is.
pub fn left(call: &Call) -> Left {
    let mut after = call.clone();
    let mut left = match call.operation {
        ConjugateGradient => endings::left(&mut after),
        FactorizeStepMatrix | SolveStep | ResponseInto => step::left(&mut after),
        operation if COLUMNS.contains(&operation) => column_calls::left(&mut after),
        _ => said(&mut after),
    };
    let first_changed = call.operation.first_changed();
    assert!(
        after.lists[..first_changed] == call.lists[..first_changed],
        "a list that is only read was written: {}",
        call.line()
    );
    left.lists = [after.lists.split_off(first_changed), left.lists].concat();
    left
}

/// What the call answers beside its lists.
fn said(after: &mut Call) -> Left {
    let (refused, places) = made(after);
    let call = &*after;
    assert!(
        refused == 0 || places == LENT,
        "a refusal wrote a place: {}",
        call.line()
    );
    let number = match call.operation {
        BlockIndex | DiagonalIndex => Some(places.slot as usize),
        FromPairs | PatternFromPairs if refused == 0 => Some(call.lists[1][call.n()] as usize),
        Plan if refused == 0 => Some(call.lists[6][2 * call.n()] as usize),
        _ => None,
    };
    Left {
        refused,
        failed: match call.operation {
            Factorize if refused == 0 => failed(&places, call),
            _ => None,
        },
        number: number.filter(|_| refused == 0),
        ..Left::default()
    }
}
