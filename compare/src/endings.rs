//! The proved solve by conjugate gradients: a C function that tells how it ended in four lent places.

use crate::lend::UNTOUCHED;
use crate::sys::c::bracket_conjugate_gradient;
use oracle::call::{Call, Left};

/// The places: the outcome's number, its count, and the bits of its floats.
#[derive(Clone, Copy, PartialEq, Eq)]
pub struct Places {
    pub how: u32,
    pub count: usize,
    pub residual_squared: u32,
    pub denominator: u32,
}

/// As they are lent.
const LENT: Places = Places {
    how: UNTOUCHED,
    count: UNTOUCHED as usize,
    residual_squared: UNTOUCHED,
    denominator: UNTOUCHED,
};

/// Makes the call on its own lists, and hands back the refusal's number and the places.
pub fn made(call: &mut Call) -> (u8, Places) {
    let Places {
        mut how, mut count, ..
    } = LENT;
    let [mut residual_squared, mut denominator] =
        [LENT.residual_squared, LENT.denominator].map(f32::from_bits);
    let refused = match (&call.numbers[..], &mut call.lists[..]) {
        (
            &[n, limit, tolerance],
            [r, c, d, blocks, p, b, x, residual, direction, a_direction, z],
        ) => {
            let tolerance = f32::from_bits(tolerance as u32);
            unsafe {
                lend!(bracket_conjugate_gradient(n; r, c, d, blocks, p, b; tolerance, limit; x, residual, direction, a_direction, z;
                    &mut how, &mut count, &mut residual_squared, &mut denominator;))
            }
        }
        _ => unreachable!("a solve has three numbers and eleven lists"),
    };
    let [residual_squared, denominator] = [residual_squared, denominator].map(f32::to_bits);
    let to = Places {
        how,
        count,
        residual_squared,
        denominator,
    };
    (refused, to)
}

/// The refusal's number, and the two lists that tell the outcome.
pub fn left(call: &mut Call) -> Left {
    let (refused, to) = made(call);
    Left {
        refused,
        lists: told(refused, to).to_vec(),
        ..Left::default()
    }
}

/// The two lists. What an outcome doesn't carry must be +0.0, and a refusal must leave the places: otherwise
/// all four are shown, and differ. A direct solve and a response that asked for none carry nothing.
pub fn told(refused: u8, to: Places) -> [Vec<u32>; 2] {
    let floats = [to.residual_squared, to.denominator];
    let carried = match to.how {
        0 | 1 | 6 => 0,
        4 => 2,
        _ => 1,
    };
    let ended = vec![to.how, to.count as u32];
    match refused {
        0 if floats[carried..].iter().all(|&it| it == 0) => [ended, floats[..carried].to_vec()],
        _ if refused > 0 && to == LENT => [Vec::new(), Vec::new()],
        _ => [ended, floats.to_vec()],
    }
}
