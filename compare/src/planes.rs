//! The plane operations' cases.

use oracle::draw::{Draw, SPECIAL};

/// How many cases each operation draws.
const DRAWN: usize = 400_000;

/// Cases of each kind in turn, as `one` makes them.
pub fn drawn<const N: usize>(
    draw: &mut Draw,
    one: fn(&mut Draw, usize) -> [f32; N],
) -> impl Iterator<Item = [f32; N]> + '_ {
    (0..DRAWN).map(move |turn| one(draw, turn))
}

/// Every choice of four special values, then cases of each kind.
pub fn fours(
    draw: &mut Draw,
    one: fn(&mut Draw, usize) -> [f32; 4],
) -> impl Iterator<Item = [f32; 4]> + '_ {
    special_fours().chain(drawn(draw, one))
}

fn special_fours() -> impl Iterator<Item = [f32; 4]> {
    let base = SPECIAL.len();
    let digit =
        move |number: usize, place: u32| f32::from_bits(SPECIAL[number / base.pow(place) % base]);
    (0..base.pow(4)).map(move |number| [0, 1, 2, 3].map(|place| digit(number, place)))
}

/// Ordinary numbers, for timing.
pub fn timed<const N: usize>(draw: &mut Draw, count: usize) -> Vec<[f32; N]> {
    (0..count)
        .map(|_| [(); N].map(|()| draw.middling()))
        .collect()
}
