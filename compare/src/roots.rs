//! The root's cases.

use oracle::draw::{Draw, SPECIAL};
use oracle::roots;

/// Every subnormal, every number from 1 to 4 (both parities of the power, all digits), and the
/// picked ones.
pub fn cases(draw: &mut Draw) -> impl Iterator<Item = [f32; 1]> {
    let subnormal = 0x0000_0000..0x0080_0000;
    let one_to_four = 0x3f80_0000..0x4080_0000;
    let whole_stretches = subnormal.chain(one_to_four).map(f32::from_bits);
    whole_stretches.chain(picked(draw)).map(|x| [x])
}

fn picked(draw: &mut Draw) -> Vec<f32> {
    let mut inputs: Vec<f32> = SPECIAL.map(f32::from_bits).to_vec();
    inputs.extend(roots::powers_of_two().flat_map(roots::with_neighbours));
    inputs.extend(squares().flat_map(roots::with_neighbours));
    for field in 0..=255 {
        inputs.extend((0..4000).map(|_| roots::of_exponent(draw, field)));
        inputs.extend((0..100).map(|_| -roots::of_exponent(draw, field)));
    }
    for length in 1..=23 {
        inputs.extend((0..200).map(|_| roots::of_length(draw, length)));
    }
    inputs.extend((0..200_000).flat_map(|_| roots::with_neighbours(roots::near_middle(draw))));
    inputs.extend((0..500_000).map(|_| draw.bits()));
    inputs
}

/// The squares of q up to 4,096 at every even power of two. An even q is an odd one at another
/// power.
fn squares() -> impl Iterator<Item = f32> {
    let odd = (1..4096).step_by(2);
    odd.flat_map(|q| roots::SQUARE_POWERS.filter_map(move |k| roots::square(q, k)))
}

/// Ordinary numbers above zero, for timing.
pub fn timed(draw: &mut Draw, count: usize) -> Vec<[f32; 1]> {
    (0..count).map(|_| [draw.middling().abs()]).collect()
}
