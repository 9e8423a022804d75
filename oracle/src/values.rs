//! Lists of floats, of several kinds taken in turn.

use crate::draw::Draw;

fn either_sign(draw: &mut Draw, x: f32) -> f32 {
    if draw.below(2) == 0 {
        x
    } else {
        -x
    }
}

fn one(draw: &mut Draw, turn: usize) -> f32 {
    match turn % 8 {
        0 => draw.middling(),
        1 => draw.small_whole(),
        2 => draw.any(),
        // Now and then a special value among ordinary ones, so that a sum isn't NaN from its start.
        3 | 4 => {
            if draw.below(32) == 0 {
                draw.any()
            } else {
                draw.middling()
            }
        }
        // Subnormals and the smallest normals.
        5 => {
            let x = f32::from_bits(draw.below(1 << 24));
            either_sign(draw, x)
        }
        6 => either_sign(draw, 0.0),
        // Their products come near the largest number or pass it.
        _ => draw.middling() * 6e18,
    }
}

/// The bits of `length` floats of this turn's kind.
pub fn drawn(draw: &mut Draw, turn: usize, length: usize) -> Vec<u32> {
    (0..length).map(|_| one(draw, turn).to_bits()).collect()
}
