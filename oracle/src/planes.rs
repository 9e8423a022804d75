//! Inputs of the plane operations: vectors and blocks of several kinds, taken in turn.

use crate::draw::Draw;

/// A power of two by which a whole case is scaled, so that its products leave the normal range.
fn scale(draw: &mut Draw) -> f32 {
    f32::from_bits((draw.from_to(127 - 76, 127 + 64) as u32) << 23)
}

/// A case of this turn's kind. `opposed` makes, from four free numbers, a case whose products take
/// each other away: exactly for small whole numbers, nearly for others, rounded and nudged.
fn case<const N: usize>(
    draw: &mut Draw,
    turn: usize,
    opposed: fn([f32; 4]) -> [f32; N],
) -> [f32; N] {
    match turn % 8 {
        0 => [(); N].map(|()| draw.special()),
        1 => [(); N].map(|()| draw.bits()),
        2 => [(); N].map(|()| draw.small_whole()),
        3 => [(); N].map(|()| draw.middling()),
        4 => [(); N].map(|()| draw.any()),
        5 => {
            let scale = scale(draw);
            [(); N].map(|()| draw.middling() * scale)
        }
        6 => opposed([(); 4].map(|()| draw.middling())).map(|x| draw.nudged(x)),
        _ => opposed([(); 4].map(|()| draw.small_whole())),
    }
}

/// ux, uy, vx, vy; opposed: two vectors at right angles.
pub fn vectors(draw: &mut Draw, turn: usize) -> [f32; 4] {
    case(draw, turn, |[a, b, t, _]| [a, b, b * t, -(a * t)])
}

/// c0x, c0y, c1x, c1y; opposed: one column a multiple of the other.
pub fn block(draw: &mut Draw, turn: usize) -> [f32; 4] {
    case(draw, turn, |[a, b, t, _]| [a, b, a * t, b * t])
}

/// A block and a vector; opposed: the vector is one that the block takes to zero.
pub fn block_and_vector(draw: &mut Draw, turn: usize) -> [f32; 6] {
    case(draw, turn, |[a, b, t, s]| {
        [a, b, -(a * t), -(b * t), t * s, s]
    })
}
