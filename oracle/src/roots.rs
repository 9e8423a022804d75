//! Inputs of the square root: where rounding and the split into digits and power can go wrong.

use crate::draw::Draw;

/// A number and its neighbours on either side, by bits.
pub fn with_neighbours(x: f32) -> [f32; 3] {
    let bits = x.to_bits();
    [bits.wrapping_sub(1), bits, bits.wrapping_add(1)].map(f32::from_bits)
}

fn two_to(exponent: i32) -> f64 {
    f64::from_bits(((1023 + exponent) as u64) << 52)
}

/// Every power of two that is an f32.
pub fn powers_of_two() -> impl Iterator<Item = f32> {
    (-149..=127).map(|exponent| two_to(exponent) as f32)
}

/// The square of q · 2^k, where that is an f32.
pub fn square(q: u32, k: i32) -> Option<f32> {
    let exact = f64::from(q) * f64::from(q) * two_to(2 * k);
    let x = exact as f32;
    (x.is_finite() && f64::from(x) == exact).then_some(x)
}

/// Exponents k for `square`: the least and the greatest that can give an f32.
pub const SQUARE_POWERS: std::ops::RangeInclusive<i32> = -74..=63;

/// An f32 whose root lies as near as can be to the middle between two f32.
pub fn near_middle(draw: &mut Draw) -> f32 {
    let q = (1 << 23) + draw.below(1 << 23);
    let middle = f64::from(2 * q + 1);
    (middle * middle * two_to(2 * draw.from_to(-80, 38))) as f32
}

/// Any number whose exponent field is `field`: a subnormal for 0, an infinity or a NaN for 255.
pub fn of_exponent(draw: &mut Draw, field: u32) -> f32 {
    f32::from_bits(field << 23 | draw.below(1 << 23))
}

/// A subnormal of `length` binary digits.
pub fn of_length(draw: &mut Draw, length: u32) -> f32 {
    let top = 1 << (length - 1);
    f32::from_bits(top + draw.below(top))
}
