//! The Rust side: the oracle's functions in the same C form.

use crate::sides::Side;
use oracle::answer;

extern "C" fn root(x: f32) -> f32 {
    answer::root(x)
}

extern "C" fn dot(ux: f32, uy: f32, vx: f32, vy: f32) -> f32 {
    answer::dot([ux, uy, vx, vy])
}

extern "C" fn determinant(c0x: f32, c0y: f32, c1x: f32, c1y: f32) -> f32 {
    answer::determinant([c0x, c0y, c1x, c1y])
}

/// Writes the answer at the buffer's start, or refuses a shorter buffer by its number (docs/RULES.md § 3).
///
/// # Safety
/// `out` must point to `len` floats.
unsafe fn give<const M: usize>(answer: [f32; M], out: *mut f32, len: usize) -> u8 {
    if len < M {
        return 3;
    }
    *out.cast::<[f32; M]>() = answer;
    0
}

unsafe extern "C" fn times(
    c0x: f32,
    c0y: f32,
    c1x: f32,
    c1y: f32,
    vx: f32,
    vy: f32,
    out: *mut f32,
    len: usize,
) -> u8 {
    give(answer::times([c0x, c0y, c1x, c1y, vx, vy]), out, len)
}

unsafe extern "C" fn inverse(
    c0x: f32,
    c0y: f32,
    c1x: f32,
    c1y: f32,
    out: *mut f32,
    len: usize,
) -> u8 {
    give(answer::inverse([c0x, c0y, c1x, c1y]), out, len)
}

pub const RUST: Side = Side {
    root,
    dot,
    determinant,
    times,
    inverse,
};
