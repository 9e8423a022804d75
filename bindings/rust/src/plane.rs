//! Plane numbers, each operation rounded on its own.

use crate::sys;

/// A particle's two numbers.
pub type Vector = [f32; 2];

/// A block as its two columns.
pub type Matrix = [[f32; 2]; 2];

pub const IDENTITY: Matrix = [[1.0, 0.0], [0.0, 1.0]];

/// The square root, correctly rounded.
#[must_use]
pub fn root(x: f32) -> f32 {
    sys::bracket_root(x)
}

#[must_use]
pub fn dot(u: Vector, v: Vector) -> f32 {
    sys::bracket_dot(u[0], u[1], v[0], v[1])
}

#[must_use]
pub fn determinant([c0, c1]: Matrix) -> f32 {
    sys::bracket_determinant(c0[0], c0[1], c1[0], c1[1])
}

/// The block times the vector.
#[must_use]
pub fn times([c0, c1]: Matrix, v: Vector) -> Vector {
    let mut out = [0.0; 2];
    // A short list is all that the call refuses, as is proved.
    let number = sys::bracket_times(c0[0], c0[1], c1[0], c1[1], v[0], v[1], &mut out);
    assert_eq!(number, 0, "a vector has room for a product");
    out
}

/// The inverse by the determinant's reciprocal, whatever that is.
#[must_use]
pub fn inverse([c0, c1]: Matrix) -> Matrix {
    let mut out = [[0.0; 2]; 2];
    // A short list is all that the call refuses, as is proved.
    let number = sys::bracket_inverse(c0[0], c0[1], c1[0], c1[1], out.as_flattened_mut());
    assert_eq!(number, 0, "a block has room for an inverse");
    out
}
