//! The plane numbers that the sources import: f32, two dimensions, the arithmetic of the rules, module 1.

#[path = "matrix.rs"]
mod matrix;
#[path = "vector.rs"]
mod vector;

pub use matrix::Matrix;
pub use vector::Vector;

pub type Real = f32;

pub const DIM: usize = 2;
