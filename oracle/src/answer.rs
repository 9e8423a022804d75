//! What the judge answers: one line for each case line, one arm for each operation on plane numbers;
//! the block matrix's are calls.

use crate::blocks;
use crate::call::Call;
use crate::math::{Matrix, Vector};
use crate::text::{answer_line, read_floats};

/// The answer to a case line, or None if it isn't a case.
pub fn answer(line: &str) -> Option<String> {
    let words: Vec<&str> = line.split(' ').collect();
    let (operation, tokens) = words.split_first()?;
    match *operation {
        "root" => read_floats(tokens).map(|[x]| answer_line(&[root(x)])),
        "dot" => read_floats(tokens).map(|given| answer_line(&[dot(given)])),
        "times" => read_floats(tokens).map(|given| answer_line(&times(given))),
        "determinant" => read_floats(tokens).map(|given| answer_line(&[determinant(given)])),
        "inverse" => read_floats(tokens).map(|given| answer_line(&inverse(given))),
        _ => Call::read(operation, tokens).map(|call| call_line(&call)),
    }
}

fn call_line(call: &Call) -> String {
    let left = blocks::left(call);
    assert!(
        !left.misread,
        "the reading isn't the Rust's: {}",
        call.line()
    );
    left.line(call)
}

/// The square root as the source takes it.
pub fn root(x: f32) -> f32 {
    x.sqrt()
}

pub fn dot([ux, uy, vx, vy]: [f32; 4]) -> f32 {
    Vector::new(ux, uy).dot(Vector::new(vx, vy))
}

pub fn times([c0x, c0y, c1x, c1y, vx, vy]: [f32; 6]) -> [f32; 2] {
    let product = block([c0x, c0y, c1x, c1y]) * Vector::new(vx, vy);
    [product.x, product.y]
}

pub fn determinant(given: [f32; 4]) -> f32 {
    block(given).determinant()
}

/// Column 0, then column 1.
pub fn inverse(given: [f32; 4]) -> [f32; 4] {
    let inverse = block(given).inverse();
    let (c0, c1) = (inverse.col(0), inverse.col(1));
    [c0.x, c0.y, c1.x, c1.y]
}

fn block([c0x, c0y, c1x, c1y]: [f32; 4]) -> Matrix {
    Matrix::new(Vector::new(c0x, c0y), Vector::new(c1x, c1y))
}
