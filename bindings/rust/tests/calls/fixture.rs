//! The bracket that the step's tests share.

use crate::springs::Bracket;
use bracket::{BlockMatrix, Matrix, SoftFemParameters, Step, Vector};

pub const BRACKET: Bracket = Bracket {
    columns: 5,
    rows: 3,
    mass: 1.0,
    stiffness: 10.0,
};

pub const DENSE: SoftFemParameters = SoftFemParameters {
    max_dense_dofs: 30,
    linear_tolerance: 1.0e-6,
    max_linear_iterations: 500,
};

pub const SPARSE: SoftFemParameters = SoftFemParameters {
    max_dense_dofs: 29,
    ..DENSE
};

/// The bracket's step, factored by these settings.
pub fn factored(params: &SoftFemParameters) -> Step {
    let mut step = Step::new(&BRACKET.pinned());
    let marked = step.factorize_step_matrix(&BRACKET.matrix().unwrap(), params);
    assert!(marked.is_ok(), "{marked:?}");
    step
}

/// The matrix with every value times `k`.
pub fn scaled(matrix: &BlockMatrix, k: f32) -> BlockMatrix {
    let mut scaled = matrix.clone();
    for entry in scaled.blocks_mut().as_flattened_mut().as_flattened_mut() {
        *entry *= k;
    }
    scaled
}

pub fn zeros() -> Vec<Vector> {
    vec![[0.0; 2]; BRACKET.particles()]
}

/// One particle's matrix.
pub fn single(block: Matrix) -> BlockMatrix {
    let mut matrix = BlockMatrix::from_pairs(1, &[]).unwrap();
    matrix.blocks_mut()[0] = block;
    matrix
}

/// Whether no number differs by 1/10,000 or more.
pub fn close(a: &[Vector], b: &[Vector]) -> bool {
    let mut numbers = a.as_flattened().iter().zip(b.as_flattened());
    numbers.all(|(a, b)| (a - b).abs() < 1.0e-4)
}
