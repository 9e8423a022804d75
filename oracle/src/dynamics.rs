//! The settings that the step and response file reads.

use crate::math::Real;

#[derive(Clone, Debug)]
pub struct SoftFemParameters {
    pub max_dense_dofs: usize,
    pub linear_tolerance: Real,
    pub max_linear_iterations: usize,
}
