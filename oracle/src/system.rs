//! A stand-in for the soft body's system: the fields that the step and response file uses. The
//! matrix is filled by the caller, so there is nothing to assemble.

use super::soft_fem_skyline::SkylineCholesky;
use super::soft_fem_sparse::{BlockMatrix, ConjugateGradient};
use crate::math::{Real, Vector};

#[path = "soft_fem_system_response.rs"]
mod soft_fem_system_response;

#[derive(Clone, Debug, Default)]
pub(crate) struct SoftFemSystem {
    pub mass: Vec<Real>,
    pub pinned: Vec<bool>,
    pub matrix: BlockMatrix,
    pub operator_fresh: bool,
    pub step_matrix: BlockMatrix,
    pub step_cg: ConjugateGradient,
    pub direct: Option<SkylineCholesky>,
    pub direct_valid: bool,
    pub response_rhs: Vec<Vector>,
    pub column_of: Vec<u32>,
    pub columns: Vec<Vector>,
    pub num_columns: usize,
}

impl SoftFemSystem {
    fn assemble_operator(&mut self, _dt: Real) {}
}
