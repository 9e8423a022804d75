//! The conjugate gradient.

use crate::error::exact;
use crate::outcome::Told;
use crate::refusal::accepted;
use crate::{sys, BlockMatrix, Error, Matrix, Outcome, Vector};

/// The preconditioner and the solver's work lists, all for the same number of particles.
#[derive(Clone, Debug, Default)]
pub struct ConjugateGradient {
    pub(crate) preconditioner: Vec<Matrix>,
    /// Whether the preconditioner is any matrix's, and not only room.
    pub(crate) preconditioned: bool,
    pub(crate) residual: Vec<Vector>,
    pub(crate) direction: Vec<Vector>,
    pub(crate) a_direction: Vec<Vector>,
    pub(crate) z: Vec<Vector>,
}

impl ConjugateGradient {
    /// Room for `n` particles.
    pub(crate) fn with_room(n: usize) -> Self {
        let list = vec![Vector::default(); n];
        Self {
            preconditioner: vec![Default::default(); n],
            preconditioned: false,
            residual: list.clone(),
            direction: list.clone(),
            a_direction: list.clone(),
            z: list,
        }
    }

    /// Each diagonal block's inverse, or the identity. To be called after every change of the matrix.
    pub fn update_preconditioner(&mut self, matrix: &BlockMatrix) -> Result<(), Error> {
        let n = matrix.num_rows();
        // Room for another number of particles stands aside until the call is accepted.
        let mut other = (self.preconditioner.len() != n).then(|| Self::with_room(n));
        let room = other.as_mut().unwrap_or(&mut *self);
        accepted(sys::bracket_update_preconditioner(
            n,
            &matrix.row_offsets,
            &matrix.cols,
            &matrix.diagonal,
            matrix.numbers(),
            room.preconditioner.as_flattened_mut().as_flattened_mut(),
        ))?;
        if let Some(other) = other {
            *self = other;
        }
        self.preconditioned = true;
        Ok(())
    }

    /// Solves `A x = b` from the guess in `x`, and tells how that ended.
    pub fn solve(
        &mut self,
        matrix: &BlockMatrix,
        b: &[Vector],
        x: &mut [Vector],
        tolerance: f32,
        max_iterations: usize,
    ) -> Result<Outcome, Error> {
        let n = matrix.num_rows();
        if !self.preconditioned {
            return Err(Error::NoPreconditioner);
        }
        exact("preconditioner", n, self.preconditioner.len())?;
        exact("b", n, b.len())?;
        exact("x", n, x.len())?;
        let mut told = Told::default();
        accepted(sys::bracket_conjugate_gradient(
            n,
            &matrix.row_offsets,
            &matrix.cols,
            &matrix.diagonal,
            matrix.numbers(),
            self.preconditioner.as_flattened().as_flattened(),
            b.as_flattened(),
            tolerance,
            max_iterations,
            x.as_flattened_mut(),
            self.residual.as_flattened_mut(),
            self.direction.as_flattened_mut(),
            self.a_direction.as_flattened_mut(),
            self.z.as_flattened_mut(),
            &mut told.how,
            &mut told.count,
            &mut told.residual_squared,
            &mut told.denominator,
        ))?;
        Ok(told.outcome())
    }
}
