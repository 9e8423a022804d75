//! The step: its matrix, and the solves that go through it.

use crate::columns::UNLOADED;
use crate::error::exact;
use crate::matrix::bytes;
use crate::outcome::Told;
use crate::refusal::accepted;
use crate::{
    sys, BlockMatrix, Computed, ConjugateGradient, Error, Marked, Matrix, Refusal, Responded,
    SkylineCholesky, Stepped, Tally, Vector,
};

/// The settings of a step.
#[derive(Clone, Copy, Debug, PartialEq)]
pub struct SoftFemParameters {
    /// The direct solver is used up to this many degrees of freedom, two to a particle.
    pub max_dense_dofs: usize,
    pub linear_tolerance: f32,
    pub max_linear_iterations: usize,
}

/// The part of the Rust's `SoftFemSystem` that the step's solves need. All its lists are for as many particles as there are marks.
#[derive(Clone, Debug, Default)]
pub struct Step {
    /// How the step's matrix was factored; none while there is no matrix.
    pub(crate) marked: Option<Marked>,
    pub(crate) step_matrix: BlockMatrix,
    /// Without a plan until one is needed.
    pub(crate) direct: SkylineCholesky,
    pub(crate) step_cg: ConjugateGradient,
    pub(crate) response_rhs: Vec<Vector>,
    /// A byte for each particle, zero if it's free.
    pub(crate) pinned: Vec<u8>,
    /// The number of each particle's column.
    pub(crate) column_of: Vec<u32>,
    /// Two vectors for each particle and each loaded one, if they are computed.
    pub(crate) columns: Vec<Vector>,
    pub(crate) num_columns: usize,
    /// How the columns' solves ended; none if a particle was loaded or a matrix factored since.
    pub(crate) computed: Option<Computed>,
}

impl Step {
    /// A body of as many particles as there are marks.
    #[must_use]
    pub fn new(pinned: &[bool]) -> Self {
        Self {
            step_cg: ConjugateGradient::with_room(pinned.len()),
            response_rhs: vec![Default::default(); pinned.len()],
            pinned: bytes(pinned),
            column_of: vec![UNLOADED; pinned.len()],
            ..Self::default()
        }
    }

    #[must_use]
    pub fn num_particles(&self) -> usize {
        self.pinned.len()
    }

    /// How the step's matrix was factored; none before one was accepted.
    #[must_use]
    pub fn marked(&self) -> Option<Marked> {
        self.marked
    }

    /// Keeps `matrix` for the step and factors it if it's small enough. The plan is made at the first such call and kept. Columns of
    /// the matrix before are to be computed anew; which particles are loaded stays.
    pub fn factorize_step_matrix(
        &mut self,
        matrix: &BlockMatrix,
        params: &SoftFemParameters,
    ) -> Result<Marked, Error> {
        let n = matrix.num_rows();
        exact("pinned", n, self.num_particles())?;
        // A first plan stands aside until the call is accepted, and the step keeps its matrix until then.
        let first = 2 * n <= params.max_dense_dofs && !self.direct.planned();
        let mut plan = first.then(|| SkylineCholesky::new(matrix)).transpose()?;
        let direct = plan.as_mut().unwrap_or(&mut self.direct);
        let marked = factor(matrix, direct, &mut self.step_cg.preconditioner, params)?;
        if let Some(plan) = plan {
            self.direct = plan;
        }
        self.direct.factored = marked.factored().or(self.direct.factored);
        self.step_cg.preconditioned |= marked != Marked::Direct;
        self.step_matrix.clone_from(matrix);
        self.marked = Some(marked);
        self.computed = None;
        Ok(marked)
    }

    /// Whether the step can be asked: it has a matrix, these lists are for its particles, and there is what these settings use.
    /// By other settings than the matrix was factored by, there may be no plan or no preconditioner.
    pub(crate) fn asked(
        &self,
        lists: &[(&'static str, usize)],
        params: &SoftFemParameters,
    ) -> Result<(), Error> {
        if self.marked.is_none() {
            return Err(Error::NoMatrix);
        }
        for &(list, given) in lists {
            exact(list, self.num_particles(), given)?;
        }
        match 2 * self.num_particles() <= params.max_dense_dofs {
            true if !self.direct.planned() => Err(Error::NoPlan),
            false if !self.step_cg.preconditioned => Err(Error::NoPreconditioner),
            _ => Ok(()),
        }
    }

    /// Solves `A x = b` by the step's factor, or from zero by the conjugate gradient, and counts how that ended.
    pub fn solve_step(
        &mut self,
        b: &[Vector],
        x: &mut [Vector],
        params: &SoftFemParameters,
        tally: &mut Tally,
    ) -> Result<Stepped, Error> {
        tally.counting(self.asked(&[("b", b.len()), ("x", x.len())], params))?;
        let (matrix, direct, cg) = (&self.step_matrix, &mut self.direct, &mut self.step_cg);
        let mut told = Told::default();
        let mut counts = tally.counts();
        let number = sys::bracket_solve_step(
            matrix.num_rows(),
            &matrix.row_offsets,
            &matrix.cols,
            &matrix.diagonal,
            matrix.numbers(),
            &direct.perm,
            &direct.inv_perm,
            &direct.first,
            &direct.row_start,
            &direct.values,
            self.marked == Some(Marked::Direct),
            cg.preconditioner.as_flattened().as_flattened(),
            b.as_flattened(),
            params.linear_tolerance,
            params.max_linear_iterations,
            params.max_dense_dofs,
            x.as_flattened_mut(),
            &mut direct.scratch,
            cg.residual.as_flattened_mut(),
            cg.direction.as_flattened_mut(),
            cg.a_direction.as_flattened_mut(),
            cg.z.as_flattened_mut(),
            &mut counts,
            &mut told.how,
            &mut told.count,
            &mut told.residual_squared,
            &mut told.denominator,
        );
        *tally = counts.into();
        accepted(number)?;
        Ok(told.stepped())
    }

    /// The body's answer to a constraint with these gradients at these particles: the step's solve of their sum into `out`, and the
    /// gain. Pinned particles are skipped; if no entry is left, `out` is zeros and nothing is counted.
    pub fn response_into(
        &mut self,
        entries: &[(u32, Vector)],
        out: &mut [Vector],
        params: &SoftFemParameters,
        tally: &mut Tally,
    ) -> Result<Responded, Error> {
        tally.counting(self.asked(&[("out", out.len())], params))?;
        let (particles, gradients): (Vec<u32>, Vec<Vector>) = entries.iter().copied().unzip();
        let (matrix, direct, cg) = (&self.step_matrix, &mut self.direct, &mut self.step_cg);
        let mut gain = 0.0;
        let mut told = Told::default();
        let mut counts = tally.counts();
        let number = sys::bracket_response_into(
            matrix.num_rows(),
            &matrix.row_offsets,
            &matrix.cols,
            &matrix.diagonal,
            matrix.numbers(),
            &direct.perm,
            &direct.inv_perm,
            &direct.first,
            &direct.row_start,
            &direct.values,
            self.marked == Some(Marked::Direct),
            cg.preconditioner.as_flattened().as_flattened(),
            params.linear_tolerance,
            params.max_linear_iterations,
            params.max_dense_dofs,
            &self.pinned,
            entries.len(),
            &particles,
            gradients.as_flattened(),
            out.as_flattened_mut(),
            self.response_rhs.as_flattened_mut(),
            &mut direct.scratch,
            cg.residual.as_flattened_mut(),
            cg.direction.as_flattened_mut(),
            cg.a_direction.as_flattened_mut(),
            cg.z.as_flattened_mut(),
            &mut counts,
            &mut gain,
            &mut told.how,
            &mut told.count,
            &mut told.residual_squared,
            &mut told.denominator,
        );
        *tally = counts.into();
        accepted(number)?;
        Ok(told.responded(gain))
    }
}

/// The call behind [`Step::factorize_step_matrix`], which leaves plan, factor and preconditioner as they were if it's refused.
fn factor(
    matrix: &BlockMatrix,
    direct: &mut SkylineCholesky,
    preconditioner: &mut [Matrix],
    params: &SoftFemParameters,
) -> Result<Marked, Refusal> {
    let (mut how, mut row, mut pivot) = (0, 0, 0.0);
    accepted(sys::bracket_factorize_step_matrix(
        matrix.num_rows(),
        &matrix.row_offsets,
        &matrix.cols,
        &matrix.diagonal,
        matrix.numbers(),
        &direct.perm,
        &direct.inv_perm,
        &direct.first,
        &direct.row_start,
        params.max_dense_dofs,
        &mut direct.values,
        preconditioner.as_flattened_mut().as_flattened_mut(),
        &mut how,
        &mut row,
        &mut pivot,
    ))?;
    Ok(match how {
        0 => Marked::Direct,
        1 => Marked::Failed { row, pivot },
        _ => Marked::Iterative,
    })
}
