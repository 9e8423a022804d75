//! The direct solver.

use crate::error::exact;
use crate::refusal::accepted;
use crate::{sys, BlockMatrix, Error, Refusal, Vector};
use std::fmt;

/// The Cholesky factor in the order planned from a pattern. The plan is made once; [`Self::factorize`] refills it.
#[derive(Clone, Debug, Default)]
pub struct SkylineCholesky {
    pub(crate) perm: Vec<u32>,
    pub(crate) inv_perm: Vec<u32>,
    pub(crate) first: Vec<u32>,
    /// Empty if there is no plan: one of no particles has a row start too.
    pub(crate) row_start: Vec<u32>,
    pub(crate) values: Vec<f32>,
    pub(crate) scratch: Vec<f32>,
    pub(crate) factored: Option<Factored>,
}

/// How a factorization came out.
#[derive(Clone, Copy, Debug, PartialEq)]
#[must_use = "a factorization that failed is no error, but nothing can be solved with it"]
pub enum Factored {
    Done,
    /// The matrix isn't positive definite: this row of the plan's order has a pivot that isn't above zero.
    Failed {
        row: usize,
        pivot: f32,
    },
}

impl Factored {
    /// Whether the factor is whole.
    #[must_use]
    pub fn done(&self) -> bool {
        *self == Self::Done
    }
}

impl fmt::Display for Factored {
    fn fmt(&self, f: &mut fmt::Formatter<'_>) -> fmt::Result {
        match self {
            Self::Done => f.write_str("factored"),
            Self::Failed { row, pivot } => write!(
                f,
                "not factored: row {row} of the plan's order has the pivot {pivot}, which isn't above zero"
            ),
        }
    }
}

impl SkylineCholesky {
    /// The order and envelope of `pattern`, whose values are ignored.
    pub fn new(pattern: &BlockMatrix) -> Result<Self, Error> {
        let n = pattern.num_rows();
        let mut plan = Self {
            perm: vec![0; n],
            inv_perm: vec![0; n],
            first: vec![0; 2 * n],
            row_start: vec![0; 2 * n + 1],
            values: Vec::new(),
            scratch: vec![0.0; 2 * n],
            factored: None,
        };
        plan.fill(pattern)?;
        plan.values.resize(plan.row_start[2 * n] as usize, 0.0);
        Ok(plan)
    }

    fn fill(&mut self, pattern: &BlockMatrix) -> Result<(), Refusal> {
        let n = pattern.num_rows();
        accepted(sys::bracket_plan(
            n,
            &pattern.row_offsets,
            &pattern.cols,
            &pattern.diagonal,
            &mut self.perm,
            &mut self.inv_perm,
            &mut self.first,
            &mut self.row_start,
            &mut vec![0; n],
            &mut vec![0; n],
            &mut vec![0; n],
            &mut vec![0; n],
            &mut vec![0; n],
        ))
    }

    /// Whether there is a plan; [`Self::default`] has none.
    #[must_use]
    pub fn planned(&self) -> bool {
        !self.row_start.is_empty()
    }

    /// How the last accepted factorization came out; none before the first.
    #[must_use]
    pub fn factored(&self) -> Option<Factored> {
        self.factored
    }

    /// The number of stored factor entries.
    #[must_use]
    pub fn envelope_len(&self) -> usize {
        self.values.len()
    }

    /// The particles in their order.
    #[must_use]
    pub fn perm(&self) -> &[u32] {
        &self.perm
    }

    /// Where each row starts in the factor, and where the last one ends.
    #[must_use]
    pub fn row_start(&self) -> &[u32] {
        &self.row_start
    }

    /// The factor, row by row; after a failure what that left.
    #[must_use]
    pub fn values(&self) -> &[f32] {
        &self.values
    }

    /// Factorizes `matrix`, of the pattern that the plan was made from; another is refused unless the plan fits it.
    pub fn factorize(&mut self, matrix: &BlockMatrix) -> Result<Factored, Error> {
        if !self.planned() {
            return Err(Error::NoPlan);
        }
        exact("plan", matrix.num_rows(), self.perm.len())?;
        let (mut how, mut row, mut pivot) = (0, 0, 0.0);
        accepted(sys::bracket_factorize(
            matrix.num_rows(),
            &matrix.row_offsets,
            &matrix.cols,
            &matrix.diagonal,
            matrix.numbers(),
            &self.perm,
            &self.inv_perm,
            &self.first,
            &self.row_start,
            &mut self.values,
            &mut how,
            &mut row,
            &mut pivot,
        ))?;
        let factored = match how {
            0 => Factored::Done,
            _ => Factored::Failed { row, pivot },
        };
        self.factored = Some(factored);
        Ok(factored)
    }

    /// Solves `A x = b` with the factor, which must be whole.
    pub fn solve(&mut self, b: &[Vector], x: &mut [Vector]) -> Result<(), Error> {
        let n = self.perm.len();
        match self.factored {
            Some(Factored::Done) => {}
            Some(Factored::Failed { row, pivot }) => {
                return Err(Error::FactorFailed { row, pivot })
            }
            None if self.planned() => return Err(Error::NotFactored),
            None => return Err(Error::NoPlan),
        }
        exact("b", n, b.len())?;
        exact("x", n, x.len())?;
        accepted(sys::bracket_solve(
            n,
            &self.perm,
            &self.inv_perm,
            &self.first,
            &self.row_start,
            &self.values,
            b.as_flattened(),
            x.as_flattened_mut(),
            &mut self.scratch,
        ))?;
        Ok(())
    }
}
