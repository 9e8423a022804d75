//! The Rust's factor and its solve over plans that are handed in, and what the two calls leave.

use crate::blocks::{over, vector_bits, vectors, Blocks};
use crate::call::{Call, Left};
use crate::math::{Real, Vector, DIM};
use crate::plan::ENVELOPE;
use crate::soft_fem::soft_fem_skyline::SkylineCholesky;

/// The Rust's own factor.
pub struct Direct(pub(crate) SkylineCholesky);

impl Direct {
    /// Over a plan that fits, which need not be the Rust's: order, inverse, first columns and row
    /// starts. A longer list's rest is left out, and values that are short of the factor are zeros.
    pub fn from_lists(n: usize, plan: &[Vec<u32>], values: &[u32]) -> Self {
        let row_start = &plan[3][..=DIM * n];
        let mut values: Vec<Real> = values.iter().map(|&bits| f32::from_bits(bits)).collect();
        values.resize(row_start[DIM * n] as usize, 0.0);
        Self(SkylineCholesky::from_lists(
            plan[0][..n].to_vec(),
            plan[1][..n].to_vec(),
            plan[2][..DIM * n].to_vec(),
            row_start.iter().map(|&start| start as usize).collect(),
            values,
        ))
    }

    pub fn values(&self) -> Vec<u32> {
        self.0.see_values().iter().map(|x| x.to_bits()).collect()
    }

    pub fn factorize(&mut self, matrix: &Blocks) -> bool {
        self.0.factorize(&matrix.0)
    }

    pub fn solve(&mut self, b: &[Vector], x: &mut [Vector]) {
        self.0.solve(b, x);
    }

    /// The row and pivot at which the Rust gave up; it tells neither. The end of its loop is read a
    /// second time over what it left: as far as the failing row, entries beside the diagonal are finished.
    pub(crate) fn failure(&self, matrix: &Blocks) -> Option<(usize, Real)> {
        let (order, starts) = (self.0.see_perm(), self.0.see_row_start());
        (0..DIM * order.len()).find_map(|row| {
            let mut pivot = matrix.corner(order[row / DIM], row % DIM);
            for l in &self.0.see_values()[starts[row]..starts[row + 1] - 1] {
                pivot -= l * l;
            }
            // As the Rust has it: a NaN pivot fails.
            #[allow(clippy::neg_cmp_op_on_partial_ord)]
            (!(pivot > 0.0)).then_some((row, pivot))
        })
    }
}

/// 7, if the handed plan is past the limit. The Rust has none.
pub(crate) fn too_long(call: &Call, plan: &[Vec<u32>]) -> Option<Left> {
    let envelope = plan[3][DIM * call.n()] as usize;
    (envelope > ENVELOPE).then(|| Left {
        refused: 7,
        lists: call.lists[call.operation.first_changed()..].to_vec(),
        ..Left::default()
    })
}

/// The factor over the front of the values, whole or as far as it came.
pub fn factorized(call: &Call, matrix: &Blocks) -> Left {
    let plan = &call.lists[4..8];
    if let Some(refused) = too_long(call, plan) {
        return refused;
    }
    let mut direct = Direct::from_lists(call.n(), plan, &[]);
    let factored = direct.factorize(matrix);
    let failed = direct.failure(matrix);
    let values = direct.values();
    Left {
        failed: failed.map(|(row, pivot)| (row, pivot.to_bits())),
        lists: vec![over(&call.lists[8], &values, values.len())],
        misread: factored != failed.is_none(),
        ..Left::default()
    }
}

/// The solution over the front of x, and zeros in the scratch's needed part.
pub fn solved(call: &Call) -> Left {
    let (n, plan) = (call.n(), &call.lists[..4]);
    if let Some(refused) = too_long(call, plan) {
        return refused;
    }
    let mut x = vec![Vector::ZERO; n];
    let mut direct = Direct::from_lists(n, plan, &call.lists[4]);
    direct.solve(&vectors(&call.lists[5], n), &mut x);
    let x = vector_bits(&x);
    Left {
        lists: vec![
            over(&call.lists[6], &x, x.len()),
            over(&call.lists[7], &[], x.len()),
        ],
        ..Left::default()
    }
}
