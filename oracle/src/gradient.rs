//! The Rust's conjugate gradient over lists, and what its calls leave. The Rust answers x and a bare
//! count; how the run ended and with what floats is read by `reading.rs`. Where that comes to another x or
//! count, what is left is the Rust's and says that it was misread.

use crate::blocks::{block, block_bits, done, over, vector_bits, vectors, Blocks};
use crate::call::{Call, Left};
use crate::math::Vector;
use crate::reading::{self, Reading};
use crate::soft_fem::soft_fem_sparse::ConjugateGradient;

/// The Rust's own solver, for calls without a line.
pub struct Gradient(pub(crate) ConjugateGradient);

impl Gradient {
    pub fn updated(matrix: &Blocks) -> Self {
        let mut solver = ConjugateGradient::default();
        solver.update_preconditioner(&matrix.0);
        Self(solver)
    }

    /// With a preconditioner as it stands.
    pub fn from_list(n: usize, preconditioner: &[u32]) -> Self {
        let blocks = preconditioner.chunks_exact(4).take(n).map(block);
        Self(ConjugateGradient::from_preconditioner(blocks.collect()))
    }

    pub fn preconditioner(&self) -> Vec<u32> {
        let blocks = self.0.see_preconditioner().iter();
        blocks.flat_map(block_bits).collect()
    }

    pub fn update(&mut self, matrix: &Blocks) {
        self.0.update_preconditioner(&matrix.0);
    }

    pub fn solve(
        &mut self,
        matrix: &Blocks,
        b: &[Vector],
        x: &mut [Vector],
        tolerance: f32,
        limit: usize,
    ) -> usize {
        self.0.solve(&matrix.0, b, x, tolerance, limit)
    }
}

pub(crate) fn updated(call: &Call, matrix: &Blocks) -> Left {
    let front = Gradient::updated(matrix).preconditioner();
    done(None, vec![over(&call.lists[4], &front, front.len())])
}

/// The tolerance and the iteration limit of a solve.
pub fn settings(call: &Call) -> (f32, usize) {
    (f32::from_bits(call.numbers[2] as u32), call.numbers[1])
}

pub(crate) fn solved(call: &Call, matrix: &Blocks) -> Left {
    let n = call.n();
    let (tolerance, limit) = settings(call);
    let b = vectors(&call.lists[5], n);
    let mut x = vectors(&call.lists[6], n);
    let mut solver = Gradient::from_list(n, &call.lists[4]);
    let count = solver.solve(matrix, &b, &mut x, tolerance, limit);
    let x = vector_bits(&x);
    let read = reading::of(call);
    let misread = read.count != count || !agree(&read, &x);
    let mut lists = vec![over(&call.lists[6], &x, x.len())];
    let work = call.lists[7..].iter();
    lists.extend(work.map(|lent| over(lent, &[], 2 * n)));
    lists.push(vec![read.outcome as u32, count as u32]);
    lists.push(read.floats().map(f32::to_bits).collect());
    Left {
        misread,
        ..done(None, lists)
    }
}

/// Bit for bit, but any NaN for any NaN.
pub(crate) fn agree(read: &Reading, x: &[u32]) -> bool {
    let same = |(read, &rust): (&f32, &u32)| {
        read.to_bits() == rust || read.is_nan() && f32::from_bits(rust).is_nan()
    };
    read.x.len() == x.len() && read.x.iter().zip(x).all(same)
}
