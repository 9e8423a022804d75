//! The Rust over lists: what an accepted call leaves. Its block matrix is here, its plan, its factor, its
//! conjugate gradient and its step next door.

use crate::call::{building_needs, Call, Left, Operation};
use crate::math::{Matrix, Real, Vector};
use crate::soft_fem::soft_fem_sparse::BlockMatrix;
use crate::{columns, direct, gradient, plan, step};

/// The Rust's own matrix, for calls without a line.
pub struct Blocks(pub(crate) BlockMatrix);

impl Blocks {
    pub fn from_pairs(n: usize, pairs: &[u32]) -> Self {
        let pairs = pairs.chunks_exact(2).map(|pair| (pair[0], pair[1]));
        Self(BlockMatrix::from_pairs(n, pairs))
    }

    /// The matrix of well-formed lists; a longer list's rest is left out.
    pub fn from_lists(n: usize, pattern: [&[u32]; 3], blocks: &[u32]) -> Self {
        let [row_offsets, cols, diagonal] = pattern;
        let count = row_offsets[n] as usize;
        Self(BlockMatrix::from_lists(
            row_offsets[..=n].to_vec(),
            cols[..count].to_vec(),
            diagonal[..n].to_vec(),
            blocks.chunks_exact(4).take(count).map(block).collect(),
        ))
    }

    /// Row offsets, columns and diagonal slots.
    pub fn pattern(&self) -> [&[u32]; 3] {
        [
            self.0.see_row_offsets(),
            self.0.see_cols(),
            self.0.see_diagonal(),
        ]
    }

    pub fn blocks(&self) -> Vec<u32> {
        self.0.blocks.iter().flat_map(block_bits).collect()
    }

    pub fn block_index(&self, row: u32, col: u32) -> u32 {
        self.0.block_index(row, col)
    }

    /// Adds to a stored block, as a caller of the source does: its slot, then its value.
    pub fn add(&mut self, row: u32, col: u32, block: Matrix) {
        let slot = self.0.block_index(row, col);
        let stored = &mut self.0.blocks[slot as usize];
        *stored = *stored + block;
    }

    /// The columns of a row, as the Rust hands them to a closure.
    pub fn columns(&self, row: u32) -> Vec<u32> {
        let mut columns = Vec::new();
        self.0.for_each_block_of_row(row, |c, _| columns.push(c));
        columns
    }

    pub fn mul(&self, x: &[Vector], out: &mut [Vector]) {
        self.0.mul(x, out);
    }

    pub fn make_dirichlet(&mut self, row: u32) {
        self.0.make_dirichlet(row);
    }

    /// The Rust has no such call: its own for each marked row, one after the other.
    pub fn make_dirichlet_marked(&mut self, marks: &[u8]) {
        for (row, &mark) in marks.iter().enumerate() {
            if mark != 0 {
                self.make_dirichlet(row as u32);
            }
        }
    }

    /// A particle's own block at row and column d.
    pub(crate) fn corner(&self, particle: u32, d: usize) -> Real {
        let slot = self.0.diagonal_index(particle);
        self.0.blocks[slot as usize].col(d)[d]
    }
}

pub(crate) fn block(bits: &[u32]) -> Matrix {
    Matrix::new(vector(&bits[..2]), vector(&bits[2..]))
}

pub(crate) fn block_bits(block: &Matrix) -> [u32; 4] {
    let (c0, c1) = (block.col(0), block.col(1));
    [c0.x, c0.y, c1.x, c1.y].map(f32::to_bits)
}

/// A list of bytes. What is no byte becomes the largest.
pub fn bytes(list: &[u32]) -> Vec<u8> {
    list.iter().map(|&item| item.min(255) as u8).collect()
}

fn vector(bits: &[u32]) -> Vector {
    Vector::new(f32::from_bits(bits[0]), f32::from_bits(bits[1]))
}

/// The first n vectors of a list.
pub fn vectors(bits: &[u32], n: usize) -> Vec<Vector> {
    bits.chunks_exact(2).take(n).map(vector).collect()
}

pub(crate) fn vector_bits(vectors: &[Vector]) -> Vec<u32> {
    let bits = |v: &Vector| [v.x.to_bits(), v.y.to_bits()];
    vectors.iter().flat_map(bits).collect()
}

/// `front`, then zeros up to `need`, over the start of what was lent; its rest stays.
pub(crate) fn over(lent: &[u32], front: &[u32], need: usize) -> Vec<u32> {
    let mut list = lent.to_vec();
    list[..front.len()].copy_from_slice(front);
    list[front.len()..need].fill(0);
    list
}

/// What the Rust answers to a call that the rules accept.
pub fn left(call: &Call) -> Left {
    match call.operation {
        Operation::FromPairs | Operation::PatternFromPairs => built(call),
        Operation::BlockIndex | Operation::DiagonalIndex => found(call),
        Operation::ClearValues | Operation::MakeDirichlet | Operation::MakeDirichletMarked => {
            revalued(call)
        }
        Operation::Mul => multiplied(call),
        Operation::Plan => planned(call),
        Operation::UpdatePreconditioner => gradient::updated(call, &matrix(call, &call.lists[3])),
        Operation::ConjugateGradient => gradient::solved(call, &matrix(call, &call.lists[3])),
        Operation::Factorize => direct::factorized(call, &matrix(call, &call.lists[3])),
        Operation::Solve => direct::solved(call),
        Operation::FactorizeStepMatrix => step::marked(call, matrix(call, &call.lists[3])),
        Operation::SolveStep => step::solved(call, matrix(call, &call.lists[3])),
        Operation::ResponseInto => step::responded(call, matrix(call, &call.lists[3])),
        Operation::ComputeColumns => columns::computed(call, matrix(call, &call.lists[3])),
        Operation::ClearColumns | Operation::LoadParticle => columns::numbered(call),
        Operation::ResponseFromColumns => columns::combined(call),
        Operation::ParticleBlockFromColumns => columns::block(call),
    }
}

pub(crate) fn done(number: Option<usize>, lists: Vec<Vec<u32>>) -> Left {
    Left {
        number,
        lists,
        ..Left::default()
    }
}

fn built(call: &Call) -> Left {
    let (n, count) = (call.n(), call.numbers[1]);
    let matrix = Blocks::from_pairs(n, &call.lists[0][..2 * count]);
    let [row_offsets, cols, diagonal] = matrix.pattern();
    let (blocks, work) = (matrix.blocks(), Vec::new());
    let fronts = [row_offsets, cols, diagonal, &blocks, &work];
    let [_, needs @ ..] = building_needs(n, count);
    let kept = match call.operation {
        Operation::FromPairs => vec![0, 1, 2, 3, 4],
        _ => vec![0, 1, 2, 4],
    };
    let lent = call.lists[1..].iter().zip(kept);
    let lists = lent.map(|(lent, at)| over(lent, fronts[at], needs[at]));
    done(Some(cols.len()), lists.collect())
}

fn matrix(call: &Call, blocks: &[u32]) -> Blocks {
    let pattern = [0, 1, 2].map(|at| call.lists[at].as_slice());
    Blocks::from_lists(call.n(), pattern, blocks)
}

fn found(call: &Call) -> Left {
    let Blocks(matrix) = matrix(call, &[]);
    let row = call.numbers[1] as u32;
    let slot = match call.operation {
        Operation::BlockIndex => matrix.block_index(row, call.numbers[2] as u32),
        _ => matrix.diagonal_index(row),
    };
    done(Some(slot as usize), Vec::new())
}

fn revalued(call: &Call) -> Left {
    let lent = &call.lists[call.operation.first_changed()];
    let mut matrix = matrix(call, lent);
    match call.operation {
        Operation::ClearValues => matrix.0.clear_values(),
        Operation::MakeDirichlet => matrix.make_dirichlet(call.numbers[1] as u32),
        _ => matrix.make_dirichlet_marked(&bytes(&call.lists[3][..call.n()])),
    }
    let blocks = matrix.blocks();
    done(None, vec![over(lent, &blocks, blocks.len())])
}

/// The Rust walks over the pattern's blocks without looking at them.
fn planned(call: &Call) -> Left {
    plan::left(call, &matrix(call, &vec![0; 4 * call.lists[1].len()]))
}

fn multiplied(call: &Call) -> Left {
    let x = vectors(&call.lists[4], call.n());
    let mut out = vec![Vector::ZERO; call.n()];
    matrix(call, &call.lists[3]).mul(&x, &mut out);
    let out = vector_bits(&out);
    done(None, vec![over(&call.lists[5], &out, out.len())])
}
