//! The bracket solvers, called safely: the proved C functions behind types that carry the names of the Rust that they were
//! translated from. A call that fails says why by an [`Error`], and leaves the object and every list as they were. How a solve ended
//! is an answer of its own: ask it whether x is [solved](Outcome::solved).
//!
//! A bracket of three particles, the first one bolted to the wall, solved on both routes and then by a step's calls, which are
//! counted:
//!
//! ```
//! use bracket::{BlockMatrix, ConjugateGradient, Error, Factored, Outcome, SkylineCholesky};
//! use bracket::{Marked, SoftFemParameters, Step, Stepped, Tally};
//!
//! let mut matrix = BlockMatrix::from_pairs(3, &[(0, 1), (1, 2)])?;
//! for particle in 0..3 {
//!     *matrix.block_mut(particle, particle)? = [[9.0, 0.0], [0.0, 1.0]];
//! }
//! for (row, col) in [(0, 1), (1, 0), (1, 2), (2, 1)] {
//!     *matrix.block_mut(row, col)? = [[-4.0, 0.0], [0.0, 0.0]];
//! }
//! assert_eq!(matrix.block_mut(0, 2), Err(Error::NoBlock { row: 0, col: 2 }));
//! let pinned = [true, false, false];
//! matrix.make_dirichlet_marked(&pinned)?;
//!
//! let b = [[0.0, 0.0], [0.0, 0.0], [1.0, -2.0]];
//! let (mut x, mut y) = ([[0.0; 2]; 3], [[0.0; 2]; 3]);
//! let mut direct = SkylineCholesky::new(&matrix)?;
//! assert_eq!(direct.solve(&b, &mut x), Err(Error::NotFactored));
//! assert_eq!(direct.factorize(&matrix)?, Factored::Done);
//! direct.solve(&b, &mut x)?;
//! assert_eq!(x[2][1], -2.0);
//!
//! let mut cg = ConjugateGradient::default();
//! cg.update_preconditioner(&matrix)?;
//! let outcome = cg.solve(&matrix, &b, &mut y, 1.0e-5, 200)?;
//! assert!(outcome.solved(), "{outcome}");
//! assert!(matches!(outcome, Outcome::Converged { count: 3, .. }), "{outcome}");
//! assert!((x[1][0] - y[1][0]).abs() < 1.0e-5);
//!
//! let params = SoftFemParameters { max_dense_dofs: 512, linear_tolerance: 1.0e-5, max_linear_iterations: 200 };
//! let (mut step, mut tally) = (Step::new(&pinned), Tally::default());
//! assert_eq!(step.factorize_step_matrix(&matrix, &params)?, Marked::Direct);
//! assert_eq!(step.solve_step(&b, &mut y, &params, &mut tally)?, Stepped::Direct);
//! assert_eq!(x, y);
//! let short = step.solve_step(&b[1..], &mut y, &params, &mut tally).unwrap_err();
//! assert_eq!(short, Error::Length { list: "b", needed: 3, given: 2 });
//! assert_eq!((tally.direct, tally.refused, tally.total()), (1, 1, 2));
//! # Ok::<(), Error>(())
//! ```
//!
//! Constraints at the same particles can share their solves. A loaded particle's two columns, its answers along either axis, are solved
//! once, and combined for each constraint:
//!
//! ```
//! use bracket::{BlockMatrix, Combined, Error, Marked, ParticleBlock, SoftFemParameters, Step, Tally};
//!
//! let mut matrix = BlockMatrix::from_pairs(1, &[])?;
//! *matrix.block_mut(0, 0)? = [[1.0, 1.0], [1.0, 2.0]];
//! let params = SoftFemParameters { max_dense_dofs: 512, linear_tolerance: 1.0e-5, max_linear_iterations: 200 };
//! let (mut step, mut tally) = (Step::new(&[false]), Tally::default());
//! assert_eq!(step.factorize_step_matrix(&matrix, &params)?, Marked::Direct);
//!
//! step.load_particle(0)?;
//! let mut out = [[0.0; 2]];
//! assert_eq!(step.response_from_columns(&[(0, [3.0, 4.0])], &mut out), Err(Error::NotComputed));
//! let computed = step.compute_columns(&params, &mut tally)?;
//! assert!(computed.solved(), "{computed}");
//! assert_eq!(step.response_from_columns(&[(0, [3.0, 4.0])], &mut out)?, Combined::Gain(10.0));
//! assert_eq!(out, [[2.0, 1.0]]);
//!
//! let mut both = [[0.0; 2]; 2];
//! let block = step.particle_block_from_columns(0, &mut both)?;
//! assert_eq!(block, ParticleBlock::Block([[2.0, -1.0], [-1.0, 1.0]]));
//! assert_eq!((tally.direct, tally.total()), (2, 2));
//! # Ok::<(), Error>(())
//! ```
#![deny(unsafe_code)]

mod columns;
mod combined;
#[cfg(doctest)]
mod dropped;
mod error;
mod gradient;
mod matrix;
mod outcome;
pub mod plane;
mod refusal;
mod skyline;
#[cfg(test)]
mod spoiled;
mod step;
mod stepped;
#[allow(unsafe_code)]
mod sys;
mod tally;

pub use combined::{Combined, Computed, ParticleBlock};
pub use error::Error;
pub use gradient::ConjugateGradient;
pub use matrix::{BlockMatrix, ABSENT};
pub use outcome::Outcome;
pub use plane::{Matrix, Vector, IDENTITY};
pub use refusal::Refusal;
pub use skyline::{Factored, SkylineCholesky};
pub use step::{SoftFemParameters, Step};
pub use stepped::{Marked, Responded, Stepped};
pub use tally::Tally;
