//! How a conjugate gradient solve ended.

use crate::{Responded, Stepped};
use std::fmt;

/// `residual_squared` is the running residual's squared length.
#[derive(Clone, Copy, Debug, PartialEq)]
#[must_use = "a solve that gave up is no error: ask `solved()`"]
pub enum Outcome {
    /// b's squared length is 0, and x is zeros.
    Zero { count: usize },
    /// The first residual was within the threshold.
    Near { count: usize, residual_squared: f32 },
    /// The residual came within the threshold.
    Converged { count: usize, residual_squared: f32 },
    /// A denominator wasn't above zero, as happens if the matrix isn't positive definite. x was rescaled.
    Curvature {
        count: usize,
        residual_squared: f32,
        denominator: f32,
    },
    /// All iterations were made. x was rescaled.
    Limit { count: usize, residual_squared: f32 },
}

impl Outcome {
    /// Whether x is a solution within the tolerance: Zero, Near or Converged.
    #[must_use]
    pub fn solved(&self) -> bool {
        match self {
            Self::Zero { .. } | Self::Near { .. } | Self::Converged { .. } => true,
            Self::Curvature { .. } | Self::Limit { .. } => false,
        }
    }

    /// The iterations made.
    #[must_use]
    pub fn count(&self) -> usize {
        match *self {
            Self::Zero { count }
            | Self::Near { count, .. }
            | Self::Converged { count, .. }
            | Self::Curvature { count, .. }
            | Self::Limit { count, .. } => count,
        }
    }

    /// The running residual's squared length; Zero carries none.
    #[must_use]
    pub fn residual_squared(&self) -> Option<f32> {
        match *self {
            Self::Zero { .. } => None,
            Self::Near {
                residual_squared, ..
            }
            | Self::Converged {
                residual_squared, ..
            }
            | Self::Curvature {
                residual_squared, ..
            }
            | Self::Limit {
                residual_squared, ..
            } => Some(residual_squared),
        }
    }
}

impl fmt::Display for Outcome {
    fn fmt(&self, f: &mut fmt::Formatter<'_>) -> fmt::Result {
        let count = self.count();
        f.write_str(match self {
            Self::Zero { .. } => "solved: b's squared length is 0, and x is zeros",
            Self::Near { .. } => "solved: the guess was within the tolerance",
            Self::Converged { .. } => "solved: the residual came within the tolerance",
            Self::Curvature { .. } => {
                "not solved: a denominator wasn't above zero, as happens if the matrix isn't positive definite"
            }
            Self::Limit { .. } => "not solved: all iterations were made",
        })?;
        write!(f, "; iterations {count}")?;
        if let Some(squared) = self.residual_squared() {
            write!(f, ", residual squared {squared:e}")?;
        }
        match self {
            Self::Curvature { denominator, .. } => write!(f, ", denominator {denominator:e}"),
            _ => Ok(()),
        }
    }
}

/// The places that a solve writes how it ended into.
#[derive(Default)]
pub(crate) struct Told {
    pub how: u32,
    pub count: usize,
    pub residual_squared: f32,
    pub denominator: f32,
}

impl Told {
    /// The outcome of an iterated solve, whose numbers are 1 to 5, as is proved.
    pub fn outcome(&self) -> Outcome {
        let &Self {
            how,
            count,
            residual_squared,
            denominator,
        } = self;
        match how {
            1 => Outcome::Zero { count },
            2 => Outcome::Near {
                count,
                residual_squared,
            },
            3 => Outcome::Converged {
                count,
                residual_squared,
            },
            4 => Outcome::Curvature {
                count,
                residual_squared,
                denominator,
            },
            _ => Outcome::Limit {
                count,
                residual_squared,
            },
        }
    }

    /// How a step solve ended: by the factor, or as an iterated one does.
    pub fn stepped(&self) -> Stepped {
        match self.how {
            0 => Stepped::Direct,
            _ => Stepped::Iterated(self.outcome()),
        }
    }

    /// What a response came to; by 6 it asked for no step solve.
    pub fn responded(&self, gain: f32) -> Responded {
        match self.how {
            0 => Responded::Direct { gain },
            6 => Responded::Nothing,
            _ => Responded::Iterated {
                gain,
                how: self.outcome(),
            },
        }
    }
}
