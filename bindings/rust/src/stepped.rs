//! What the step's calls came to.

use crate::{Factored, Outcome};
use std::fmt;

/// How a step's matrix was factored.
#[derive(Clone, Copy, Debug, PartialEq)]
#[must_use = "it tells which route the step's solves take"]
pub enum Marked {
    Direct,
    /// The factor failed; the step's solves iterate.
    Failed {
        row: usize,
        pivot: f32,
    },
    /// There are more degrees of freedom than `max_dense_dofs`.
    Iterative,
}

/// How a step solve ended.
#[derive(Clone, Copy, Debug, PartialEq)]
#[must_use = "a step solve that gave up is no error: ask `solved()`"]
pub enum Stepped {
    Direct,
    Iterated(Outcome),
}

/// What a response came to.
#[derive(Clone, Copy, Debug, PartialEq)]
#[must_use = "a response whose solve gave up is no error: ask `stepped()`"]
pub enum Responded {
    /// No entry was left, so no step solve was asked for.
    Nothing,
    Direct {
        gain: f32,
    },
    Iterated {
        gain: f32,
        how: Outcome,
    },
}

impl Marked {
    /// How the factorization came out; none if the settings asked for none.
    #[must_use]
    pub fn factored(&self) -> Option<Factored> {
        match *self {
            Self::Direct => Some(Factored::Done),
            Self::Failed { row, pivot } => Some(Factored::Failed { row, pivot }),
            Self::Iterative => None,
        }
    }
}

impl Stepped {
    /// Whether x is a solution: by the factor, or an outcome that is solved.
    #[must_use]
    pub fn solved(&self) -> bool {
        match self {
            Self::Direct => true,
            Self::Iterated(how) => how.solved(),
        }
    }
}

impl Responded {
    /// The gain: +0.0 where nothing was asked for.
    #[must_use]
    pub fn gain(&self) -> f32 {
        match *self {
            Self::Nothing => 0.0,
            Self::Direct { gain } | Self::Iterated { gain, .. } => gain,
        }
    }

    /// How its step solve ended; none if it asked for none.
    #[must_use]
    pub fn stepped(&self) -> Option<Stepped> {
        match *self {
            Self::Nothing => None,
            Self::Direct { .. } => Some(Stepped::Direct),
            Self::Iterated { how, .. } => Some(Stepped::Iterated(how)),
        }
    }
}

impl fmt::Display for Marked {
    fn fmt(&self, f: &mut fmt::Formatter<'_>) -> fmt::Result {
        match self.factored() {
            Some(Factored::Done) => f.write_str("factored; the step's solves are direct"),
            Some(failed) => write!(f, "{failed}; the step's solves iterate"),
            None => f.write_str("not factored, by the settings; the step's solves iterate"),
        }
    }
}

impl fmt::Display for Stepped {
    fn fmt(&self, f: &mut fmt::Formatter<'_>) -> fmt::Result {
        match self {
            Self::Direct => f.write_str("solved: by the factor"),
            Self::Iterated(how) => how.fmt(f),
        }
    }
}

impl fmt::Display for Responded {
    fn fmt(&self, f: &mut fmt::Formatter<'_>) -> fmt::Result {
        match self.stepped() {
            None => f.write_str("gain 0; nothing to solve: no entry is at a free particle"),
            Some(stepped) => write!(f, "gain {}; {stepped}", self.gain()),
        }
    }
}
