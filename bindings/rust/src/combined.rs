//! What the calls of a step's columns came to.

use crate::Matrix;
use std::fmt;

/// How many of the columns' solves ended in each way: two for each loaded particle. A combination can't tell a column whose solve gave up
/// from a good one, so this is where to look.
#[derive(Clone, Copy, Debug, Default, PartialEq, Eq)]
#[must_use = "columns whose solves gave up are no error: ask `solved()`"]
pub struct Computed {
    pub direct: u32,
    pub zero: u32,
    pub near: u32,
    pub converged: u32,
    pub curvature: u32,
    pub limit: u32,
}

/// What a combination of columns came to.
#[derive(Clone, Copy, Debug, PartialEq)]
#[must_use = "a particle that isn't loaded is no error: ask `gain()`"]
pub enum Combined {
    /// A particle isn't loaded, and `out` has only what was added up before it: load it, or solve.
    NotLoaded,
    /// No entry was left, and `out` is zeros.
    Nothing,
    Gain(f32),
}

/// What a particle's block came to.
#[derive(Clone, Copy, Debug, PartialEq)]
#[must_use = "a particle that isn't loaded is no error: ask `block()`"]
pub enum ParticleBlock {
    /// The particle isn't loaded, and `out` is as it was.
    NotLoaded,
    /// Zeros if the particle is pinned.
    Block(Matrix),
}

impl Computed {
    /// The columns.
    #[must_use]
    pub fn total(&self) -> u64 {
        let solved = [self.direct, self.zero, self.near, self.converged];
        solved.map(u64::from).iter().sum::<u64>() + self.unsolved()
    }

    /// The columns whose solves gave up, by their curvature or their limit.
    #[must_use]
    pub fn unsolved(&self) -> u64 {
        u64::from(self.curvature) + u64::from(self.limit)
    }

    /// Whether every column is a solution.
    #[must_use]
    pub fn solved(&self) -> bool {
        self.unsolved() == 0
    }
}

impl Combined {
    /// The gain: +0.0 where no entry was left, none where a particle isn't loaded.
    #[must_use]
    pub fn gain(&self) -> Option<f32> {
        match *self {
            Self::NotLoaded => None,
            Self::Nothing => Some(0.0),
            Self::Gain(gain) => Some(gain),
        }
    }
}

impl ParticleBlock {
    /// The block; none if the particle isn't loaded.
    #[must_use]
    pub fn block(&self) -> Option<Matrix> {
        match *self {
            Self::NotLoaded => None,
            Self::Block(block) => Some(block),
        }
    }
}

impl fmt::Display for Computed {
    fn fmt(&self, f: &mut fmt::Formatter<'_>) -> fmt::Result {
        let Self {
            direct,
            zero,
            near,
            converged,
            curvature,
            limit,
        } = self;
        match (self.total(), self.unsolved()) {
            (0, _) => return f.write_str("nothing to solve: no particle is loaded"),
            (all, 0) => write!(f, "solved: {all} columns")?,
            (all, some) => write!(f, "not solved: {some} of {all} columns")?,
        }
        write!(
            f,
            "; direct {direct}, zero {zero}, near {near}, converged {converged}, curvature {curvature}, limit {limit}"
        )
    }
}

impl fmt::Display for Combined {
    fn fmt(&self, f: &mut fmt::Formatter<'_>) -> fmt::Result {
        match self {
            Self::NotLoaded => f.write_str("not combined: a particle isn't loaded"),
            Self::Nothing => {
                f.write_str("gain 0; nothing to combine: no entry is at a free particle")
            }
            Self::Gain(gain) => write!(f, "gain {gain}; combined from the columns"),
        }
    }
}

impl fmt::Display for ParticleBlock {
    fn fmt(&self, f: &mut fmt::Formatter<'_>) -> fmt::Result {
        match self {
            Self::NotLoaded => f.write_str("no block: the particle isn't loaded"),
            Self::Block(block) => write!(f, "block {block:?}"),
        }
    }
}

impl From<[u32; 6]> for Computed {
    fn from(ended: [u32; 6]) -> Self {
        let [direct, zero, near, converged, curvature, limit] = ended;
        Self {
            direct,
            zero,
            near,
            converged,
            curvature,
            limit,
        }
    }
}
