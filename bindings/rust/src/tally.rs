//! The tally of step solves.

use crate::outcome::Told;
use crate::{sys, Error};
use std::fmt;

/// How many step solves ended in each way. A caller lends one record to all calls that it wants counted together; the counts stop
/// at a sum of 4,000,000,000.
#[derive(Clone, Copy, Debug, Default, PartialEq, Eq)]
pub struct Tally {
    pub direct: u32,
    pub zero: u32,
    pub near: u32,
    pub converged: u32,
    pub curvature: u32,
    pub limit: u32,
    /// Those that the proved call refused, and those that the wrapper turned down before it.
    pub refused: u32,
}

impl Tally {
    #[must_use]
    pub fn total(&self) -> u64 {
        self.counts().iter().map(|&count| u64::from(count)).sum()
    }

    /// The counts in their order in C.
    #[must_use]
    pub fn counts(&self) -> [u32; 7] {
        [
            self.direct,
            self.zero,
            self.near,
            self.converged,
            self.curvature,
            self.limit,
            self.refused,
        ]
    }

    /// Counts a step solve that the wrapper itself turns down, as refused.
    pub(crate) fn counting(&mut self, tested: Result<(), Error>) -> Result<(), Error> {
        tested.inspect_err(|_| self.count_refused())
    }

    /// The proved code counts, so that its cap stands in one place: without lists the call is refused, which is all that it writes.
    fn count_refused(&mut self) {
        let (mut counts, mut told) = (self.counts(), Told::default());
        sys::bracket_solve_step(
            0,
            &[],
            &[],
            &[],
            &[],
            &[],
            &[],
            &[],
            &[],
            &[],
            false,
            &[],
            &[],
            0.0,
            0,
            0,
            &mut [],
            &mut [],
            &mut [],
            &mut [],
            &mut [],
            &mut [],
            &mut counts,
            &mut told.how,
            &mut told.count,
            &mut told.residual_squared,
            &mut told.denominator,
        );
        *self = counts.into();
    }
}

impl fmt::Display for Tally {
    fn fmt(&self, f: &mut fmt::Formatter<'_>) -> fmt::Result {
        let Self {
            direct,
            zero,
            near,
            converged,
            curvature,
            limit,
            refused,
        } = self;
        write!(
            f,
            "step solves {}: direct {direct}, zero {zero}, near {near}, converged {converged}, curvature {curvature}, limit {limit}, \
             refused {refused}",
            self.total()
        )
    }
}

impl From<[u32; 7]> for Tally {
    fn from(counts: [u32; 7]) -> Self {
        let [direct, zero, near, converged, curvature, limit, refused] = counts;
        Self {
            direct,
            zero,
            near,
            converged,
            curvature,
            limit,
            refused,
        }
    }
}
