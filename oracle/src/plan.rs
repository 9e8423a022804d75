//! The Rust's plan of a pattern, and what planning leaves.

use crate::blocks::{over, Blocks};
use crate::call::{Call, Left};
use crate::soft_fem::soft_fem_skyline::SkylineCholesky;

/// The limit of envelope entries (docs/RULES.md § 2). The Rust has none.
pub const ENVELOPE: usize = 16_384;

/// The Rust's own plan, for calls without a line.
pub struct Plan(SkylineCholesky);

impl Plan {
    pub fn new(pattern: &Blocks) -> Self {
        Self(SkylineCholesky::new(&pattern.0))
    }

    pub fn envelope(&self) -> usize {
        self.0.see_values().len()
    }

    /// Order, inverse, first columns and row starts. The last are usize in the Rust.
    pub fn lists(&self) -> [Vec<u32>; 4] {
        let row_start = self.0.see_row_start().iter().map(|&start| start as u32);
        [
            self.0.see_perm().to_vec(),
            self.0.see_inv_perm().to_vec(),
            self.0.see_first().to_vec(),
            row_start.collect(),
        ]
    }
}

/// The plan over the front of its four lists, or 7 and those as they were; either way the work lists' needed part is zero.
pub fn left(call: &Call, pattern: &Blocks) -> Left {
    let plan = Plan::new(pattern);
    let envelope = plan.envelope();
    let fits = envelope <= ENVELOPE;
    let (lent, work) = call.lists[3..].split_at(4);
    let mut lists = lent.to_vec();
    if fits {
        let laid = lent.iter().zip(plan.lists());
        lists = laid
            .map(|(lent, front)| over(lent, &front, front.len()))
            .collect();
    }
    lists.extend(work.iter().map(|lent| over(lent, &[], call.n())));
    Left {
        refused: if fits { 0 } else { 7 },
        number: fits.then_some(envelope),
        lists,
        ..Left::default()
    }
}
