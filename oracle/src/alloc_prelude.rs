//! The sources import this prelude by name. The patch's sums come into their scope through it.

use crate::math::Real;

/// A sum from +0.0, left to right; docs/RULES.md, module 1.
pub trait SumFromZero {
    fn sum_from_zero(self) -> Real;
}

impl<I: Iterator<Item = Real>> SumFromZero for I {
    fn sum_from_zero(self) -> Real {
        let mut sum = 0.0;
        for term in self {
            sum += term;
        }
        sum
    }
}
