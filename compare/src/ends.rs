//! How the solves so far have ended, by the oracle's reading of the loop.

use oracle::call::Call;
use oracle::gradient::settings;
use oracle::reading::{self, Outcome, Rescaled};

/// How many turns make a run's breakdown one after several.
const SEVERAL: usize = 3;

#[derive(Default)]
pub struct Ends {
    outcomes: [usize; 5],
    /// Breakdowns at once, within a few turns, and after several.
    broken: [usize; 3],
    denominators: [usize; 4],
    rescaled: [usize; 9],
    tolerances: [usize; 4],
    infinite: usize,
    vanished: usize,
    minus_zero: usize,
    started: [usize; 4],
    most: (usize, usize),
}

/// Zero, below zero or above, or NaN: one of four.
fn class(x: f32) -> usize {
    match x {
        _ if x.is_nan() => 3,
        _ if x != 0.0 => 0,
        _ if x.is_sign_positive() => 1,
        _ => 2,
    }
}

impl Ends {
    pub fn count(&mut self, call: &Call) {
        let (n, read) = (call.n(), reading::of(call));
        let (tolerance, _) = settings(call);
        self.outcomes[read.outcome as usize - 1] += 1;
        if read.outcome == Outcome::Curvature {
            self.broken[(read.count > 0) as usize + (read.count >= SEVERAL) as usize] += 1;
            self.denominators[class(read.denominator)] += 1;
        }
        if read.rescaled != Rescaled::Not {
            self.rescaled[read.rescaled as usize - 1] += 1;
        }
        self.tolerances[match tolerance {
            _ if tolerance == 0.0 => tolerance.is_sign_negative() as usize,
            _ => 2 + (tolerance >= 1.0) as usize,
        }] += 1;
        let float = |bits: &u32| f32::from_bits(*bits);
        let (b, x) = (&call.lists[5][..2 * n], &call.lists[6][..2 * n]);
        self.infinite += usize::from(read.b_norm == f32::INFINITY);
        self.vanished += usize::from(read.b_norm == 0.0 && b.iter().any(|it| float(it) != 0.0));
        self.minus_zero += usize::from(b.contains(&(-0f32).to_bits()));
        let x: Vec<f32> = x.iter().map(float).collect();
        self.started[match () {
            _ if x.iter().all(|it| *it == 0.0) => 0,
            _ if x.iter().all(|it| it.is_finite()) => 1,
            _ if x.iter().any(|it| it.is_nan()) => 3,
            _ => 2,
        }] += 1;
        self.most = (self.most.0.max(n), self.most.1.max(read.count));
    }

    pub fn report(&self) {
        let [zero, near, converged, curvature, limit] = self.outcomes;
        println!(
            "  Zero: {zero}, Near: {near}, Converged: {converged}, Curvature: {curvature}, Limit: {limit}; \
             up to {} particles and {} turns",
            self.most.0,
            self.most.1,
        );
        let [at_once, soon, later] = self.broken;
        let [below, plus, minus, nan] = self.denominators;
        println!(
            "  breakdowns at once: {at_once}, after 1 or 2 turns: {soon}, after more: {later}; denominators below zero: {below}, \
             +0.0: {plus}, -0.0: {minus}, NaN: {nan}"
        );
        let [zeroed, by_nan, nan, low, high, minus, plus, one, between] = self.rescaled;
        println!(
            "  rescaled to zeros by a denominator at or below zero: {zeroed}, by a NaN one: {by_nan}, by another NaN: {nan}, \
             clamped at 0: {low}, clamped at 1: {high}, by -0.0: {minus}, by +0.0: {plus}, by exactly 1: {one}, between: {between}"
        );
        let [zero, minus, small, large] = self.tolerances;
        let [zeros, finite, infinite, nan] = self.started;
        println!(
            "  tolerances 0: {zero}, -0.0: {minus}, below 1: {small}, 1 or above: {large}; |b|^2 infinite: {}, \
             0 of a b that isn't: {}; b with -0.0: {}; x at the start zeros: {zeros}, finite: {finite}, infinite: {infinite}, \
             NaN: {nan}",
            self.infinite,
            self.vanished,
            self.minus_zero,
        );
    }
}
