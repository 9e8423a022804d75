//! What the step's calls have met so far: routes, marks and factors, outcomes, gains.

use crate::times::matrix;
use oracle::call::{Call, Left, Operation};
use oracle::direct::Direct;
use oracle::gradient::Gradient;
use oracle::step::entries;

#[derive(Default)]
pub struct Met {
    /// By `max_dense_dofs`: above 2n, exactly 2n, one less, less still.
    routes: [usize; 4],
    refused: usize,
    failed: usize,
    /// A direct solve, the outcomes, and a response that asked for none.
    ends: [usize; 7],
    /// Where the plan counts. The mark is set and the factor the matrix's own and whole, its own and
    /// failed, another; the mark isn't set and the factor its own and whole, its own and failed, another.
    marks: [usize; 6],
    /// Iterated with the matrix's own preconditioner, and with another.
    preconditioners: [usize; 2],
    /// Pinned none, some, all.
    pinned: [usize; 3],
    repeated: usize,
    sixteen: usize,
    minus_zero: usize,
    nan: usize,
    /// Raw gains above zero and finite, infinite, +0.0, below zero, NaN.
    gains: [usize; 5],
    /// The tally had reached the cap.
    full: usize,
    most: usize,
}

fn floats(bits: &[u32]) -> impl Iterator<Item = f32> + '_ {
    bits.iter().copied().map(f32::from_bits)
}

impl Met {
    pub fn count(&mut self, call: &Call, left: &Left) {
        let (n, at) = (call.n(), call.operation.dense_at());
        let dense = at.map_or(0, |at| call.numbers[at]);
        self.most = self.most.max(n);
        self.routes[match dense {
            _ if dense > 2 * n => 0,
            _ if dense == 2 * n => 1,
            _ if dense + 1 == 2 * n => 2,
            _ => 3,
        }] += 1;
        if left.refused > 0 {
            self.refused += 1;
            return;
        }
        if call.operation == Operation::FactorizeStepMatrix {
            self.failed += usize::from(left.failed.is_some());
            return;
        }
        let told = &left.lists[left.lists.len() - 2..];
        self.ends[told[0][0] as usize] += 1;
        let counts = call.lists[call.lists.len() - 1].iter();
        self.full += usize::from(counts.map(|&it| u64::from(it)).sum::<u64>() >= 4_000_000_000);
        self.count_state(call, told[0][0]);
        if call.operation == Operation::ResponseInto {
            self.count_constraint(call, &left.lists[0], told[0][0] == 6);
        }
    }

    fn count_state(&mut self, call: &Call, how: u32) {
        let n = call.n();
        if call.dense() {
            let mut own = Direct::from_lists(n, &call.lists[4..8], &[]);
            let whole = own.factorize(&matrix(call));
            let own = own.values();
            let kind = match own == call.lists[8][..own.len()] {
                true => usize::from(!whole),
                false => 2,
            };
            self.marks[kind + if call.numbers[4] == 0 { 3 } else { 0 }] += 1;
        }
        if (1..=5).contains(&how) {
            let own = Gradient::updated(&matrix(call)).preconditioner();
            self.preconditioners[usize::from(own != call.lists[9][..4 * n])] += 1;
        }
    }

    fn count_constraint(&mut self, call: &Call, out: &[u32], nothing: bool) {
        let pinned = &call.lists[10][..call.n()];
        let set = pinned.iter().filter(|&&mark| mark != 0).count();
        self.pinned[match set {
            0 => 0,
            _ if set < pinned.len() => 1,
            _ => 2,
        }] += 1;
        let entries = entries(call);
        let mut particles: Vec<u32> = entries.iter().map(|&(particle, _)| particle).collect();
        particles.sort_unstable();
        particles.dedup();
        self.repeated += usize::from(particles.len() < entries.len());
        self.sixteen += usize::from(entries.len() == 16);
        let gradients = &call.lists[12][..2 * entries.len()];
        self.minus_zero += usize::from(gradients.contains(&(-0f32).to_bits()));
        self.nan += usize::from(floats(gradients).any(f32::is_nan));
        if nothing {
            return;
        }
        let out: Vec<f32> = floats(out).collect();
        let mut raw = 0.0;
        for (particle, gradient) in entries {
            let p = particle as usize;
            if pinned[p] == 0 {
                raw += gradient.x * out[2 * p] + gradient.y * out[2 * p + 1];
            }
        }
        self.gains[match raw {
            _ if raw.is_nan() => 4,
            _ if raw < 0.0 => 3,
            _ if raw == 0.0 => 2,
            _ if raw.is_infinite() => 1,
            _ => 0,
        }] += 1;
    }

    pub fn report(&self, operation: Operation) {
        let [above, equal, one_less, less] = self.routes;
        println!(
            "  max_dense_dofs above 2n: {above}, exactly 2n: {equal}, one less: {one_less}, less still: {less}; refused by 7: {}; \
             up to {} particles",
            self.refused,
            self.most,
        );
        if operation == Operation::FactorizeStepMatrix {
            println!("  factors that failed: {}", self.failed);
            return;
        }
        let [direct, zero, near, converged, curvature, limit, nothing] = self.ends;
        println!(
            "  Direct: {direct}, Zero: {zero}, Near: {near}, Converged: {converged}, Curvature: {curvature}, Limit: {limit}, \
             nothing asked for: {nothing}; of them with a tally at its cap: {}",
            self.full,
        );
        let [whole, failed, other, unset_whole, unset_failed, unset_other] = self.marks;
        println!(
            "  where the plan counts, mark set over the matrix's whole factor: {whole}, over its failed one: {failed}, \
             over another: {other}; not set over its whole factor: {unset_whole}, over its failed one: {unset_failed}, \
             over another: {unset_other}"
        );
        let [own, other] = self.preconditioners;
        println!("  iterated with the matrix's preconditioner: {own}, with another: {other}");
        if operation == Operation::ResponseInto {
            let [none, some, all] = self.pinned;
            let [above, infinite, zero, below, nan] = self.gains;
            println!(
                "  pinned none: {none}, some: {some}, all: {all}; with repeated particles: {}, 16 entries: {}, \
                 gradients with -0.0: {}, with NaN: {}",
                self.repeated,
                self.sixteen,
                self.minus_zero,
                self.nan,
            );
            println!("  gains above zero: {above}, infinite: {infinite}, zero: {zero}, zeroed from below: {below}, zeroed from NaN: {nan}");
        }
    }
}
