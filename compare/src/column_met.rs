//! What sequences of the columns' calls have met so far.

use oracle::call::{Call, Left, Operation, COLUMNS};
use oracle::columns::{MOST, NOT_LOADED, UNLOADED, WAYS};
use oracle::step::{entries, CAP, NOTHING};

#[derive(Default)]
pub struct Met {
    sequences: usize,
    calls: [usize; 5],
    /// Of each call, by number.
    refused: [[usize; 9]; 5],
    /// New particles loaded, the sixteenth of these, pinned ones, and ones that were loaded.
    loads: [usize; 4],
    /// By the factor, iterated where the plan counts, iterated where it doesn't.
    routes: [usize; 3],
    ends: [usize; WAYS],
    /// None loaded, sixteen loaded, and not numbered in the order of the particles.
    tables: [usize; 3],
    /// Solves that ended in more ways than one.
    mixed: usize,
    /// A fresh tally, one at its cap before the first solve, one that reached it between two, and that between solves of two kinds.
    tallies: [usize; 4],
    /// Combined, nothing left, not loaded.
    combined: [usize; 3],
    /// Not loaded, and entries before it had been added.
    stopped: usize,
    /// Entries that aren't loaded, with weights of zero.
    harmless: usize,
    repeated: usize,
    pinned: usize,
    sixteen: usize,
    /// Weights of -0.0, +0.0, NaN, infinite.
    weights: [usize; 4],
    /// Raw gains above zero and finite, infinite, zero, below zero, NaN.
    gains: [usize; 5],
    /// Blocks of loaded, of pinned particles, of others.
    blocks: [usize; 3],
    /// Combinations and blocks of columns as they were computed for this table, and of others.
    columns: [usize; 2],
    most: usize,
    /// The table and the columns as last computed.
    computed: Option<[Vec<u32>; 2]>,
}

fn sum(counts: &[u32]) -> u64 {
    counts.iter().map(|&it| u64::from(it)).sum()
}

impl Met {
    pub fn begin(&mut self) {
        self.sequences += 1;
        self.computed = None;
    }

    pub fn count(&mut self, call: &Call, left: &Left) {
        let operation = call.operation;
        let at = COLUMNS.into_iter().position(|it| it == operation);
        let at = at.expect("a call of the columns'");
        self.calls[at] += 1;
        self.most = self.most.max(call.n());
        if left.refused > 0 {
            self.refused[at][usize::from(left.refused)] += 1;
            return;
        }
        match operation {
            Operation::ClearColumns => {}
            Operation::LoadParticle => self.count_load(call, left),
            Operation::ComputeColumns => self.count_computed(call, left),
            Operation::ResponseFromColumns => self.count_combined(call, left),
            _ => self.count_block(call, left),
        }
    }

    fn count_load(&mut self, call: &Call, left: &Left) {
        let (loaded, particle) = (call.numbers[1], call.numbers[2]);
        if left.number == Some(loaded + 1) {
            self.loads[0] += 1;
            self.loads[1] += usize::from(loaded + 1 == MOST);
        } else {
            self.loads[2 + usize::from(call.lists[0][particle] == 0)] += 1;
        }
    }

    fn count_computed(&mut self, call: &Call, left: &Left) {
        let n = call.n();
        let [columns, .., ended] = &left.lists[..] else {
            unreachable!("columns, and how the solves ended")
        };
        self.routes[match (call.dense(), call.numbers[4]) {
            (true, 0) => 1,
            (true, _) => 0,
            (false, _) => 2,
        }] += 1;
        for (all, one) in self.ends.iter_mut().zip(ended) {
            *all += *one as usize;
        }
        let table = &call.lists[11][..n];
        let numbers: Vec<u32> = table.iter().copied().filter(|&it| it != UNLOADED).collect();
        self.tables[0] += usize::from(numbers.is_empty());
        self.tables[1] += usize::from(numbers.len() == MOST);
        self.tables[2] += usize::from(!numbers.is_sorted());
        let kinds = ended.iter().filter(|&&count| count > 0).count();
        self.mixed += usize::from(kinds > 1);
        let before = sum(&call.lists[call.lists.len() - 1]);
        let reached = before < CAP && before + sum(ended) > CAP;
        self.tallies[0] += usize::from(before == 0);
        self.tallies[1] += usize::from(before >= CAP && !numbers.is_empty());
        self.tallies[2] += usize::from(reached);
        self.tallies[3] += usize::from(reached && kinds > 1);
        let used = columns[..4 * n * call.loaded()].to_vec();
        self.computed = Some([table.to_vec(), used]);
    }

    /// Whether the columns are as they were computed for this table.
    fn count_columns(&mut self, call: &Call) {
        let n = call.n();
        let used = &call.lists[2][..4 * n * call.loaded()];
        let same = |[table, columns]: &[Vec<u32>; 2]| {
            table[..] == call.lists[1][..n] && columns[..] == *used
        };
        let computed = self.computed.as_ref().is_some_and(same);
        self.columns[usize::from(!computed)] += 1;
    }

    fn count_combined(&mut self, call: &Call, left: &Left) {
        let how = left.lists[1][0];
        self.combined[match how {
            NOTHING => 1,
            NOT_LOADED => 2,
            _ => 0,
        }] += 1;
        let (entries, n) = (entries(call), call.n());
        let (pinned, table) = (&call.lists[0][..n], &call.lists[1][..n]);
        let free = |particle: u32| pinned[particle as usize] == 0;
        let loaded = |particle: u32| table[particle as usize] != UNLOADED;
        let zero = |weight: f32| weight == 0.0;
        self.pinned += usize::from(entries.iter().any(|&(particle, _)| !free(particle)));
        self.sixteen += usize::from(entries.len() == MOST);
        let mut particles: Vec<u32> = entries.iter().map(|&(particle, _)| particle).collect();
        particles.sort_unstable();
        particles.dedup();
        self.repeated += usize::from(particles.len() < entries.len());
        let missed = entries.iter().position(|&(particle, weights)| {
            free(particle) && !loaded(particle) && !(zero(weights.x) && zero(weights.y))
        });
        let met = &entries[..missed.unwrap_or(entries.len())];
        self.stopped +=
            usize::from(missed.is_some() && met.iter().any(|&(particle, _)| free(particle)));
        for &(particle, weights) in met.iter().filter(|&&(particle, _)| free(particle)) {
            self.harmless += usize::from(!loaded(particle));
            for weight in [weights.x, weights.y] {
                self.weights[match weight {
                    _ if zero(weight) => usize::from(weight.is_sign_positive()),
                    _ if weight.is_nan() => 2,
                    _ if weight.is_infinite() => 3,
                    _ => continue,
                }] += 1;
            }
        }
        if how == 0 {
            self.count_columns(call);
            self.count_gain(call, left);
        }
    }

    fn count_gain(&mut self, call: &Call, left: &Left) {
        let out: Vec<f32> = left.lists[0].iter().map(|&it| f32::from_bits(it)).collect();
        let mut raw = 0.0;
        for (particle, gradient) in entries(call) {
            let p = particle as usize;
            if call.lists[0][p] == 0 {
                raw += gradient.x * out[2 * p] + gradient.y * out[2 * p + 1];
            }
        }
        self.gains[match raw {
            _ if raw.is_nan() => 4,
            _ if raw < 0.0 => 3,
            _ if raw == 0.0 => 2,
            _ if raw.is_infinite() => 1,
            _ => 0,
        }] += 1;
    }

    fn count_block(&mut self, call: &Call, left: &Left) {
        let pinned = call.lists[0][call.numbers[2]] != 0;
        self.blocks[match left.lists[1][0] {
            NOT_LOADED => 2,
            _ => usize::from(pinned),
        }] += 1;
        if left.lists[1][0] == 0 && !pinned {
            self.count_columns(call);
        }
    }

    pub fn report(&self) {
        let [clear, load, compute, combine, block] = self.calls;
        println!(
            "  sequences: {}, of calls to clear: {clear}, load: {load}, compute: {compute}, combine: {combine}, block: {block}; up to {} particles",
            self.sequences, self.most,
        );
        for (operation, refused) in COLUMNS.into_iter().zip(&self.refused) {
            let numbers = refused.iter().enumerate().filter(|(_, &count)| count > 0);
            let given: Vec<String> = numbers
                .map(|(no, count)| format!("{no}: {count}"))
                .collect();
            if !given.is_empty() {
                println!("  {} refused by {}", operation.word(), given.join(", "));
            }
        }
        let [new, sixteenth, pinned, again] = self.loads;
        println!("  loaded anew: {new}, the sixteenth: {sixteenth}, pinned: {pinned}, loaded before: {again}");
        let [direct, dense, iterated] = self.routes;
        let [none, full, mixed_up] = self.tables;
        println!(
            "  computed by the factor: {direct}, iterated where the plan counts: {dense}, where it doesn't: {iterated}; none loaded: {none}, \
             sixteen: {full}, not numbered in the particles' order: {mixed_up}"
        );
        let [direct, zero, near, converged, curvature, limit] = self.ends;
        println!(
            "  solves Direct: {direct}, Zero: {zero}, Near: {near}, Converged: {converged}, Curvature: {curvature}, Limit: {limit}; \
             calls with more than one kind: {}",
            self.mixed,
        );
        let [fresh, full, between, kinds] = self.tallies;
        println!(
            "  tallies fresh: {fresh}, at the cap before: {full}, at the cap between two solves: {between}, of more than one kind: {kinds}"
        );
        let [combined, nothing, missing] = self.combined;
        println!(
            "  combined: {combined}, nothing left: {nothing}, not loaded: {missing}, of these after other entries: {}; entries of zero weights that aren't \
             loaded: {}; with repeated particles: {}, with pinned ones: {}, 16 entries: {}",
            self.stopped, self.harmless, self.repeated, self.pinned, self.sixteen,
        );
        let [minus, plus, nan, infinite] = self.weights;
        let [above, endless, zero, below, gain_nan] = self.gains;
        println!(
            "  weights -0.0: {minus}, +0.0: {plus}, NaN: {nan}, infinite: {infinite}; gains above zero: {above}, infinite: {endless}, zero: {zero}, \
             zeroed from below: {below}, zeroed from NaN: {gain_nan}"
        );
        let [loaded, pinned, others] = self.blocks;
        let [computed, stood] = self.columns;
        println!(
            "  blocks of loaded particles: {loaded}, of pinned ones: {pinned}, not loaded: {others}; columns as computed for the table: {computed}, as they \
             stood otherwise: {stood}"
        );
    }

    /// What a run of sequences must have met: a sequence that no longer meets it would show nothing.
    pub fn assert_all(&self) {
        let counts = [
            &self.calls[..],
            &self.loads,
            &self.routes,
            // Zero asks for a right-hand side of zeros, and a column's is none.
            &self.ends[..1],
            &self.ends[2..],
            &self.tables,
            &self.tallies,
            &self.combined,
            &self.weights,
            &self.gains,
            &self.blocks,
            &self.columns,
            &[
                self.mixed,
                self.stopped,
                self.harmless,
                self.repeated,
                self.pinned,
                self.sixteen,
            ],
        ];
        assert!(
            counts.concat().iter().all(|&count| count > 0),
            "the sequences met too little"
        );
    }
}
