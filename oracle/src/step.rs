//! The Rust's step over lists: its factor, its solve and its response, untouched, and what the calls
//! leave. Its system is made of the lists. It forgets the mark where 2n is above `max_dense_dofs`, so there
//! the mark that is handed in counts for nothing. How a solve ended is read by `reading.rs`.

use crate::blocks::{over, vector_bits, vectors, Blocks};
use crate::call::{Call, Left, Operation};
use crate::direct::{too_long, Direct};
use crate::dynamics::SoftFemParameters;
use crate::gradient::{agree, Gradient};
use crate::math::Vector;
use crate::reading::{self, Reading};
use crate::soft_fem::system::SoftFemSystem;

/// The limit of a tally's sum (docs/RULES.md § 2).
pub const CAP: u64 = 4_000_000_000;

/// Where a tally counts refused calls. A direct solve is counted at 0, an outcome at its number.
pub const REFUSED: usize = 6;

/// A response's number where no entry is left.
pub const NOTHING: u32 = 6;

/// The Rust's own system and settings, for calls without a line.
pub struct Step {
    pub(crate) system: SoftFemSystem,
    pub(crate) settings: SoftFemParameters,
}

impl Step {
    /// Factor and preconditioner are as they stand in the call, and so is the mark if the plan counts.
    pub fn new(call: &Call, matrix: Blocks) -> Self {
        let (n, dense, iterates) = (call.n(), call.dense(), call.operation.iterates());
        let Gradient(step_cg) = Gradient::from_list(n, &call.lists[9]);
        let direct = dense.then(|| Direct::from_lists(n, &call.lists[4..8], &call.lists[8]).0);
        Self {
            system: SoftFemSystem {
                mass: vec![0.0; n],
                pinned: pinned(call),
                matrix: matrix.0.clone(),
                step_matrix: matrix.0,
                step_cg,
                direct,
                direct_valid: iterates && dense && call.numbers[4] != 0,
                ..SoftFemSystem::default()
            },
            settings: SoftFemParameters {
                max_dense_dofs: call.operation.dense_at().map_or(0, |at| call.numbers[at]),
                linear_tolerance: f32::from_bits(if iterates { call.numbers[2] as u32 } else { 0 }),
                max_linear_iterations: if iterates { call.numbers[1] } else { 0 },
            },
        }
    }

    pub fn factorize(&mut self) {
        self.system.factorize_step_matrix(0.0, &self.settings);
    }

    pub fn solve(&mut self, b: &[Vector], x: &mut [Vector]) {
        self.system.see_solve_step(b, x, &self.settings);
    }

    pub fn respond(&mut self, entries: &[(u32, Vector)], out: &mut [Vector]) -> f32 {
        let entries = entries.iter().copied();
        self.system.response_into(entries, out, &self.settings)
    }
}

/// Which particles are pinned, if the call has marks.
pub(crate) fn pinned(call: &Call) -> Vec<bool> {
    let marks = |at: usize| call.lists[at][..call.n()].iter();
    let at = call.operation.pinned_at();
    at.map_or(Vec::new(), |at| marks(at).map(|&mark| mark != 0).collect())
}

/// The entries of a response or of a combination.
pub fn entries(call: &Call) -> Vec<(u32, Vector)> {
    let Some([count, particles, gradients]) = call.operation.entries_at() else {
        return Vec::new();
    };
    let count = call.numbers[count];
    let gradients = vectors(&call.lists[gradients], count);
    let particles = call.lists[particles][..count].iter().copied();
    particles.zip(gradients).collect()
}

/// The counts with one more of a kind, if their sum is below the cap.
pub fn counted(counts: &[u32], kind: usize) -> Vec<u32> {
    let mut counts = counts.to_vec();
    if counts.iter().map(|&it| u64::from(it)).sum::<u64>() < CAP {
        counts[kind] += 1;
    }
    counts
}

/// 7, if the plan counts and is past the limit: a refused call, and one more of these.
pub(crate) fn past_limit(call: &Call) -> Option<Left> {
    let mut left = call.dense().then(|| too_long(call, &call.lists[4..8]))??;
    if call.operation.counts() {
        let counts = left.lists.pop().expect("the counts are a list");
        left.lists.push(counted(&counts, REFUSED));
        let told = call.operation.answered().len();
        left.lists.resize(told, Vec::new());
    }
    Some(left)
}

/// The number 0 if the mark is set, 2 if the plan doesn't count; a failure has its row and pivot.
pub(crate) fn marked(call: &Call, matrix: Blocks) -> Left {
    if let Some(refused) = past_limit(call) {
        return refused;
    }
    let mut step = Step::new(call, matrix);
    step.factorize();
    let system = step.system;
    let front = Gradient(system.step_cg).preconditioner();
    let mut lists = call.lists[8..].to_vec();
    lists[1] = over(&lists[1], &front, front.len());
    let (mut failed, mut misread) = (None, false);
    if let Some(direct) = system.direct.map(Direct) {
        failed = direct.failure(&Blocks(system.step_matrix));
        let values = direct.values();
        lists[0] = over(&lists[0], &values, values.len());
        misread = system.direct_valid != failed.is_none();
    }
    Left {
        number: match (call.dense(), &failed) {
            (true, Some(_)) => None,
            (dense, _) => Some(if dense { 0 } else { 2 }),
        },
        failed: failed.map(|(row, pivot)| (row, pivot.to_bits())),
        lists,
        misread,
        ..Left::default()
    }
}

/// The iteration that a step solve by this right-hand side comes to, from zeros.
pub fn iteration(call: &Call, b: Vec<u32>) -> Call {
    let n = call.n();
    let mut lists = call.lists[..4].to_vec();
    lists.extend([call.lists[9].clone(), b, vec![0; 2 * n]]);
    lists.resize(Operation::ConjugateGradient.lists().len(), vec![0; 2 * n]);
    Call {
        operation: Operation::ConjugateGradient,
        numbers: call.numbers[..3].to_vec(),
        lists,
    }
}

/// None on the direct route.
pub(crate) fn read(call: &Call, b: Vec<u32>) -> Option<Reading> {
    let iterates = !call.dense() || call.numbers[4] == 0;
    iterates.then(|| reading::of(&iteration(call, b)))
}

/// The solution over the front of its list, work lists zero in their needed part, the counts with one
/// more if a solve was asked for, and what is told: its number and count, the gain if there is one, its floats.
fn ended(call: &Call, x: &[u32], how: u32, read: Option<&Reading>, gain: Option<f32>) -> Left {
    let (needs, first) = (call.needs(), call.operation.first_changed());
    let [lent @ .., counts] = &call.lists[first..] else {
        unreachable!("a step solve has lists to change")
    };
    let mut lists: Vec<Vec<u32>> = lent
        .iter()
        .zip(&needs[first..])
        .map(|(lent, &need)| over(lent, &[], need))
        .collect();
    lists[0] = over(&lent[0], x, x.len());
    lists.push(match how {
        NOTHING => counts.clone(),
        how => counted(counts, how as usize),
    });
    lists.push(vec![how, read.map_or(0, |read| read.count as u32)]);
    let floats = gain
        .into_iter()
        .chain(read.into_iter().flat_map(Reading::floats));
    lists.push(floats.map(f32::to_bits).collect());
    Left {
        lists,
        misread: read.is_some_and(|read| !agree(read, x)),
        ..Left::default()
    }
}

pub(crate) fn solved(call: &Call, matrix: Blocks) -> Left {
    if let Some(refused) = past_limit(call) {
        return refused;
    }
    let n = call.n();
    let mut x = vectors(&call.lists[11], n);
    Step::new(call, matrix).solve(&vectors(&call.lists[10], n), &mut x);
    let x = vector_bits(&x);
    let read = read(call, call.lists[10].clone());
    let how = read.as_ref().map_or(0, |read| read.outcome as u32);
    ended(call, &x, how, read.as_ref(), None)
}

pub(crate) fn responded(call: &Call, matrix: Blocks) -> Left {
    if let Some(refused) = past_limit(call) {
        return refused;
    }
    let (n, mut step) = (call.n(), Step::new(call, matrix));
    let mut out = vectors(&call.lists[13], n);
    let gain = step.respond(&entries(call), &mut out);
    let out = vector_bits(&out);
    let mut particles = call.lists[11][..call.numbers[5]].iter();
    if particles.all(|&particle| step.system.pinned[particle as usize]) {
        return ended(call, &out, NOTHING, None, Some(gain));
    }
    let read = read(call, vector_bits(&step.system.response_rhs));
    let how = read.as_ref().map_or(0, |read| read.outcome as u32);
    ended(call, &out, how, read.as_ref(), Some(gain))
}
