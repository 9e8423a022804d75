//! Step calls that the rules accept, or refuse by 7: both routes, marks, factors and preconditioners
//! that needn't be the matrix's, and constraints.

use crate::call::{Call, Operation};
use crate::calls::lengthen;
use crate::draw::Draw;
use crate::solves::{self, bits};
use crate::systems::{dominant, stiff, System, FACTORS, MATRICES};
use crate::tables;

/// The most entries of a response.
pub(crate) const ENTRIES: usize = 16;

fn below(draw: &mut Draw, limit: usize) -> usize {
    draw.below(limit as u32) as usize
}

/// A matrix of any kind that is factored or iterated elsewhere.
fn fill(draw: &mut Draw, system: &mut System) {
    let iterated = solves::MATRICES as usize;
    let kind = below(draw, MATRICES.len() + 2 * iterated);
    match MATRICES.get(kind) {
        Some((_, matrix)) => matrix(draw, system),
        None => {
            let kind = (kind - MATRICES.len()) % iterated;
            system.blocks = solves::matrix(draw, &system.matrix(), kind as u32);
        }
    }
}

/// At 2n, above it and far above, or below it if that can be.
fn max_dense_dofs(draw: &mut Draw, n: usize) -> usize {
    let dofs = 2 * n;
    match draw.below(10) {
        0..=2 => dofs,
        3 => dofs + 1,
        4 => dofs + below(draw, 400),
        5 => u32::MAX as usize,
        6 | 7 => dofs.saturating_sub(1),
        8 => n,
        _ => 0,
    }
}

/// The matrix's own factor and whether it is whole; or that of another matrix, whole or left by a
/// failure; or a spoiled one, or anything.
fn factor(draw: &mut Draw, system: &System) -> (Vec<u32>, bool) {
    let (own, whole) = system.factor();
    match draw.below(8) {
        0 => {
            let mut other = system.clone();
            dominant(draw, &mut other);
            (other.factor().0, whole)
        }
        1 => {
            let (_, other) = FACTORS[below(draw, FACTORS.len())];
            (other(draw, &mut system.clone()), whole)
        }
        _ => (own, whole),
    }
}

/// The mark as the factor left it, or another.
fn mark(draw: &mut Draw, whole: bool) -> usize {
    usize::from(whole != (draw.below(4) == 0))
}

/// The matrix's own mostly, another matrix's, or any of those that are iterated with elsewhere.
fn preconditioner(draw: &mut Draw, system: &System) -> Vec<f32> {
    let pattern = system.matrix();
    match draw.below(6) {
        0 => {
            let mut other = system.clone();
            dominant(draw, &mut other);
            solves::updated(&pattern, &other.blocks)
        }
        1 | 2 => solves::preconditioner(draw, &pattern, &system.blocks),
        _ => solves::updated(&pattern, &system.blocks),
    }
}

/// Iteration limit and tolerance: any, or such that a solve may converge.
fn settings(draw: &mut Draw) -> [usize; 2] {
    let (limit, tolerance) = match draw.below(3) {
        0 => {
            let tolerance = [1e-5, 1e-3, 1e-1][below(draw, 3)];
            ([10, 40, 200][below(draw, 3)], tolerance)
        }
        _ => (solves::limit(draw), solves::tolerance(draw)),
    };
    [limit, tolerance.to_bits() as usize]
}

/// Any counts, and records whose sum is near the cap.
fn counts(draw: &mut Draw) -> Vec<u32> {
    match draw.below(4) {
        0 => vec![0; 7],
        1 => (0..7).map(|_| draw.word() as u32).collect(),
        2 => (0..7).map(|_| draw.below(1000)).collect(),
        _ => near_cap(draw),
    }
}

/// A sum from four below the cap to four above it, in seven parts of any size.
pub fn near_cap(draw: &mut Draw) -> Vec<u32> {
    let mut left = (crate::step::CAP as u32).wrapping_add_signed(draw.from_to(-4, 4));
    let mut counts = vec![0; 7];
    for count in &mut counts {
        *count = match draw.below(3) {
            0 => 0,
            1 => left,
            _ => draw.below(left.max(1)),
        };
        left -= *count;
    }
    let last = below(draw, 7);
    counts[last] += left;
    counts
}

/// Marks, none, all or some of them set, to any byte but zero.
pub(crate) fn pinned(draw: &mut Draw, n: usize) -> Vec<u32> {
    let kind = draw.below(10);
    let one = |_| {
        let set = match kind {
            0..=3 => false,
            4 => true,
            5 => draw.below(4) > 0,
            _ => draw.below(3) == 0,
        };
        if set {
            1 + draw.below(255)
        } else {
            0
        }
    };
    (0..n).map(one).collect()
}

/// Particles, of all or of a few, so that some are repeated.
fn particles(draw: &mut Draw, n: usize, count: usize) -> Vec<u32> {
    let few = match draw.below(3) {
        0 => n.min(2),
        _ => n,
    };
    (0..count).map(|_| draw.below(few as u32)).collect()
}

/// The gradients of the second half are nearly the opposites of the first's, at the same particles: what is
/// left of their sum is so small that rounding may turn the gain's sign.
fn oppose(draw: &mut Draw, particles: &mut [u32], gradients: &mut [f32]) {
    let half = particles.len() / 2;
    for e in 0..half {
        particles[half + e] = particles[e];
    }
    for d in 0..2 * half {
        gradients[2 * half + d] = draw.nudged(-gradients[d]);
    }
    gradients[4 * half..].fill(0.0);
}

/// What a call is handed beside its system.
struct Given {
    /// Iteration limit, and the tolerance's bits.
    settings: [usize; 2],
    max_dense_dofs: usize,
    mark: usize,
    values: Vec<u32>,
    preconditioner: Vec<f32>,
    /// A step solve's right-hand side, or the gradients.
    vectors: Vec<f32>,
    pinned: Vec<u32>,
    particles: Vec<u32>,
    /// The numbers of the loaded particles' columns, and how many are loaded.
    table: (Vec<u32>, usize),
}

/// To make this call over the system, with values of this turn's kind where they mean nothing.
pub fn drawn(draw: &mut Draw, operation: Operation, turn: usize, mut system: System) -> Call {
    fill(draw, &mut system);
    let n = system.n;
    let (values, whole) = factor(draw, &system);
    let entries = below(draw, if n == 0 { 1 } else { ENTRIES + 1 });
    let length = match operation {
        Operation::ResponseInto => 2 * entries,
        Operation::ComputeColumns => 0,
        _ => 2 * n,
    };
    let vectors = match draw.below(10) {
        0 => solves::anything(draw, length),
        _ => solves::vector(draw, length),
    };
    let mut given = Given {
        settings: settings(draw),
        max_dense_dofs: max_dense_dofs(draw, n),
        mark: mark(draw, whole),
        values,
        preconditioner: preconditioner(draw, &system),
        vectors,
        pinned: pinned(draw, n),
        particles: particles(draw, n, entries),
        table: Default::default(),
    };
    if operation == Operation::ComputeColumns {
        given.table = tables::drawn(draw, &given.pinned);
    }
    if operation == Operation::ResponseInto && draw.below(5) == 0 {
        oppose(draw, &mut given.particles, &mut given.vectors);
    }
    let mut call = assembled(operation, system, given);
    close(draw, &mut call, turn);
    call
}

/// By a whole factor of springs, with four entries or four loaded particles and nothing pinned, in lists that are no longer than they must be.
pub fn direct(draw: &mut Draw, operation: Operation, mut system: System) -> Call {
    stiff(draw, &mut system);
    let n = system.n;
    let given = Given {
        settings: settings(draw),
        max_dense_dofs: 2 * n,
        mark: 1,
        values: system.factor().0,
        preconditioner: solves::updated(&system.matrix(), &system.blocks),
        vectors: match operation {
            Operation::ResponseInto => solves::values_of(draw, 0, 8),
            Operation::ComputeColumns => Vec::new(),
            _ => solves::values_of(draw, 0, 2 * n),
        },
        pinned: vec![0; n],
        particles: (0..4).map(|_| draw.below(n as u32)).collect(),
        table: tables::screws(n),
    };
    let mut call = assembled(operation, system, given);
    let needs = call.needs();
    for (list, need) in call.lists.iter_mut().zip(needs) {
        list.resize(need, 0);
    }
    call
}

fn assembled(operation: Operation, system: System, given: Given) -> Call {
    let mut numbers = vec![system.n];
    let mut lists = system.pattern.to_vec();
    lists.push(bits(&system.blocks));
    lists.extend(system.plan);
    lists.extend([given.values, bits(&given.preconditioner)]);
    if operation.iterates() {
        numbers.extend(given.settings);
    }
    numbers.push(given.max_dense_dofs);
    if operation.iterates() {
        numbers.push(given.mark);
    }
    if operation == Operation::ResponseInto {
        numbers.push(given.particles.len());
        lists.extend([given.pinned, given.particles]);
        lists.push(bits(&given.vectors));
    } else if operation == Operation::ComputeColumns {
        let (table, loaded) = given.table;
        numbers.push(loaded);
        lists.extend([given.pinned, table]);
    } else if operation.iterates() {
        lists.push(bits(&given.vectors));
    }
    lists.resize(operation.lists().len(), Vec::new());
    Call {
        operation,
        numbers,
        lists,
    }
}

/// The rest of a list of marks is bytes too.
pub(crate) fn marks_as_bytes(call: &mut Call) {
    if let Some(at) = call.operation.pinned_at() {
        call.lists[at].iter_mut().for_each(|mark| *mark &= 0xff);
    }
}

/// Every list as long as it must be or longer. Where the plan doesn't count, its lists and the factor may be
/// anything, even empty.
fn close(draw: &mut Draw, call: &mut Call, turn: usize) {
    if !call.dense() && draw.below(2) == 0 {
        call.lists[4..9].iter_mut().for_each(Vec::clear);
    }
    lengthen(draw, call, turn);
    if call.operation.counts() {
        let last = call.lists.len() - 1;
        call.lists[last] = counts(draw);
    }
    marks_as_bytes(call);
}
