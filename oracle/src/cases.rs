//! The stored lists of cases, as functions of a seed.

use crate::call::{Operation, COLUMNS, MATRIX, STEP};
use crate::draw::{Draw, SPECIAL};
use crate::graphs::{self, Graph};
use crate::plan::ENVELOPE;
use crate::shapes::{self, SIZED};
use crate::systems::{self, System, FACTORS, MATRICES, PLANS};
use crate::text::case_line;
use crate::{calls, limits, moves, planes, roots, solves, steps, tables};

const EACH: usize = 400;

/// How many turns the block matrix's small graphs take, how many particles those have at most, and
/// the same of larger ones.
const SMALL: (usize, usize) = (42, 7);
const LARGER: (usize, usize) = (3, 40);

/// The same of each kind of graph to plan.
const PLANNED: (usize, usize) = (5, 9);

/// The same of each kind of matrix to factor, and of each kind of factor.
const FACTORED: (usize, usize) = (12, 6);
const SOLVED: (usize, usize) = (18, 6);

/// The same of the conjugate gradient's, small graphs and larger ones.
const ITERATED: [(usize, usize); 2] = [(160, 4), (16, 20)];

/// The same of each of the step's calls.
const STEPPED: (usize, usize) = (90, 4);

/// The same of each of the columns' calls, and of sequences of them.
const COLUMNED: (usize, usize) = (40, 4);
const SEQUENCES: (usize, usize) = (12, 3);

pub fn plane(seed: u64) -> Vec<String> {
    let draw = &mut Draw::new(seed);
    let mut lines: Vec<String> = root_inputs(draw)
        .into_iter()
        .map(|x| case_line("root", &[x]))
        .collect();
    for turn in 0..EACH {
        lines.push(case_line("dot", &planes::vectors(draw, turn)));
        lines.push(case_line("times", &planes::block_and_vector(draw, turn)));
        lines.push(case_line("determinant", &planes::block(draw, turn)));
        lines.push(case_line("inverse", &planes::block(draw, turn)));
    }
    lines
}

fn root_inputs(draw: &mut Draw) -> Vec<f32> {
    let mut inputs: Vec<f32> = SPECIAL.map(f32::from_bits).to_vec();
    inputs.extend(roots::powers_of_two().flat_map(roots::with_neighbours));
    inputs.extend((0..=255).map(|field| roots::of_exponent(draw, field)));
    inputs.extend((1..=23).map(|length| roots::of_length(draw, length)));
    for k in roots::SQUARE_POWERS {
        let q = 1 + 2 * draw.below(2048);
        inputs.extend(
            roots::square(q, k)
                .into_iter()
                .flat_map(roots::with_neighbours),
        );
    }
    inputs.extend((0..20).flat_map(|_| roots::with_neighbours(roots::near_middle(draw))));
    inputs.extend((0..120).map(|_| draw.bits()));
    inputs
}

pub fn pattern(seed: u64) -> Vec<String> {
    let draw = &mut Draw::new(seed);
    let mut lines = Vec::new();
    small_and_larger(draw, &MATRIX, &mut lines);
    for operation in [Operation::PatternFromPairs, Operation::BlockIndex] {
        lines.push(calls::accepted(draw, operation, &graphs::chain(1024), 0).line());
    }
    small_and_larger(draw, &[Operation::MakeDirichletMarked], &mut lines);
    lines
}

fn small_and_larger(draw: &mut Draw, operations: &[Operation], lines: &mut Vec<String>) {
    for (turns, most) in [SMALL, LARGER] {
        for turn in 0..turns {
            for &operation in operations {
                let graph = graphs::drawn(draw, turn, most);
                lines.push(calls::accepted(draw, operation, &graph, turn).line());
            }
        }
    }
}

/// Graphs of every kind, all that were found to move their start and some made to, the longest chain,
/// and envelopes at the limit and past it.
pub fn plan(seed: u64) -> Vec<String> {
    let draw = &mut Draw::new(seed);
    let mut planned: Vec<Graph> = moves::found_all().map(|(_, graph)| graph).collect();
    let (turns, most) = PLANNED;
    for kind in SIZED {
        planned.extend((0..turns).map(|_| shapes::drawn(draw, kind, most)));
    }
    planned.extend((0..=6).map(|times| moves::made(draw, times)));
    planned.push(graphs::chain(1024));
    for entries in [ENVELOPE, ENVELOPE + 1] {
        planned.push(limits::connected(draw, entries));
        planned.push(limits::apart(draw, entries));
    }
    let line = |graph: &Graph| calls::accepted(draw, Operation::Plan, graph, 0).line();
    planned.iter().map(line).collect()
}

/// Solves of every kind, and updates of the preconditioner.
pub fn gradient(seed: u64) -> Vec<String> {
    let draw = &mut Draw::new(seed);
    let mut lines = Vec::new();
    for (turns, most) in ITERATED {
        for turn in 0..turns {
            let graph = graphs::drawn(draw, turn, most);
            lines.push(solves::drawn(draw, turn, &graph).line());
            if turn % 4 == 0 {
                let graph = graphs::drawn(draw, turn / 4, most);
                lines.push(solves::update(draw, turn / 4, &graph).line());
            }
        }
    }
    lines
}

/// Matrices and factors of every kind, over plans of every kind, and a chain.
pub fn direct(seed: u64) -> Vec<String> {
    let draw = &mut Draw::new(seed);
    let mut lines = Vec::new();
    for kind in MATRICES {
        for _ in 0..FACTORED.0 {
            let system = System::drawn(draw, FACTORED.1);
            lines.push(systems::factorize(draw, kind, system).line());
        }
    }
    for kind in FACTORS {
        for _ in 0..SOLVED.0 {
            let system = System::drawn(draw, SOLVED.1);
            lines.push(systems::solve(draw, kind, system).line());
        }
    }
    for plan in 0..PLANS.len() {
        let system = System::new(draw, &graphs::chain(24), plan);
        lines.push(systems::factorize(draw, MATRICES[0], system).line());
        let system = System::new(draw, &graphs::chain(24), plan);
        lines.push(systems::solve(draw, FACTORS[0], system).line());
    }
    lines
}

/// The step's calls on both routes, and a chain.
pub fn step(seed: u64) -> Vec<String> {
    let draw = &mut Draw::new(seed);
    let mut lines = Vec::new();
    let (turns, most) = STEPPED;
    for operation in STEP {
        for turn in 0..turns {
            let system = System::drawn(draw, most);
            lines.push(steps::drawn(draw, operation, turn, system).line());
        }
        let system = System::new(draw, &graphs::chain(24), 0);
        lines.push(steps::drawn(draw, operation, 0, system).line());
    }
    lines
}

/// The columns' calls, on both routes, and sequences of them.
pub fn columns(seed: u64) -> Vec<String> {
    let draw = &mut Draw::new(seed);
    let mut lines = Vec::new();
    let (turns, most) = COLUMNED;
    for operation in COLUMNS {
        for turn in 0..turns {
            let system = System::drawn(draw, most);
            lines.push(tables::call(draw, operation, turn, system).line());
        }
    }
    let (turns, most) = SEQUENCES;
    for turn in 0..turns {
        let system = System::drawn(draw, most);
        tables::sequence(draw, turn, system, |call| {
            let accepted = tables::refused(call) == 0;
            lines.extend(accepted.then(|| call.line()));
            tables::left(call)
        });
    }
    lines
}
