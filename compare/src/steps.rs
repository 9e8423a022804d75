//! The step's calls: both routes, with marks, factors and preconditioners as they may stand, held against the
//! Rust and the oracle's reading of the loop, some and damaged calls against the second program.

use crate::calls::{beside_rust, beside_second};
use crate::damage::damage;
use crate::gradients::damage_settings;
use crate::judge::Judged;
use crate::met::Met;
use oracle::call::{Call, Operation, STEP};
use oracle::draw::Draw;
use oracle::plan::ENVELOPE;
use oracle::steps::drawn;
use oracle::systems::System;

/// How many systems of at most so many particles each call has.
const MARKED: [(usize, usize); 4] = [(6000, 8), (400, 40), (60, 200), (24, 1024)];
const SOLVED: [(usize, usize); 4] = [(9000, 8), (800, 40), (80, 200), (24, 1024)];
const RESPONDED: [(usize, usize); 4] = [(12_000, 8), (1000, 40), (80, 200), (24, 1024)];

/// Plans of 16,384 entries and of the next numbers, so often each.
const PAST: usize = 4;
const EACH: usize = 4;

/// The second program's: so many whole ones and so many damaged ones of each call.
const WHOLE: (usize, usize) = (500, 5);
const DAMAGED: (usize, usize) = (2500, 5);

pub fn compare(draw: &mut Draw) -> usize {
    let marked = judged(draw, "factorize_step_matrix", STEP[0], MARKED);
    let solved = judged(draw, "solve_step", STEP[1], SOLVED);
    let responded = judged(draw, "response_into", STEP[2], RESPONDED);
    marked + solved + responded + compare_second(draw)
}

fn judged(
    draw: &mut Draw,
    word: &'static str,
    operation: Operation,
    sizes: [(usize, usize); 4],
) -> usize {
    let (mut judged, mut met) = (Judged::new(word), Met::default());
    let mut judge = |call: Call| {
        met.count(&call, &beside_rust(&mut judged, &call));
    };
    for (turns, most) in sizes {
        for turn in 0..turns {
            let system = System::drawn(draw, most);
            judge(drawn(draw, operation, turn, system));
        }
    }
    for entries in ENVELOPE..=ENVELOPE + PAST {
        for turn in 0..EACH {
            judge(drawn(draw, operation, turn, System::of_entries(entries)));
        }
    }
    let differences = judged.close(match operation {
        Operation::FactorizeStepMatrix => ", mark, row and pivot, every list to its end",
        Operation::SolveStep => ", x beside the Rust, outcome and floats beside a second reading of its loop, every list to its end, and the counts",
        _ => ", solution and gain beside the Rust, outcome and floats beside a second reading of its loop, every list to its end, and the counts",
    });
    met.report(operation);
    differences
}

/// The size that may be factored, at its limits.
pub fn damage_route(draw: &mut Draw, call: &mut Call) {
    let dofs = call.n().saturating_mul(2);
    let some = [0, dofs.saturating_sub(1), dofs, usize::MAX];
    if let Some(at) = call.operation.dense_at() {
        call.numbers[at] = some[draw.below(4) as usize];
    }
}

/// The number of entries at a limit, past it, or far past it; or an entry at no particle.
fn damage_entries(draw: &mut Draw, call: &mut Call) {
    let entries = call.numbers[5];
    if draw.below(2) == 0 {
        let some = [0, entries + 1, 16, 17, u32::MAX as usize, usize::MAX];
        call.numbers[5] = some[draw.below(6) as usize];
    } else if let Some(last) = entries.min(call.lists[11].len()).checked_sub(1) {
        call.lists[11][last] = [call.n() as u32, u32::MAX][draw.below(2) as usize];
    }
}

fn damaged(draw: &mut Draw, mut call: Call) -> Call {
    if draw.below(3) > 0 {
        damage(draw, &mut call);
    }
    if draw.below(6) == 0 {
        damage_route(draw, &mut call);
    }
    if call.operation == Operation::ResponseInto && draw.below(4) == 0 {
        damage_entries(draw, &mut call);
    }
    if call.operation.iterates() && draw.below(4) == 0 {
        damage_settings(draw, &mut call);
    }
    call
}

fn compare_second(draw: &mut Draw) -> usize {
    let mut calls = |(turns, most): (usize, usize), change: fn(&mut Draw, Call) -> Call| {
        let mut calls = Vec::new();
        for operation in STEP {
            for turn in 0..turns {
                let system = System::drawn(draw, most);
                let call = drawn(draw, operation, turn, system);
                calls.push(change(draw, call));
            }
        }
        calls
    };
    let mut whole = calls(WHOLE, |_, call| call);
    let damaged = calls(DAMAGED, damaged);
    for entries in ENVELOPE + 1..=ENVELOPE + PAST {
        let system = System::of_entries(entries);
        whole.extend(STEP.map(|it| drawn(draw, it, 0, system.clone())));
    }
    beside_second("step, whole calls", whole) + beside_second("step, damaged calls", damaged)
}
