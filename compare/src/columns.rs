//! Columns: sequences of the five calls over both routes, held against the Rust's own calls and the oracle's reading of how each solve
//! ended; and the reading of one particle.

use crate::calls::{beside, beside_second};
use crate::column_damage;
use crate::column_met::Met;
use crate::doors;
use crate::judge::Judged;
use oracle::call::{Call, Left, Operation};
use oracle::draw::Draw;
use oracle::plan::ENVELOPE;
use oracle::systems::System;
use oracle::tables::{self, sequence};

/// How many sequences are over systems of at most so many particles.
const SEQUENCES: [(usize, usize); 4] = [(12_000, 8), (3000, 24), (200, 200), (20, 1024)];

/// Over plans of 16,384 entries and of the next numbers, so often each.
const PAST: usize = 4;
const EACH: usize = 4;

/// The second program's.
const SECOND: (usize, usize) = (150, 4);

pub fn compare(draw: &mut Draw) -> usize {
    compare_sequences(draw)
        + compare_second(draw)
        + column_damage::compare(draw)
        + compare_reading()
}

fn compare_sequences(draw: &mut Draw) -> usize {
    let (mut judged, mut met) = (Judged::new("columns"), Met::default());
    let mut judge = |draw: &mut Draw, turn: usize, system: System| {
        met.begin();
        sequence(draw, turn, system, |call| {
            // Where the call must be refused, what a refusal leaves.
            let left = beside(&mut judged, call, tables::left(call));
            met.count(call, &left);
            left
        });
    };
    for (turns, most) in SEQUENCES {
        for turn in 0..turns {
            let system = System::drawn(draw, most);
            judge(draw, turn, system);
        }
    }
    for entries in ENVELOPE..=ENVELOPE + PAST {
        (0..EACH).for_each(|turn| judge(draw, turn, System::of_entries(entries)));
    }
    let differences = judged.close(
        ", calls of sequences: table, columns, out, gain and block beside the Rust, how the solves ended beside a second reading of its loop, every list \
         to its end, and the counts",
    );
    met.report();
    met.assert_all();
    differences
}

fn compare_second(draw: &mut Draw) -> usize {
    let mut calls = Vec::new();
    let (turns, most) = SECOND;
    for turn in 0..turns {
        let system = System::drawn(draw, most);
        sequence(draw, turn, system, |call| {
            calls.push(call.clone());
            tables::left(call)
        });
    }
    beside_second("columns, sequences", calls)
}

/// One particle with block (1, 1), (1, 2), and its factor.
struct Single {
    model: Vec<Vec<u32>>,
}

fn bits(floats: &[f32]) -> Vec<u32> {
    floats.iter().map(|x| x.to_bits()).collect()
}

/// What the proved call leaves; lists that it isn't handed here are of two zeros, but for the counts.
fn made(operation: Operation, numbers: &[usize], mut lists: Vec<Vec<u32>>) -> Left {
    lists.resize(operation.lists().len(), vec![0; 2]);
    if operation.counts() {
        lists.pop();
        lists.push(vec![0; 7]);
    }
    doors::left(&Call {
        operation,
        numbers: numbers.to_vec(),
        lists,
    })
}

impl Single {
    fn new() -> Self {
        let mut model = vec![vec![0, 1], vec![0], vec![0], bits(&[1.0, 1.0, 1.0, 2.0])];
        model.extend([vec![0], vec![0], vec![0, 0], vec![0, 1, 3]]);
        model.extend([vec![0; 3], vec![0; 4]]);
        let factored = made(Operation::FactorizeStepMatrix, &[1, 2], model.clone());
        model[8].clone_from(&factored.lists[0]);
        Self { model }
    }

    /// A call by the factor, with these lists behind the model.
    fn by_factor(&self, operation: Operation, lists: &[Vec<u32>]) -> Left {
        let lists = [&self.model, lists].concat();
        made(operation, &[1, 1, 0, 2, 1, 1], lists)
    }
}

/// Its columns (2, -1), (-1, 1) are exact, and so what is combined from them is the response.
fn compare_reading() -> usize {
    let single = Single::new();
    let mut judged = Judged::by("columns of one particle", "read");
    let [pinned, table] = [vec![0], vec![0]];
    let lists = [pinned.clone(), table.clone(), vec![0; 4]];
    let computed = single.by_factor(Operation::ComputeColumns, &lists).lists;
    let (columns, ended) = (bits(&[2.0, -1.0, -1.0, 1.0]), vec![2, 0, 0, 0, 0, 0]);
    judged.count(computed[0] == columns && computed[8] == ended, || {
        let [proved, other] =
            [&computed, &vec![columns.clone(), ended]].map(|it| format!("{it:?}"));
        ["compute_columns".to_string(), proved, other]
    });
    let halves = || (-8..=8).map(|half| half as f32 / 2.0);
    for (x, y) in halves().flat_map(|x| halves().map(move |y| (x, y))) {
        let entry = [vec![0], bits(&[x, y])];
        let lists = [
            &[pinned.clone(), table.clone(), columns.clone()],
            &entry[..],
        ]
        .concat();
        let combined = made(Operation::ResponseFromColumns, &[1, 1, 1], lists).lists;
        let lists = [&[pinned.clone()], &entry[..]].concat();
        let solved = single.by_factor(Operation::ResponseInto, &lists).lists;
        // Out, and the gain.
        let both = [[&combined[0], &combined[2]], [&solved[0], &solved[9]]];
        judged.count(both[0] == both[1], || {
            let [proved, other] = both.map(|it| format!("{it:?}"));
            [format!("response_from_columns {x} {y}"), proved, other]
        });
    }
    judged.close(
        ": (2, -1) and (-1, 1), and what is combined from them is response_into's out and gain",
    )
}
