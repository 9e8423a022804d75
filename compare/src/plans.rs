//! Planning: graphs of every kind held against the Rust, some and damaged calls against the second
//! program, and times.

use crate::calls::{beside_rust, beside_second};
use crate::damage::damage;
use crate::judge::Judged;
use crate::starts::{reading, Reading};
use crate::times::{by_turns, exact, micros, told};
use crate::{doors, inside};
use oracle::blocks::Blocks;
use oracle::call::{Call, Operation};
use oracle::calls::accepted;
use oracle::draw::Draw;
use oracle::graphs::{self, Graph};
use oracle::limits;
use oracle::moves;
use oracle::plan::{Plan, ENVELOPE};
use oracle::shapes::{self, kinds, SIZED};
use std::hint::black_box;

/// How many graphs of at most so many particles each kind has.
const SIZES: [(usize, usize); 4] = [(1100, 12), (300, 60), (60, 300), (8, 1024)];

/// How many graphs have just so many entries: 16,384, and each of the next four numbers.
const LIMIT: usize = 40;
const PAST: usize = 4;

/// Graphs are made whose start moves up to so many times.
const MADE: usize = 6;

/// The readings (docs/RULES.md § 11) of graphs that are too large to be computed in a proof: how many entries they have.
const READINGS: [(fn(usize) -> Graph, usize, usize); 3] = [
    (graphs::chain, 1024, 7_164),
    (graphs::complete, 90, 16_290),
    (graphs::complete, 91, 16_653),
];

/// The second program's: of each kind so many whole ones and so many damaged ones.
const WHOLE: (usize, usize) = (60, 30);
const DAMAGED: (usize, usize) = (400, 7);
const WHOLE_LIMIT: usize = 2;

pub fn compare(draw: &mut Draw) -> usize {
    compare_rust(draw) + compare_second(draw)
}

fn call(draw: &mut Draw, graph: &Graph) -> Call {
    accepted(draw, Operation::Plan, graph, 0)
}

/// A graph of just so many entries, in one part or in several.
fn at_limit(draw: &mut Draw, turn: usize, entries: usize) -> Graph {
    if turn % 2 == 0 {
        limits::connected(draw, entries)
    } else {
        limits::apart(draw, entries)
    }
}

/// What has been met so far.
#[derive(Default)]
struct Met {
    /// The fewest and the most particles.
    sizes: Option<(usize, usize)>,
    moved: [usize; 6],
    parts: usize,
    regular: usize,
    hubs: usize,
    entries: [usize; PAST + 1],
    too_many: usize,
}

impl Met {
    fn count(&mut self, n: usize, read: &Reading, envelope: usize) {
        let (fewest, most) = self.sizes.unwrap_or((n, n));
        self.sizes = Some((fewest.min(n), most.max(n)));
        self.moved[read.moves.min(5)] += 1;
        self.parts += usize::from(read.parts > 1);
        self.regular += usize::from(read.regular);
        self.hubs += usize::from(read.hub);
        self.too_many += usize::from(envelope > ENVELOPE);
        if (ENVELOPE..=ENVELOPE + PAST).contains(&envelope) {
            self.entries[envelope - ENVELOPE] += 1;
        }
    }

    fn report(&self) {
        let [none, one, two, three, four, more] = self.moved;
        println!("  starts that move not: {none}, once: {one}, twice: {two}, three times: {three}, four times: {four}, four times and would again: {more}");
        let Self {
            parts,
            regular,
            hubs,
            entries,
            too_many,
            ..
        } = self;
        let (fewest, most) = self.sizes.unwrap_or_default();
        println!(
            "  {fewest} to {most} particles; in several parts: {parts}; one degree everywhere: {regular}; a hub of all others: {hubs}; \
             envelopes of {ENVELOPE} entries and the next {PAST} numbers: {entries:?}; refused by 7: {too_many}"
        );
    }
}

/// Judges one graph's plan, and hands back how often its start would move.
fn judge(draw: &mut Draw, judged: &mut Judged, met: &mut Met, graph: &Graph) -> usize {
    let call = call(draw, graph);
    beside_rust(judged, &call);
    let read = reading(graph.n, &call.lists[0], &call.lists[1]);
    met.count(graph.n, &read, limits::envelope(graph));
    read.moves
}

fn compare_rust(draw: &mut Draw) -> usize {
    let (mut judged, mut met) = (Judged::new("plan"), Met::default());
    for kind in kinds() {
        for (turns, most) in SIZES {
            for _ in 0..turns {
                let graph = shapes::drawn(draw, kind, most);
                judge(draw, &mut judged, &mut met, &graph);
            }
        }
    }
    let made = (0..=MADE).map(|times| (times, moves::made(draw, times)));
    let told: Vec<(usize, Graph)> = made.chain(moves::found_all()).collect();
    for (times, graph) in told {
        let moves = judge(draw, &mut judged, &mut met, &graph);
        assert_eq!(moves, times, "a start moves as often as it is said to");
    }
    for (shape, n, entries) in READINGS {
        let graph = shape(n);
        judge(draw, &mut judged, &mut met, &graph);
        assert_eq!(limits::envelope(&graph), entries, "a reading of the rules");
    }
    for entries in ENVELOPE..=ENVELOPE + PAST {
        for turn in 0..LIMIT {
            let graph = at_limit(draw, turn, entries);
            judge(draw, &mut judged, &mut met, &graph);
        }
    }
    let each: usize = SIZES.iter().map(|(turns, _)| turns).sum();
    let kinds: Vec<&str> = kinds().map(|(name, _)| name).collect();
    let kinds = kinds.join(", ");
    let differences = judged.close(&format!(
        ", every list to its end: {each} each of {kinds}; {LIMIT} each of {ENVELOPE} entries and the next {PAST} numbers"
    ));
    met.report();
    differences
}

fn compare_second(draw: &mut Draw) -> usize {
    let mut calls = Vec::new();
    for kind in kinds() {
        for _ in 0..WHOLE.0 {
            let graph = shapes::drawn(draw, kind, WHOLE.1);
            calls.push(call(draw, &graph));
        }
    }
    for entries in ENVELOPE..=ENVELOPE + PAST {
        for turn in 0..WHOLE_LIMIT {
            let graph = at_limit(draw, turn, entries);
            calls.push(call(draw, &graph));
        }
    }
    let whole = beside_second("plan, whole calls", calls);
    let mut calls = Vec::new();
    for kind in SIZED {
        for _ in 0..DAMAGED.0 {
            let graph = shapes::drawn(draw, kind, DAMAGED.1);
            let mut call = call(draw, &graph);
            damage(draw, &mut call);
            calls.push(call);
        }
    }
    whole + beside_second("plan, damaged calls", calls)
}

pub fn times(draw: &mut Draw) {
    println!(
        "times of plan: door/Rust inner/Rust (Rust's microseconds); well_formed in microseconds"
    );
    for (name, graph) in [
        ("chain 1024", graphs::chain(1024)),
        ("grid 32x10", graphs::grid(32, 10)),
        ("hub 1024", graphs::hub(1024)),
        ("three hubs 1024", shapes::joined_to_all(3, 1024)),
        ("complete 90", graphs::complete(90)),
        ("random 512 of 1024", graphs::random(draw, 1024, 512)),
        ("random 1024 of 1024", graphs::random(draw, 1024, 1024)),
        ("random 4096 of 1024", graphs::random(draw, 1024, 4096)),
    ] {
        let mut call = exact(draw, Operation::Plan, &graph);
        let matrix = Blocks::from_pairs(graph.n, &graph.flat());
        let mut refused = 0;
        let rust = |_: &mut Call| drop(black_box(Plan::new(black_box(&matrix))));
        let door = |call: &mut Call| refused = doors::made(call).0;
        let plan = told(by_turns(&mut call, rust, door, inside::plan));
        let test = micros(|| inside::well_formed(&mut call));
        let besides = if refused == 0 { "" } else { ", refused by 7" };
        println!("{name}: plan {plan}; well_formed {test:.1}{besides}");
    }
}
