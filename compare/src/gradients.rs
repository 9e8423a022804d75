//! The conjugate gradient: updates of the preconditioner and solves held against the Rust and the
//! oracle's reading of its loop, some and damaged calls against the second program, and times.

use crate::calls::{beside_rust, beside_second};
use crate::damage::damage;
use crate::ends::Ends;
use crate::judge::Judged;
use crate::times::{by_turns, matrix, told};
use crate::{doors, endings, inside};
use oracle::blocks::vectors;
use oracle::call::{Call, Operation};
use oracle::draw::Draw;
use oracle::gradient::Gradient;
use oracle::graphs::{self, Graph};
use oracle::solves;
use std::hint::black_box;

/// How many turns graphs of at most so many particles take.
const UPDATES: [(usize, usize); 3] = [(20_000, 10), (400, 100), (20, 1024)];
const SOLVES: [(usize, usize); 4] = [(48_000, 8), (2400, 60), (160, 300), (24, 1024)];

/// Iteration limits of solves that make hardly any way.
const LONG: [usize; 2] = [1000, 4096];

/// The second program's: so many whole ones and so many damaged ones of each call.
const WHOLE: (usize, usize) = (1600, 5);
const DAMAGED: (usize, usize) = (3000, 5);

/// A solve's iterations, timed.
const TIMED: [usize; 2] = [20, 200];

pub fn compare(draw: &mut Draw) -> usize {
    compare_updates(draw) + compare_solves(draw) + compare_second(draw)
}

fn compare_updates(draw: &mut Draw) -> usize {
    let mut judged = Judged::new("update_preconditioner");
    for (turns, most) in UPDATES {
        for turn in 0..turns {
            let graph = graphs::drawn(draw, turn, most);
            beside_rust(&mut judged, &solves::update(draw, turn, &graph));
        }
    }
    judged.close(", accepted, every list to its end")
}

fn compare_solves(draw: &mut Draw) -> usize {
    let (mut judged, mut ends) = (Judged::new("conjugate_gradient"), Ends::default());
    for (turns, most) in SOLVES {
        for turn in 0..turns {
            let graph = graphs::drawn(draw, turn, most);
            let call = solves::drawn(draw, turn, &graph);
            beside_rust(&mut judged, &call);
            ends.count(&call);
        }
    }
    for graph in [graphs::chain(1024), graphs::grid(32, 32), graphs::hub(1024)] {
        for limit in LONG {
            let call = solves::slow(draw, &graph, limit);
            beside_rust(&mut judged, &call);
            ends.count(&call);
        }
    }
    let differences = judged.close(", x and count beside the Rust, outcome and floats beside a second reading of its loop, every list to its end");
    ends.report();
    differences
}

fn drawn(draw: &mut Draw, turn: usize, most: usize) -> Call {
    let graph = graphs::drawn(draw, turn, most);
    if turn % 4 == 0 {
        solves::update(draw, turn, &graph)
    } else {
        solves::drawn(draw, turn, &graph)
    }
}

/// A setting at its limits, past them, or none at all.
pub fn damage_settings(draw: &mut Draw, call: &mut Call) {
    let tolerances = [
        -0.0,
        f32::from_bits(1),
        -f32::from_bits(1),
        -1.0,
        f32::MAX,
        f32::INFINITY,
        f32::NEG_INFINITY,
        f32::NAN,
    ];
    let limits = [4096, 4097, usize::MAX];
    match draw.below(3) {
        0 => call.numbers[1] = limits[draw.below(3) as usize],
        _ => call.numbers[2] = tolerances[draw.below(8) as usize].to_bits() as usize,
    }
}

fn compare_second(draw: &mut Draw) -> usize {
    let (turns, most) = WHOLE;
    let calls = (0..turns).map(|turn| drawn(draw, turn, most)).collect();
    let whole = beside_second("conjugate gradient, whole calls", calls);
    let (turns, most) = DAMAGED;
    let mut calls = Vec::new();
    for turn in 0..2 * turns {
        let mut call = drawn(draw, turn, most);
        let solves = call.operation == Operation::ConjugateGradient;
        if solves && draw.below(3) == 0 {
            damage_settings(draw, &mut call);
        }
        if !solves || draw.below(3) > 0 {
            damage(draw, &mut call);
        }
        calls.push(call);
    }
    whole + beside_second("conjugate gradient, damaged calls", calls)
}

/// In lists that are no longer than they must be.
fn timed(draw: &mut Draw, graph: &Graph, limit: usize) -> Call {
    let mut call = solves::slow(draw, graph, limit);
    let needs = call.needs();
    for (list, need) in call.lists.iter_mut().zip(needs) {
        list.truncate(need);
    }
    call
}

pub fn times(draw: &mut Draw) {
    println!("times of conjugate_gradient: door/Rust inner/Rust (Rust's microseconds), and of update_preconditioner");
    for (name, graph) in [
        ("chain 1024", graphs::chain(1024)),
        ("grid 8x5", graphs::grid(8, 5)),
        ("grid 32x10", graphs::grid(32, 10)),
        ("grid 32x32", graphs::grid(32, 32)),
        ("hub 1024", graphs::hub(1024)),
    ] {
        let runs: Vec<String> = TIMED.map(|limit| solve(draw, &graph, limit)).to_vec();
        println!("{name}: {}, {}", runs.join(", "), update(draw, &graph));
    }
}

/// From zeros, each time.
fn solve(draw: &mut Draw, graph: &Graph, limit: usize) -> String {
    let mut call = timed(draw, graph, limit);
    let (n, matrix) = (call.n(), matrix(&call));
    let (b, zeros) = (vectors(&call.lists[5], n), vectors(&call.lists[6], n));
    let mut solver = Gradient::from_list(n, &call.lists[4]);
    let mut x = zeros.clone();
    let mut count = 0;
    let rust = |_: &mut Call| {
        x.copy_from_slice(&zeros);
        count = solver.solve(&matrix, black_box(&b), &mut x, 0.0, limit);
    };
    let start = call.lists[6].clone();
    let mut ended = (0, 0, 0);
    let door = |call: &mut Call| {
        call.lists[6].copy_from_slice(&start);
        let (refused, places) = endings::made(call);
        ended = (refused, places.how, places.count);
    };
    let inner = |call: &mut Call| {
        call.lists[6].copy_from_slice(&start);
        inside::conjugate_gradient(call);
    };
    let times = told(by_turns(&mut call, rust, door, inner));
    assert_eq!((ended, count), ((0, 5, limit), limit), "every turn is made");
    format!("{limit} turns {times}")
}

fn update(draw: &mut Draw, graph: &Graph) -> String {
    let mut call = solves::update(draw, 0, graph);
    let matrix = matrix(&call);
    let mut solver = Gradient::updated(&matrix);
    let rust = |_: &mut Call| solver.update(black_box(&matrix));
    let door = |call: &mut Call| assert_eq!(doors::made(call).0, 0, "refused");
    let times = by_turns(&mut call, rust, door, inside::update_preconditioner);
    format!("update {}", told(times))
}
