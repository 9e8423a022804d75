//! Times of the step's calls on the direct route: the doors and the work behind them, beside the Rust's.

use crate::inside;
use crate::step::{made, marks};
use crate::times::{by_turns, matrix, told};
use oracle::blocks::vectors;
use oracle::call::{Call, Operation};
use oracle::draw::Draw;
use oracle::graphs;
use oracle::step::{entries, Step};
use oracle::steps::direct;
use oracle::systems::System;
use std::hint::black_box;

pub fn times(draw: &mut Draw) {
    println!("times of the step on the direct route: door/Rust inner/Rust (Rust's microseconds)");
    for (name, graph) in [
        ("chain 1024", graphs::chain(1024)),
        ("grid 32x10", graphs::grid(32, 10)),
        ("grid 8x5", graphs::grid(8, 5)),
    ] {
        let system = System::new(draw, &graph, 0);
        let solved = solve(direct(draw, Operation::SolveStep, system.clone()));
        let responded = respond(direct(draw, Operation::ResponseInto, system));
        println!("{name}: solve_step {solved}; response_into {responded}");
    }
}

fn beside(
    call: &mut Call,
    mut rust: impl FnMut(),
    mut inner: impl FnMut(&mut Call, &mut [u8]),
) -> String {
    let pinned = marks(call);
    let door = |(call, pinned): &mut (&mut Call, Vec<u8>)| {
        let said = made(call, pinned);
        assert_eq!((said.refused, said.ending.how), (0, 0), "by the factor");
    };
    let inner = |(call, pinned): &mut (&mut Call, Vec<u8>)| inner(call, pinned);
    told(by_turns(&mut (call, pinned), |_| rust(), door, inner))
}

fn solve(mut call: Call) -> String {
    let n = call.n();
    let (mut step, b) = (Step::new(&call, matrix(&call)), vectors(&call.lists[10], n));
    let mut x = b.clone();
    let rust = || step.solve(black_box(&b), &mut x);
    beside(&mut call, rust, |call, _| inside::step_route(call))
}

fn respond(mut call: Call) -> String {
    let (mut step, entries) = (Step::new(&call, matrix(&call)), entries(&call));
    let mut out = vectors(&call.lists[13], call.n());
    let rust = || {
        black_box(step.respond(black_box(&entries), &mut out));
    };
    let inner = |call: &mut Call, pinned: &mut [u8]| {
        black_box(inside::respond(call, pinned));
    };
    beside(&mut call, rust, inner)
}
