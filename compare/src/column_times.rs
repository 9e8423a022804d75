//! Times of the columns' calls on the direct route: the doors and the work behind them, beside the Rust's; and four screws on one
//! bracket: their columns once and a combination for each constraint, against a solve for each.

use crate::column_calls::made;
use crate::inside;
use crate::step::{self, marks};
use crate::times::{by_turns, matrix, told};
use oracle::blocks::vectors;
use oracle::call::{Call, Operation};
use oracle::draw::Draw;
use oracle::graphs;
use oracle::step::{entries, Step};
use oracle::steps::direct;
use oracle::systems::System;
use oracle::tables::screws;
use std::hint::black_box;

/// So many constraints are told of beside the number from which on columns pay.
const CONSTRAINTS: [usize; 2] = [8, 64];

/// What a call takes: through the door, the work behind it, and in the Rust, in microseconds.
type Micros = [f64; 3];

pub fn times(draw: &mut Draw) {
    println!("times of columns on the direct route: door/Rust inner/Rust (Rust's microseconds)");
    for (name, graph) in [
        ("chain 1024", graphs::chain(1024)),
        ("grid 32x10", graphs::grid(32, 10)),
        ("grid 8x5", graphs::grid(8, 5)),
    ] {
        let system = System::new(draw, &graph, 0);
        let mut call = direct(draw, Operation::ComputeColumns, system.clone());
        let computed = compute(&mut call);
        let combined = combine(draw, &call);
        let block = block(&call);
        let mut constraint = direct(draw, Operation::ResponseInto, system);
        let solved = respond(&mut constraint);
        println!(
            "{name}: compute_columns {}, response_from_columns {}, particle_block_from_columns {}",
            told(ratios(computed)),
            told(ratios(combined)),
            told(ratios(block)),
        );
        let four: Vec<String> = CONSTRAINTS
            .map(|k| {
                format!(
                    "four screws {k} {}",
                    told(ratios(sum(k, computed, combined)))
                )
            })
            .to_vec();
        println!("{name}: {}", four.join(", "));
        println!(
            "  {name}: four screws' columns pay from so many constraints on: {}; {} constraints take of so many solves: {}",
            pays(computed, combined, solved),
            CONSTRAINTS[1],
            shares(CONSTRAINTS[1], computed, combined, solved),
        );
    }
}

/// The door's ratio, the work's, and the Rust's microseconds.
fn ratios([door, inner, rust]: Micros) -> [f64; 3] {
    [door / rust, inner / rust, rust]
}

fn micros([door, inner, rust]: [f64; 3]) -> Micros {
    [door * rust, inner * rust, rust]
}

/// Columns once, and so many combinations.
fn sum(constraints: usize, computed: Micros, combined: Micros) -> Micros {
    [0, 1, 2].map(|side| computed[side] + constraints as f64 * combined[side])
}

const SIDES: [&str; 3] = ["door", "inner", "Rust"];

fn each(one: impl Fn(usize) -> String) -> String {
    let told = [0, 1, 2].map(|side| format!("{} {}", SIDES[side], one(side)));
    told.join(", ")
}

/// The least number of constraints for which columns take less time than a solve for each.
fn pays(computed: Micros, combined: Micros, solved: Micros) -> String {
    each(|side| {
        let saved = solved[side] - combined[side];
        match computed[side] / saved {
            least if saved > 0.0 => (least.floor() + 1.0).to_string(),
            _ => "never".to_string(),
        }
    })
}

/// What columns and combinations take of the time that solves take.
fn shares(constraints: usize, computed: Micros, combined: Micros, solved: Micros) -> String {
    let columns = sum(constraints, computed, combined);
    each(|side| format!("{:.2}", columns[side] / (constraints as f64 * solved[side])))
}

/// The doors and the work take the same call by turns.
fn beside(
    call: &mut Call,
    mut rust: impl FnMut(),
    mut door: impl FnMut(&mut Call, &mut [u8]),
    mut inner: impl FnMut(&mut Call, &mut [u8]),
) -> Micros {
    let pinned = marks(call);
    let door = |(call, pinned): &mut (&mut Call, Vec<u8>)| door(call, pinned);
    let inner = |(call, pinned): &mut (&mut Call, Vec<u8>)| inner(call, pinned);
    micros(by_turns(&mut (call, pinned), |_| rust(), door, inner))
}

/// Eight solves; the call's columns are computed then.
fn compute(call: &mut Call) -> Micros {
    let mut step = Step::new(call, matrix(call));
    step.lay(call);
    let rust = || step.compute();
    let door = |call: &mut Call, pinned: &mut [u8]| {
        let said = made(call, pinned);
        assert_eq!((said.refused, said.ended[0]), (0, 8), "by the factor");
    };
    let inner = |call: &mut Call, pinned: &mut [u8]| {
        let ended = inside::compute_columns(call, pinned);
        assert_eq!(ended[0], 8, "by the factor");
    };
    beside(call, rust, door, inner)
}

/// A call over the computed columns.
fn over_columns(computed: &Call, operation: Operation, asked: usize, lists: Vec<Vec<u32>>) -> Call {
    let shared = &computed.lists[10..13];
    Call {
        operation,
        numbers: vec![computed.n(), computed.loaded(), asked],
        lists: [shared, &lists].concat(),
    }
}

/// A constraint with an entry at each screw.
fn combine(draw: &mut Draw, computed: &Call) -> Micros {
    let n = computed.n();
    let (table, count) = screws(n);
    let at = |column: usize| table.iter().position(|&it| it == column as u32);
    let particles = (0..count).filter_map(at).map(|at| at as u32).collect();
    let gradients = (0..2 * count).map(|_| draw.middling().to_bits()).collect();
    let lists = vec![particles, gradients, vec![0; 2 * n]];
    let mut call = over_columns(computed, Operation::ResponseFromColumns, count, lists);
    let (step, entries) = (Step::of_table(&call), entries(&call));
    let mut out = vectors(&call.lists[5], n);
    let rust = || {
        black_box(step.combine(black_box(&entries), &mut out));
    };
    let door = |call: &mut Call, pinned: &mut [u8]| {
        let said = made(call, pinned);
        assert_eq!((said.refused, said.how), (0, 0), "combined");
    };
    let inner = |call: &mut Call, pinned: &mut [u8]| {
        black_box(inside::combine(call, pinned));
    };
    beside(&mut call, rust, door, inner)
}

/// Of the second screw.
fn block(computed: &Call) -> Micros {
    let n = computed.n();
    let (table, _) = screws(n);
    let particle = table.iter().position(|&it| it == 1).expect("four screws");
    let lists = vec![vec![0; 4 * n]];
    let mut call = over_columns(
        computed,
        Operation::ParticleBlockFromColumns,
        particle,
        lists,
    );
    let step = Step::of_table(&call);
    let mut out = vectors(&call.lists[3], 2 * n);
    let rust = || {
        black_box(step.block(black_box(particle as u32), &mut out));
    };
    let door = |call: &mut Call, pinned: &mut [u8]| {
        let said = made(call, pinned);
        assert_eq!((said.refused, said.how), (0, 0), "a block");
    };
    let inner = |call: &mut Call, pinned: &mut [u8]| {
        black_box(inside::block(call, pinned));
    };
    beside(&mut call, rust, door, inner)
}

/// A solve for such a constraint.
fn respond(call: &mut Call) -> Micros {
    let (mut step, entries) = (Step::new(call, matrix(call)), entries(call));
    let mut out = vectors(&call.lists[13], call.n());
    let rust = || {
        black_box(step.respond(black_box(&entries), &mut out));
    };
    let door = |call: &mut Call, pinned: &mut [u8]| {
        let said = step::made(call, pinned);
        assert_eq!((said.refused, said.ending.how), (0, 0), "by the factor");
    };
    let inner = |call: &mut Call, pinned: &mut [u8]| {
        black_box(inside::respond(call, pinned));
    };
    beside(call, rust, door, inner)
}
