//! Runs the proved code and the Rust on the same cases in one process: differences, and times.

#[macro_use]
mod lend;
#[macro_use]
#[path = "../../bindings/rust/src/sys.rs"]
mod sys;

mod buffers;
mod calls;
mod column_calls;
mod column_damage;
mod column_met;
mod column_times;
mod columns;
mod damage;
mod direct;
mod doors;
mod endings;
mod ends;
mod gradients;
mod inside;
mod judge;
mod marks;
mod met;
mod planes;
mod plans;
mod proved;
mod roots;
mod rows;
mod rules;
mod rust;
mod second;
mod sides;
mod slots;
mod starts;
mod step;
mod step_times;
mod steps;
mod tallies;
mod times;
mod wrapper;

use judge::compare;
use oracle::draw::Draw;
use oracle::planes as draws;
use proved::PROVED;
use rust::RUST;
use sides::{Side, Sides};
use std::hint::black_box;
use std::process::ExitCode;

const SEED: u64 = 1;
const TIMED: usize = 100_000;

/// `compare` is the gate's run. `compare rounds SEED COUNT` repeats all but the root and the times,
/// `compare rules SEED COUNT` the rules alone, `compare columns SEED COUNT` the columns alone, `compare roots` takes the root of every bit pattern, and
/// `compare times SEED` prints the times alone.
fn main() -> ExitCode {
    // The compiler is to know nothing of either side when it makes the calls.
    let sides = &Sides {
        proved: black_box(PROVED),
        rust: black_box(RUST),
    };
    let words: Vec<String> = std::env::args().skip(1).collect();
    let words: Vec<&str> = words.iter().map(String::as_str).collect();
    let differences = match words[..] {
        [] => gate(sides, &mut Draw::new(SEED)),
        ["roots"] => every_root(sides),
        ["times", seed] => times(&mut Draw::new(number(seed))),
        ["rounds", seed, count] => rounds(seed, count, |draw| round(sides, draw)),
        ["rules", seed, count] => rounds(seed, count, rules::compare),
        ["columns", seed, count] => rounds(seed, count, columns::compare),
        _ => panic!(
            "compare [roots | times SEED | rounds SEED COUNT | rules SEED COUNT | columns SEED COUNT]"
        ),
    };
    if differences == 0 {
        ExitCode::SUCCESS
    } else {
        ExitCode::FAILURE
    }
}

fn number(word: &str) -> u64 {
    word.parse().expect("a number")
}

fn gate(sides: &Sides, draw: &mut Draw) -> usize {
    root(sides, draw) + plane(sides, draw) + lent(sides, draw) + calls(draw) + times(draw)
}

/// Times differ from run to run, so they are told and never count as differences.
fn times(draw: &mut Draw) -> usize {
    times::report(draw);
    wrapper::times(draw);
    plans::times(draw);
    direct::times(draw);
    gradients::times(draw);
    step_times::times(draw);
    column_times::times(draw);
    0
}

/// Round k draws from seed + k.
fn rounds(seed: &str, count: &str, round: impl Fn(&mut Draw) -> usize) -> usize {
    let (seed, count) = (number(seed), number(count));
    let rounds = (0..count).map(|k| round(&mut Draw::new(seed + k)));
    rounds.sum()
}

fn round(sides: &Sides, draw: &mut Draw) -> usize {
    plane(sides, draw) + lent(sides, draw) + calls(draw)
}

fn calls(draw: &mut Draw) -> usize {
    calls::compare(draw)
        + plans::compare(draw)
        + direct::compare(draw)
        + gradients::compare(draw)
        + steps::compare(draw)
        + tallies::compare(draw)
        + rows::compare(draw)
        + slots::compare(draw)
        + rules::compare(draw)
        + marks::compare(draw)
        + wrapper::compare(draw)
        + columns::compare(draw)
}

/// Beside the processor's own instruction: what the Rust calls.
fn every_root(sides: &Sides) -> usize {
    let mut judged = judge::Judged::new("root");
    for bits in 0..=u32::MAX {
        let x = [f32::from_bits(bits)];
        judged.judge(&x, &sides.proved.root(x), &sides.rust.root(x));
    }
    judged.close(", every bit pattern")
}

fn root(sides: &Sides, draw: &mut Draw) -> usize {
    let timed = roots::timed(draw, TIMED);
    compare("root", sides, Side::root, roots::cases(draw), &timed)
}

fn plane(sides: &Sides, draw: &mut Draw) -> usize {
    let (fours, sixes) = (planes::timed(draw, TIMED), planes::timed(draw, TIMED));
    let vectors = planes::fours(draw, draws::vectors);
    let mut differences = compare("dot", sides, Side::dot, vectors, &fours);
    let products = planes::drawn(draw, draws::block_and_vector);
    differences += compare("times", sides, Side::times, products, &sixes);
    let blocks = planes::fours(draw, draws::block);
    differences += compare("determinant", sides, Side::determinant, blocks, &fours);
    let blocks = planes::fours(draw, draws::block);
    differences + compare("inverse", sides, Side::inverse, blocks, &fours)
}

fn lent(sides: &Sides, draw: &mut Draw) -> usize {
    let products = draws::block_and_vector;
    buffers::compare(
        "times",
        sides,
        Side::times_into,
        Side::times,
        draw,
        products,
    ) + buffers::compare(
        "inverse",
        sides,
        Side::inverse_into,
        Side::inverse,
        draw,
        draws::block,
    )
}
