//! The tally over long mixed sequences of calls, beside a count that is kept here: from a fresh record, from
//! records about the cap, and from any.

use crate::judge::Judged;
use crate::step::{made, marks};
use oracle::blocks;
use oracle::call::{Call, Operation};
use oracle::draw::Draw;
use oracle::steps::{drawn, near_cap};
use oracle::systems::System;

/// The rules' cap (docs/RULES.md § 2), written once more.
const CAP: u64 = 4_000_000_000;

/// The calls that sequences are made of: so many whole ones, of at most so many particles, and so many
/// that are refused.
const WHOLE: (usize, usize) = (600, 6);
const REFUSED: usize = 60;

/// How long a sequence is from a fresh record; how many there are from others, and how long.
const LONG: usize = 12_000;
const OTHERS: usize = 200;
const SHORT: usize = 40;

/// A call, its marks, and where it is to be counted, if anywhere.
struct Asked {
    call: Call,
    pinned: Vec<u8>,
    kind: Option<usize>,
}

/// By the Rust and the oracle's reading.
fn whole(draw: &mut Draw, turn: usize) -> Asked {
    let system = System::drawn(draw, WHOLE.1);
    let operation = [Operation::SolveStep, Operation::ResponseInto][turn % 2];
    let call = drawn(draw, operation, turn, system);
    let left = blocks::left(&call);
    assert!(
        !left.misread,
        "the reading isn't the Rust's: {}",
        call.line()
    );
    let how = left.lists[left.lists.len() - 2][0] as usize;
    Asked {
        pinned: marks(&call),
        call,
        kind: (how < 6).then_some(how),
    }
}

/// By a fault that no other can excuse.
fn refused(draw: &mut Draw, turn: usize) -> Asked {
    let mut asked = whole(draw, turn);
    let call = &mut asked.call;
    match draw.below(4) {
        0 => call.numbers[0] = 1025,
        1 => call.numbers[1] = 4097,
        2 => call.numbers[2] = f32::NAN.to_bits() as usize,
        _ => call.lists[0].clear(),
    }
    asked.kind = Some(6);
    asked
}

/// A record to start from, of this turn's kind.
fn record(draw: &mut Draw, turn: usize) -> Vec<u32> {
    match turn % 4 {
        // A sum of up to 40 below the cap, so that the sequence passes it.
        0 => {
            let mut counts = near_cap(draw);
            let largest = counts.iter_mut().max().expect("seven counts");
            *largest -= draw.below(SHORT as u32);
            counts
        }
        1 => near_cap(draw),
        2 => (0..7).map(|_| draw.word() as u32).collect(),
        _ => {
            let mut counts: Vec<u32> = (0..7).map(|_| draw.below(1 << 29)).collect();
            counts[draw.below(7) as usize] = u32::MAX - draw.below(2);
            counts
        }
    }
}

/// Runs a sequence, and hands back how often each kind was asked for.
fn run(
    draw: &mut Draw,
    judged: &mut Judged,
    calls: &mut [Asked],
    from: Vec<u32>,
    length: usize,
) -> [u64; 8] {
    let mut kept: Vec<u64> = from.iter().map(|&it| u64::from(it)).collect();
    let (mut counts, mut asked_for) = (from, [0; 8]);
    for _ in 0..length {
        let asked = &mut calls[draw.below(calls.len() as u32) as usize];
        let last = asked.call.lists.len() - 1;
        asked.call.lists[last].clone_from(&counts);
        made(&mut asked.call, &mut asked.pinned);
        counts.clone_from(&asked.call.lists[last]);
        asked_for[asked.kind.unwrap_or(7)] += 1;
        if let Some(kind) = asked.kind {
            if kept.iter().sum::<u64>() < CAP {
                kept[kind] += 1;
            }
        }
        let same = counts
            .iter()
            .zip(&kept)
            .all(|(&it, &kept)| u64::from(it) == kept);
        judged.count(same, || {
            [
                asked.call.line(),
                format!("{counts:?}"),
                format!("{kept:?}"),
            ]
        });
    }
    asked_for
}

pub fn compare(draw: &mut Draw) -> usize {
    let mut calls: Vec<Asked> = (0..WHOLE.0).map(|turn| whole(draw, turn)).collect();
    calls.extend((0..REFUSED).map(|turn| refused(draw, turn)));
    let mut judged = Judged::by("tally", "kept");
    let [direct, zero, near, converged, curvature, limit, refused, nothing] =
        run(draw, &mut judged, &mut calls, vec![0; 7], LONG);
    let (mut reached, mut full) = (0, 0);
    for turn in 0..OTHERS {
        let from = record(draw, turn);
        let sum: u64 = from.iter().map(|&it| u64::from(it)).sum();
        full += usize::from(sum >= CAP);
        let asked_for = run(draw, &mut judged, &mut calls, from, SHORT);
        let counted: u64 = asked_for[..7].iter().sum();
        reached += usize::from(sum < CAP && sum + counted >= CAP);
    }
    let differences = judged.close(&format!(
        " from a count kept beside it: after each call of a sequence of {LONG} from a fresh record, and of {OTHERS} of {SHORT} from others"
    ));
    println!(
        "  the first asked for Direct: {direct}, Zero: {zero}, Near: {near}, Converged: {converged}, Curvature: {curvature}, \
         Limit: {limit}, refused: {refused}, nothing: {nothing}; of the others {full} began at the cap or above, {reached} reached it"
    );
    differences
}
