//! Calls with faults. Some faults do no harm: the second program says which.

use oracle::call::{Call, Operation};
use oracle::draw::Draw;

fn below(draw: &mut Draw, limit: usize) -> usize {
    draw.below(limit as u32) as usize
}

/// One to three faults. Items are changed before lists are cut, so that there are items to change.
pub fn damage(draw: &mut Draw, call: &mut Call) {
    let needs = call.needs();
    for _ in 0..draw.below(3) {
        match (draw.below(6), plan_at(call)) {
            (0, _) => drop_block(draw, call),
            (1, Some(at)) => shift_rows(draw, call, at),
            (2, Some(at)) => exchange(draw, call, at),
            _ => change_item(draw, call, &needs),
        }
    }
    match draw.below(4) {
        0 => change_number(draw, call),
        1 => cut(draw, call, &needs),
        2 => {
            change_number(draw, call);
            cut(draw, call, &needs);
        }
        _ => match plan_at(call) {
            Some(at) if draw.below(2) == 0 => shift_rows(draw, call, at),
            _ => change_item(draw, call, &needs),
        },
    }
}

/// Where the plan's lists begin, if they hold one: where it doesn't count they may be anything.
fn plan_at(call: &Call) -> Option<usize> {
    let needs = [call.n(), call.n(), 2 * call.n(), 2 * call.n() + 1];
    let held = |at: &usize| (0..4).all(|i| call.lists[at + i].len() >= needs[i]);
    call.operation.plan_at().filter(held)
}

/// An item of the call's needed part becomes its neighbour, another item, or a number at a limit.
fn change_item(draw: &mut Draw, call: &mut Call, needs: &[usize]) {
    let tested = match call.operation {
        Operation::Factorize
        | Operation::FactorizeStepMatrix
        | Operation::SolveStep
        | Operation::ComputeColumns => 8,
        Operation::ResponseInto => 9,
        _ => call.lists.len().min(4),
    };
    let at = match below(draw, tested) {
        // The entries' particles.
        8 => 11,
        at => at,
    };
    let n = call.n() as u32;
    let length = needs[at].min(call.lists[at].len());
    if length == 0 {
        return;
    }
    let (place, other) = (below(draw, length), below(draw, length));
    let list = &mut call.lists[at];
    list[place] = match draw.below(8) {
        0 | 1 => list[place].wrapping_add(1),
        2 | 3 => list[place].wrapping_sub(1),
        4 => list[other],
        5 => n,
        6 => u32::MAX,
        _ => 0,
    };
}

/// The pattern loses a block and stays in order, so that a mirror or a diagonal is missing.
fn drop_block(draw: &mut Draw, call: &mut Call) {
    if !call.operation.takes_pattern() || call.lists[1].is_empty() {
        return;
    }
    let count = call.lists[1].len();
    let slot = below(draw, count);
    let col = call.lists[1].remove(slot);
    call.lists[1].push(col);
    for at in [0, 2] {
        let places = call.lists[at].iter_mut();
        places
            .filter(|place| **place as usize > slot && **place != u32::MAX)
            .for_each(|place| *place -= 1);
    }
}

/// Both rows of a position start a block further to the right or to the left, and the row starts
/// follow, so that it is a plan still unless a stored block is left out.
fn shift_rows(draw: &mut Draw, call: &mut Call, at: usize) {
    let n = call.n();
    if n == 0 {
        return;
    }
    let i = below(draw, n);
    let column = call.lists[at + 2][2 * i];
    let column = match draw.below(2) {
        0 if column < 2 * i as u32 => column + 2,
        _ => column.saturating_sub(2),
    };
    call.lists[at + 2][2 * i..2 * i + 2].fill(column);
    for row in 2 * i..2 * n {
        let length = (row as u32 + 1).wrapping_sub(call.lists[at + 2][row]);
        let starts = &mut call.lists[at + 3];
        starts[row + 1] = starts[row].wrapping_add(length);
    }
}

/// Two particles change places in the order and in its inverse: a plan still, but perhaps not of the
/// pattern.
fn exchange(draw: &mut Draw, call: &mut Call, at: usize) {
    let n = call.n();
    if n == 0 {
        return;
    }
    let places = [below(draw, n), below(draw, n)];
    call.lists[at].swap(places[0], places[1]);
    for place in places {
        let particle = call.lists[at][place] as usize;
        if let Some(found) = call.lists[at + 1].get_mut(particle) {
            *found = place as u32;
        }
    }
}

/// A number moves to a limit, just past it, or far past it.
fn change_number(draw: &mut Draw, call: &mut Call) {
    let at = below(draw, call.numbers.len().min(2));
    let n = call.n();
    call.numbers[at] = match draw.below(10) {
        0 => n + 1,
        1 => n.saturating_sub(1),
        2 => n,
        3 => 1024,
        4 => 1025,
        5 => 4096,
        6 => 4097,
        7 => u32::MAX as usize,
        8 => usize::MAX,
        _ => call.numbers[at] + 1,
    };
}

/// A list ends one place before its need, or anywhere before.
fn cut(draw: &mut Draw, call: &mut Call, needs: &[usize]) {
    // The counts are lent without a length.
    let at = below(
        draw,
        call.lists.len() - usize::from(call.operation.counts()),
    );
    if needs[at] == 0 {
        return;
    }
    let length = match draw.below(3) {
        0 => below(draw, needs[at]),
        _ => needs[at] - 1,
    };
    call.lists[at].truncate(length);
}
