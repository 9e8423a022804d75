//! Calls that the rules accept (docs/RULES.md § 8).

use crate::blocks::Blocks;
use crate::call::{Call, Items, Operation};
use crate::draw::Draw;
use crate::graphs::Graph;
use crate::steps::pinned;
use crate::values;

/// How many places a lent list may be longer than it must be.
const REST: u32 = 4;

/// A call on the graph; one that asks for a row takes a graph without particles as one of one.
pub fn accepted(draw: &mut Draw, operation: Operation, graph: &Graph, turn: usize) -> Call {
    let asks_row = !operation.builds() && operation.numbers() > 1;
    let n = if asks_row { graph.n.max(1) } else { graph.n };
    let mut numbers = vec![n];
    let mut lists = Vec::new();
    if operation.builds() {
        numbers.push(graph.pairs.len());
        lists.push(graph.flat());
    } else {
        let matrix = Blocks::from_pairs(n, &graph.flat());
        lists.extend(matrix.pattern().map(<[u32]>::to_vec));
        numbers.extend(asks_row.then(|| draw.below(n as u32) as usize));
    }
    if operation == Operation::BlockIndex {
        numbers.push(column(draw, n, &lists[1]));
    }
    if operation == Operation::MakeDirichletMarked {
        let rest = draw.below(REST) as usize;
        lists.push(pinned(draw, n + rest));
    }
    lists.resize(operation.lists().len(), Vec::new());
    let mut call = Call {
        operation,
        numbers,
        lists,
    };
    lengthen(draw, &mut call, turn);
    call
}

/// A stored column, any column, the first that is none, or any number.
fn column(draw: &mut Draw, n: usize, cols: &[u32]) -> usize {
    match draw.below(5) {
        0 | 1 => cols[draw.below(cols.len() as u32) as usize] as usize,
        2 => draw.below(n as u32) as usize,
        3 => n,
        _ => draw.word() as u32 as usize,
    }
}

/// Every list as long as it must be or longer: values of this turn's kind, and numbers that mean
/// nothing.
pub(crate) fn lengthen(draw: &mut Draw, call: &mut Call, turn: usize) {
    let needs = call.needs();
    for (at, need) in needs.into_iter().enumerate() {
        let list = &mut call.lists[at];
        let wanted = need + draw.below(REST) as usize;
        let length = wanted.saturating_sub(list.len());
        match call.operation.lists()[at] {
            Items::Whole => list.extend((0..length).map(|_| meaningless(draw))),
            Items::Float => list.extend(values::drawn(draw, turn + at, length)),
        }
    }
}

fn meaningless(draw: &mut Draw) -> u32 {
    match draw.below(16) {
        0 => u32::MAX,
        1 => draw.word() as u32,
        _ => draw.below(10),
    }
}
