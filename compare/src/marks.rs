//! Every marked particle pinned: accepted calls beside the Rust, which pins one after the other, damaged ones beside the second
//! program, which looks at each block once.

use crate::calls::{beside_rust, beside_second, damaged_calls, SIZES};
use crate::judge::Judged;
use oracle::call::{Call, Operation};
use oracle::calls::accepted;
use oracle::draw::Draw;
use oracle::graphs;

const PINS: Operation = Operation::MakeDirichletMarked;

/// What was met so far.
#[derive(Default)]
struct Met {
    /// Marked none, some, all.
    marked: [usize; 3],
    /// Two marked particles are joined.
    joined: usize,
    /// The last particle is marked.
    last: usize,
}

impl Met {
    fn count(&mut self, call: &Call) {
        let marks = call.lists[3][..call.n()].iter();
        let marks: Vec<bool> = marks.map(|&mark| mark != 0).collect();
        let set = marks.iter().filter(|&&mark| mark).count();
        self.marked[match set {
            0 => 0,
            _ if set < marks.len() => 1,
            _ => 2,
        }] += 1;
        let joined = |r: usize| {
            let [first, end] = [r, r + 1].map(|at| call.lists[0][at] as usize);
            let mut others = call.lists[1][first..end].iter().map(|&c| c as usize);
            marks[r] && others.any(|c| c != r && marks[c])
        };
        self.joined += usize::from((0..call.n()).any(joined));
        self.last += usize::from(marks.last() == Some(&true));
    }

    fn report(&self) {
        let [none, some, all] = self.marked;
        let Self { joined, last, .. } = self;
        println!("  marked none: {none}, some: {some}, all: {all}; two that are joined: {joined}, the last: {last}");
    }
}

pub fn compare(draw: &mut Draw) -> usize {
    let mut judged = Judged::new(PINS.word());
    let mut met = Met::default();
    for (turns, most) in SIZES {
        for turn in 0..turns {
            let graph = graphs::drawn(draw, turn, most);
            let call = accepted(draw, PINS, &graph, turn);
            met.count(&call);
            beside_rust(&mut judged, &call);
        }
    }
    let whole = judged.close(", accepted, every list to its end");
    met.report();
    let damaged = damaged_calls(draw, PINS);
    whole + beside_second("damaged calls of marked particles", damaged)
}
