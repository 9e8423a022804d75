//! Times of the block matrix: the doors and the work behind them, beside the Rust's.

use crate::sys::c::bracket_row_slot;
use crate::{doors, inside};
use oracle::blocks::{vectors, Blocks};
use oracle::call::{Call, Operation};
use oracle::calls::accepted;
use oracle::draw::Draw;
use oracle::graphs::{self, Graph};
use std::hint::black_box;
use std::time::{Duration, Instant};

/// How often each is timed, the best run counting, and how long a run takes at least.
const RUNS: usize = 7;
const RUN: Duration = Duration::from_millis(2);

/// Ordinary values.
const TURN: usize = 0;

/// What is timed: so many calls make a run, and the best run so far took so many microseconds a call.
struct Timed<F> {
    call: F,
    calls: u32,
    best: f64,
}

impl<F> Timed<F> {
    fn new<S>(call: F, state: &mut S) -> Self
    where
        F: FnMut(&mut S),
    {
        let mut timed = Timed {
            call,
            calls: 1,
            best: f64::INFINITY,
        };
        while timed.run(state) < RUN {
            timed.calls *= 2;
        }
        timed
    }

    fn run<S>(&mut self, state: &mut S) -> Duration
    where
        F: FnMut(&mut S),
    {
        let start = Instant::now();
        (0..self.calls).for_each(|_| (self.call)(state));
        let took = start.elapsed();
        let each = took.as_secs_f64() * 1e6 / f64::from(self.calls);
        self.best = self.best.min(each);
        took
    }
}

/// Microseconds to a call, the best of several runs.
pub fn micros(mut call: impl FnMut()) -> f64 {
    let mut timed = Timed::new(|()| call(), &mut ());
    for _ in 0..RUNS {
        timed.run(&mut ());
    }
    timed.best
}

/// The Rust, the door and the work behind it by turns, so that a machine that slows down slows all
/// three: the door's time and the work's over the Rust's, and the Rust's in microseconds.
pub fn by_turns<S>(
    state: &mut S,
    rust: impl FnMut(&mut S),
    door: impl FnMut(&mut S),
    inner: impl FnMut(&mut S),
) -> [f64; 3] {
    let mut rust = Timed::new(rust, state);
    let mut door = Timed::new(door, state);
    let mut inner = Timed::new(inner, state);
    for _ in 0..RUNS {
        rust.run(state);
        door.run(state);
        inner.run(state);
    }
    [door.best / rust.best, inner.best / rust.best, rust.best]
}

pub fn report(draw: &mut Draw) {
    println!("times: door/Rust inner/Rust (Rust's microseconds); well_formed in microseconds");
    for (name, graph) in six(draw) {
        let build = from_pairs(draw, &graph);
        let mul = mul(draw, &graph);
        let pin = make_dirichlet(draw, &graph);
        let marked = make_dirichlet_marked(draw, &graph);
        let (mut one, mut any) = (one_slot(draw, &graph), any_slots(draw, &graph));
        let index = [&mut one, &mut any].map(block_index);
        let slot = [&mut one, &mut any].map(row_slot);
        let test = well_formed(draw, &graph);
        println!("{name}: from_pairs {build}, mul {mul}; well_formed {test:.1}");
        println!("{name}: make_dirichlet {pin}, make_dirichlet_marked {marked}");
        for (call, [one, any]) in [("block_index", index), ("row_slot", slot)] {
            println!("{name}: {call} {one}, {call} of any {any}");
        }
    }
}

/// The graphs that the block matrix is timed on.
pub fn six(draw: &mut Draw) -> [(&'static str, Graph); 6] {
    [
        ("chain 1024", graphs::chain(1024)),
        ("grid 32x32", graphs::grid(32, 32)),
        ("grid 8x5", graphs::grid(8, 5)),
        ("hub 1024", graphs::hub(1024)),
        ("complete 90", graphs::complete(90)),
        ("random 4096", graphs::random(draw, 1024, graphs::PAIRS)),
    ]
}

/// An accepted call whose lists are no longer than they must be.
pub fn exact(draw: &mut Draw, operation: Operation, graph: &Graph) -> Call {
    let mut call = accepted(draw, operation, graph, TURN);
    let needs = call.needs();
    for (list, need) in call.lists.iter_mut().zip(needs) {
        list.truncate(need);
    }
    call
}

fn beside(call: &mut Call, mut rust: impl FnMut(), inner: fn(&mut Call)) -> String {
    let door = |call: &mut Call| assert_eq!(doors::made(call).0, 0, "refused");
    told(by_turns(call, |_| rust(), door, inner))
}

/// The door's ratio, the work's, and behind them the Rust's microseconds.
pub fn told([door, inner, rust]: [f64; 3]) -> String {
    format!("{door:.2} {inner:.2} ({rust:.3})")
}

fn from_pairs(draw: &mut Draw, graph: &Graph) -> String {
    let mut call = exact(draw, Operation::FromPairs, graph);
    let pairs = call.lists[0].clone();
    let rust = || drop(black_box(Blocks::from_pairs(graph.n, &pairs)));
    beside(&mut call, rust, inside::build)
}

pub fn matrix(call: &Call) -> Blocks {
    let pattern = [0, 1, 2].map(|at| call.lists[at].as_slice());
    Blocks::from_lists(call.n(), pattern, &call.lists[3])
}

fn mul(draw: &mut Draw, graph: &Graph) -> String {
    let mut call = exact(draw, Operation::Mul, graph);
    let (matrix, x) = (matrix(&call), vectors(&call.lists[4], graph.n));
    let mut out = x.clone();
    let rust = || matrix.mul(black_box(&x), &mut out);
    beside(&mut call, rust, inside::mul)
}

/// Of the middle row, which is the hub's.
fn make_dirichlet(draw: &mut Draw, graph: &Graph) -> String {
    let mut call = exact(draw, Operation::MakeDirichlet, graph);
    let row = graph.n / 2;
    call.numbers[1] = row;
    let mut matrix = matrix(&call);
    let rust = || matrix.make_dirichlet(black_box(row as u32));
    beside(&mut call, rust, inside::make_dirichlet)
}

/// Every eighth row, the hub's among them; the Rust pins them one after the other.
fn make_dirichlet_marked(draw: &mut Draw, graph: &Graph) -> String {
    let mut call = exact(draw, Operation::MakeDirichletMarked, graph);
    let marks: Vec<u8> = (0..graph.n).map(|row| u8::from(row % 8 == 0)).collect();
    let pattern = [0, 1, 2].map(|at| call.lists[at].as_slice());
    let mut matrix = Blocks::from_lists(call.n(), pattern, &call.lists[4]);
    let rust = |_: &mut Call| matrix.make_dirichlet_marked(black_box(&marks));
    let mut door_marks = marks.clone();
    let door = |call: &mut Call| {
        let refused = doors::make_dirichlet_marked(call, &mut door_marks);
        assert_eq!(refused, 0, "refused");
    };
    let mut inner_marks = marks.clone();
    let inner = |call: &mut Call| inside::make_dirichlet_marked(call, &mut inner_marks);
    told(by_turns(&mut call, rust, door, inner))
}

/// Rows and columns whose slots are asked for in one go, and a call of `block_index` over the same pattern.
pub struct Slots {
    call: Call,
    pub asked: Vec<(u32, u32)>,
}

/// How many slots are asked for in one go: one takes a few nanoseconds, and a processor foresees a short list.
pub const ASKED: usize = 20_000;

/// In the middle row, a column that is stored: the same slot again and again.
fn one_slot(draw: &mut Draw, graph: &Graph) -> Slots {
    let mut call = exact(draw, Operation::BlockIndex, graph);
    let row = graph.n / 2;
    let col = call.lists[1][call.lists[0][row] as usize];
    call.numbers = vec![graph.n, row, col as usize];
    let asked = vec![(row as u32, col); ASKED];
    Slots { call, asked }
}

/// Slots of any row, every other one of a column that is stored.
pub fn any_slots(draw: &mut Draw, graph: &Graph) -> Slots {
    let call = exact(draw, Operation::BlockIndex, graph);
    let mut one = |turn| {
        let row = draw.below(graph.n as u32);
        let [start, end] = [row, row + 1].map(|at| call.lists[0][at as usize]);
        let stored = call.lists[1][(start + draw.below(end - start)) as usize];
        let any = draw.below(graph.n as u32);
        (row, if turn % 2 == 0 { stored } else { any })
    };
    let asked = (0..ASKED).map(&mut one).collect();
    Slots { call, asked }
}

/// A door, and the search alone, beside the Rust's.
fn searches(slots: &mut Slots, door: impl FnMut(&mut Slots)) -> [f64; 3] {
    let pattern = [0, 1, 2].map(|at| slots.call.lists[at].as_slice());
    let matrix = Blocks::from_lists(slots.call.n(), pattern, &[]);
    let rust = |slots: &mut Slots| {
        for &(row, col) in black_box(&slots.asked) {
            black_box(matrix.block_index(row, col));
        }
    };
    let inner = |slots: &mut Slots| inside::searches(&mut slots.call, black_box(&slots.asked));
    let [door, inner, rust] = by_turns(slots, rust, door, inner);
    [door, inner, rust / ASKED as f64]
}

/// The door tests the whole pattern, so it is asked for one slot.
fn block_index(slots: &mut Slots) -> String {
    let door = |slots: &mut Slots| assert_eq!(doors::made(&mut slots.call).0, 0, "refused");
    let [door, inner, rust] = searches(slots, door);
    told([door * ASKED as f64, inner, rust])
}

/// The door tests one row, and is asked for every slot.
fn row_slot(slots: &mut Slots) -> String {
    let door = |Slots { call, asked }: &mut Slots| {
        let n = call.n();
        let [starts, cols, _] = &mut call.lists[..] else {
            unreachable!("a pattern is three lists");
        };
        for &(row, col) in black_box(&*asked) {
            let (row, mut slot) = (row as usize, 0);
            let refused = unsafe { lend!(bracket_row_slot(n; starts, cols; row, col, &mut slot;)) };
            assert_eq!(refused, 0, "refused");
            black_box(slot);
        }
    };
    told(searches(slots, door))
}

/// The test that every door over a pattern makes.
fn well_formed(draw: &mut Draw, graph: &Graph) -> f64 {
    let mut call = exact(draw, Operation::ClearValues, graph);
    micros(|| inside::well_formed(&mut call))
}
