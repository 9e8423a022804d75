//! Systems to factor and to solve: plans that fit a pattern, matrices by kinds, and lists that are
//! taken for factors.

use crate::blocks::Blocks;
use crate::call::{Call, Operation};
use crate::calls::lengthen;
use crate::direct::Direct;
use crate::draw::Draw;
use crate::graphs::{self, shuffle, Graph};
use crate::plan::{Plan, ENVELOPE};
use crate::shapes::{self, SIZED};
use crate::values;

/// A pattern, a plan that fits it, and block values.
#[derive(Clone)]
pub struct System {
    pub(crate) n: usize,
    pub(crate) pattern: [Vec<u32>; 3],
    pub(crate) plan: [Vec<u32>; 4],
    /// The plan's place among the kinds.
    pub plan_kind: usize,
    pub(crate) blocks: Vec<f32>,
}

#[derive(Clone, Copy)]
pub enum Order {
    Planned,
    Numbers,
    Any,
}

/// Where rows start: at their leftmost block, anywhere to the left of it, or at column 0.
#[derive(Clone, Copy)]
pub enum Rows {
    Tight,
    Wider,
    Whole,
}

/// How the plans come about. Only the first is planning's own.
pub const PLANS: [(&str, Order, Rows); 6] = [
    ("planned", Order::Planned, Rows::Tight),
    ("in order of numbers", Order::Numbers, Rows::Tight),
    ("in any order", Order::Any, Rows::Tight),
    ("planned, with wider rows", Order::Planned, Rows::Wider),
    ("planned, with whole rows", Order::Planned, Rows::Whole),
    ("in any order, with wider rows", Order::Any, Rows::Wider),
];

/// A kind's name, and how its block values are drawn.
pub type Kind = (&'static str, fn(&mut Draw, &mut System));

pub const MATRICES: [Kind; 11] = [
    ("positive definite", dominant),
    ("nearly so", nearly),
    ("indefinite", indefinite),
    ("singular", singular),
    ("with NaNs or infinities", unbounded),
    ("with a special number on the diagonal", special),
    ("with zeros beside the diagonal", bare),
    ("tiny", |draw, system| scaled(draw, system, -150, -118)),
    ("large", |draw, system| scaled(draw, system, 96, 120)),
    ("unsymmetric", unsymmetric),
    ("any values", any),
];

/// The same for what `solve` is handed as a factor.
pub type Factor = (&'static str, fn(&mut Draw, &mut System) -> Vec<u32>);

pub const FACTORS: [Factor; 5] = [
    ("factors", |draw, system| factored(draw, system, dominant)),
    ("left by a failure", |draw, system| {
        factored(draw, system, indefinite)
    }),
    ("factors with a spoiled diagonal", spoiled),
    ("zeros", zeros),
    ("any values", |draw, system| {
        let turn = below(draw, 8);
        values::drawn(draw, turn, system.envelope())
    }),
];

fn below(draw: &mut Draw, limit: usize) -> usize {
    draw.below(limit as u32) as usize
}

/// The plan of this order. `start` says where the rows of a position start whose leftmost block stands
/// at its second argument: there or to the left of it.
fn laid(
    order: Vec<u32>,
    [row_offsets, cols, _]: [&[u32]; 3],
    mut start: impl FnMut(usize, usize) -> usize,
) -> [Vec<u32>; 4] {
    let mut inverse = vec![0; order.len()];
    for (i, &particle) in order.iter().enumerate() {
        inverse[particle as usize] = i as u32;
    }
    let (mut first, mut row_start) = (Vec::new(), vec![0]);
    for (i, &particle) in order.iter().enumerate() {
        let row =
            row_offsets[particle as usize] as usize..row_offsets[particle as usize + 1] as usize;
        let leftmost = cols[row]
            .iter()
            .map(|&c| inverse[c as usize] as usize)
            .min();
        let column = 2 * start(i, leftmost.unwrap_or(i));
        for row in [2 * i, 2 * i + 1] {
            first.push(column as u32);
            row_start.push(row_start[row] + (row - column + 1) as u32);
        }
    }
    [order, inverse, first, row_start]
}

/// A plan of this kind; planning's own where that would be past the limit.
fn plan(draw: &mut Draw, kind: usize, n: usize, matrix: &Blocks) -> (usize, [Vec<u32>; 4]) {
    let planned = Plan::new(matrix).lists();
    let (_, order, rows) = PLANS[kind];
    let order: Vec<u32> = match order {
        Order::Planned => planned[0].clone(),
        Order::Numbers => (0..n as u32).collect(),
        Order::Any => shuffle(draw, n).into_iter().map(|i| i as u32).collect(),
    };
    let other = laid(order, matrix.pattern(), |_, leftmost| match rows {
        Rows::Tight => leftmost,
        Rows::Wider => below(draw, leftmost + 1),
        Rows::Whole => 0,
    });
    if kind == 0 || other[3][2 * n] as usize > ENVELOPE {
        (0, planned)
    } else {
        (kind, other)
    }
}

impl System {
    /// Over the graph, but over a chain where its envelope would be far past the limit.
    pub fn new(draw: &mut Draw, graph: &Graph, plan_kind: usize) -> Self {
        let n = graph.n;
        let mut matrix = Blocks::from_pairs(n, &graph.flat());
        if Plan::new(&matrix).envelope() > 2 * ENVELOPE {
            matrix = Blocks::from_pairs(n, &graphs::chain(n).flat());
        }
        let (plan_kind, plan) = plan(draw, plan_kind, n, &matrix);
        Self::of(n, &matrix, plan, plan_kind)
    }

    fn of(n: usize, matrix: &Blocks, plan: [Vec<u32>; 4], plan_kind: usize) -> Self {
        let pattern = matrix.pattern().map(<[u32]>::to_vec);
        let blocks = vec![0.0; 4 * pattern[1].len()];
        Self {
            n,
            pattern,
            plan,
            plan_kind,
            blocks,
        }
    }

    /// Over a chain, by a plan of just so many entries near the limit: from the last row up, rows are as
    /// wide as can be.
    pub fn of_entries(entries: usize) -> Self {
        // A position adds four times its reach, and three.
        let n = (92..96).find(|n| (entries - 3 * n) % 4 == 0);
        let n = n.expect("one of four numbers leaves a multiple of four");
        let mut left = (entries - 3 * n) / 4;
        let mut starts = vec![0; n];
        for i in (0..n).rev() {
            let reach = i.min(left - i.saturating_sub(1));
            left -= reach;
            starts[i] = i - reach;
        }
        let matrix = Blocks::from_pairs(n, &graphs::chain(n).flat());
        let order = (0..n as u32).collect();
        let plan = laid(order, matrix.pattern(), |i, _| starts[i]);
        let kind = PLANS.len() - 1;
        Self::of(n, &matrix, plan, kind)
    }

    /// Over a graph of any kind with at most so many particles.
    pub fn drawn(draw: &mut Draw, most: usize) -> Self {
        let kind = SIZED[below(draw, SIZED.len())];
        let graph = shapes::drawn(draw, kind, most);
        let plan_kind = below(draw, PLANS.len());
        Self::new(draw, &graph, plan_kind)
    }

    pub(crate) fn matrix(&self) -> Blocks {
        let pattern = [0, 1, 2].map(|at| self.pattern[at].as_slice());
        Blocks::from_lists(self.n, pattern, &bits(&self.blocks))
    }

    /// The factor's list, and whether it is whole.
    pub(crate) fn factor(&self) -> (Vec<u32>, bool) {
        let mut direct = Direct::from_lists(self.n, &self.plan, &[]);
        let whole = direct.factorize(&self.matrix());
        (direct.values(), whole)
    }

    fn envelope(&self) -> usize {
        self.plan[3][2 * self.n] as usize
    }

    fn slots(&self, row: usize) -> std::ops::Range<usize> {
        self.pattern[0][row] as usize..self.pattern[0][row + 1] as usize
    }

    /// The place of a particle's own entry at row and column d.
    fn corner(&self, particle: usize, d: usize) -> usize {
        4 * self.pattern[2][particle] as usize + 3 * d
    }

    fn corners(&self) -> Vec<usize> {
        (0..2 * self.n).map(|i| self.corner(i / 2, i % 2)).collect()
    }

    fn slot_of(&self, row: usize, col: usize) -> usize {
        let stored = |&slot: &usize| self.pattern[1][slot] as usize == col;
        let slot = self.slots(row).find(stored);
        slot.expect("a pattern has its mirrors")
    }
}

/// Each block beside the diagonal is its mirror turned over, and so is the diagonal.
fn symmetric(system: &mut System, mut entry: impl FnMut() -> f32) {
    for row in 0..system.n {
        for slot in system.slots(row) {
            let col = system.pattern[1][slot] as usize;
            if row < col {
                let mirror = system.slot_of(col, row);
                let [a, b, c, d] = [(); 4].map(|()| entry());
                system.blocks[4 * slot..4 * slot + 4].copy_from_slice(&[a, b, c, d]);
                system.blocks[4 * mirror..4 * mirror + 4].copy_from_slice(&[a, c, b, d]);
            } else if row == col {
                let [a, b, d] = [(); 3].map(|()| entry());
                system.blocks[4 * slot..4 * slot + 4].copy_from_slice(&[a, b, b, d]);
            }
        }
    }
}

/// Each entry of the diagonal is above the sum of its row's other sizes.
pub(crate) fn dominant(draw: &mut Draw, system: &mut System) {
    symmetric(system, || draw.middling());
    for i in 0..2 * system.n {
        let (row, d) = (i / 2, i % 2);
        let corner = system.corner(row, d);
        system.blocks[corner] = 0.0;
        let places = system
            .slots(row)
            .flat_map(|slot| [4 * slot + d, 4 * slot + 2 + d]);
        let others: f32 = places.map(|place| system.blocks[place].abs()).sum();
        system.blocks[corner] = others + draw.middling().abs();
    }
}

/// Springs of one stiffness along the pairs, which couple the axes, and a weak one that holds each particle
/// at its place. A push at one end of a long chain is still felt at the other: nothing sinks into subnormals.
pub fn stiff(_: &mut Draw, system: &mut System) {
    const SPRING: [f32; 4] = [1.0, 0.25, 0.25, 1.0];
    const HOLD: f32 = 1.0 / 1024.0;
    for row in 0..system.n {
        let others = system.slots(row).len() - 1;
        for slot in system.slots(row) {
            let own = system.pattern[1][slot] as usize == row;
            let stiffness = if own { others as f32 } else { -1.0 };
            let block = SPRING.map(|entry| entry * stiffness);
            system.blocks[4 * slot..4 * slot + 4].copy_from_slice(&block);
        }
        for d in [0, 1] {
            let corner = system.corner(row, d);
            system.blocks[corner] += HOLD;
        }
    }
}

/// Their factor.
pub fn stiff_factor(draw: &mut Draw, system: &mut System) -> Vec<u32> {
    factored(draw, system, stiff)
}

/// A diagonal that may be too small by a little, so that any row may fail.
fn nearly(draw: &mut Draw, system: &mut System) {
    dominant(draw, system);
    let least = draw.from_to(20, 64);
    for corner in system.corners() {
        system.blocks[corner] *= draw.from_to(least, 64) as f32 / 64.0;
    }
}

/// One place of the diagonal, if there is one.
fn some_corner(draw: &mut Draw, system: &System) -> Option<usize> {
    let corners = system.corners();
    (!corners.is_empty()).then(|| corners[below(draw, corners.len())])
}

fn indefinite(draw: &mut Draw, system: &mut System) {
    dominant(draw, system);
    if let Some(corner) = some_corner(draw, system) {
        system.blocks[corner] = -system.blocks[corner];
    }
}

/// Springs that nothing holds, which are exact along trees, or blocks of ones.
fn singular(draw: &mut Draw, system: &mut System) {
    if draw.below(4) == 0 {
        for particle in 0..system.n {
            let own = system.corner(particle, 0);
            system.blocks[own..own + 4].fill(1.0);
        }
        return;
    }
    for row in 0..system.n {
        let neighbours = system.slots(row).len() as f32 - 1.0;
        for slot in system.slots(row) {
            let own = system.pattern[1][slot] as usize == row;
            let entry = if own { neighbours } else { -1.0 };
            system.blocks[4 * slot..4 * slot + 4].copy_from_slice(&[entry, 0.0, 0.0, entry]);
        }
    }
}

fn unbounded(draw: &mut Draw, system: &mut System) {
    dominant(draw, system);
    if !system.blocks.is_empty() {
        for _ in 0..=draw.below(2) {
            let place = below(draw, system.blocks.len());
            let entries = [f32::NAN, f32::INFINITY, f32::NEG_INFINITY];
            system.blocks[place] = entries[below(draw, 3)];
        }
    }
}

fn special(draw: &mut Draw, system: &mut System) {
    dominant(draw, system);
    if let Some(corner) = some_corner(draw, system) {
        system.blocks[corner] = draw.special();
    }
}

/// Zeros of either sign but on the diagonal, and now and then one there.
fn bare(draw: &mut Draw, system: &mut System) {
    symmetric(system, || if draw.below(2) == 0 { 0.0 } else { -0.0 });
    for corner in system.corners() {
        system.blocks[corner] = match draw.below(3) {
            // Subnormals, and the smallest normals.
            0 => f32::from_bits(1 + draw.below(1 << 24)),
            _ => draw.middling().abs(),
        };
    }
    if let Some(corner) = some_corner(draw, system) {
        match draw.below(4) {
            0 => {}
            1 => system.blocks[corner] = 0.0,
            _ => system.blocks[corner] = -0.0,
        }
    }
}

/// By a power of two from `low` to `high`.
fn scaled(draw: &mut Draw, system: &mut System, low: i32, high: i32) {
    dominant(draw, system);
    let power = f64::from_bits(((1023 + draw.from_to(low, high)) as u64) << 52);
    for entry in &mut system.blocks {
        *entry = (f64::from(*entry) * power) as f32;
    }
}

/// Anything above the diagonal of the permuted matrix: only the lower triangle counts.
fn unsymmetric(draw: &mut Draw, system: &mut System) {
    dominant(draw, system);
    for row in 0..system.n {
        for slot in system.slots(row) {
            let col = system.pattern[1][slot] as usize;
            let (i, j) = (system.plan[1][row], system.plan[1][col]);
            if i < j {
                let block = &mut system.blocks[4 * slot..4 * slot + 4];
                block.iter_mut().for_each(|entry| *entry = draw.any());
            } else if i == j {
                system.blocks[4 * slot + 2] = draw.any();
            }
        }
    }
}

fn any(draw: &mut Draw, system: &mut System) {
    let turn = below(draw, 8);
    let bits = values::drawn(draw, turn, system.blocks.len());
    system.blocks = bits.into_iter().map(f32::from_bits).collect();
}

fn bits(floats: &[f32]) -> Vec<u32> {
    floats.iter().map(|x| x.to_bits()).collect()
}

fn factored(draw: &mut Draw, system: &mut System, matrix: fn(&mut Draw, &mut System)) -> Vec<u32> {
    matrix(draw, system);
    system.factor().0
}

/// Zeros, a NaN, an infinity or a subnormal where a factor's diagonal stands.
fn spoiled(draw: &mut Draw, system: &mut System) -> Vec<u32> {
    let mut values = factored(draw, system, dominant);
    for _ in 0..=draw.below(2) {
        if system.n > 0 {
            let row = below(draw, 2 * system.n);
            let entries = [0.0, -0.0, f32::NAN, f32::INFINITY, 1e-42];
            values[system.plan[3][row + 1] as usize - 1] = entries[below(draw, 5)].to_bits();
        }
    }
    values
}

/// Zeros of either sign, or +0.0 alone.
fn zeros(draw: &mut Draw, system: &mut System) -> Vec<u32> {
    if draw.below(2) == 0 {
        vec![0; system.envelope()]
    } else {
        values::drawn(draw, 6, system.envelope())
    }
}

fn call(draw: &mut Draw, operation: Operation, n: usize, mut lists: Vec<Vec<u32>>) -> Call {
    lists.resize(operation.lists().len(), Vec::new());
    let mut call = Call {
        operation,
        numbers: vec![n],
        lists,
    };
    let turn = below(draw, 8);
    lengthen(draw, &mut call, turn);
    call
}

/// To factor a matrix of this kind over the system's pattern, by its plan.
pub fn factorize(draw: &mut Draw, (_, matrix): Kind, mut system: System) -> Call {
    matrix(draw, &mut system);
    let System {
        n,
        pattern,
        plan,
        blocks,
        ..
    } = system;
    let lists = pattern.into_iter().chain([bits(&blocks)]).chain(plan);
    call(draw, Operation::Factorize, n, lists.collect())
}

/// To solve by a factor of this kind, over the system's plan.
pub fn solve(draw: &mut Draw, (_, factor): Factor, mut system: System) -> Call {
    let values = factor(draw, &mut system);
    let lists = system.plan.into_iter().chain([values]);
    call(draw, Operation::Solve, system.n, lists.collect())
}
