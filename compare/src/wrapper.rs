//! The Rust wrapper (bindings/rust), where a program meets the proved code, beside the Rust: slots asked for one by one, and a matrix filled with springs
//! block by block. Differences, and times.

use crate::judge::{same, Judged};
use crate::sys;
use crate::times::{any_slots, by_turns, six, told, ASKED};
use bracket::BlockMatrix;
use oracle::blocks::Blocks;
use oracle::draw::Draw;
use oracle::graphs::{self, Graph};
use oracle::math::{Matrix, Vector};
use std::hint::black_box;

/// How many graphs of at most so many particles are built.
const SIZES: [(usize, usize); 3] = [(300, 10), (60, 100), (10, 1024)];

/// Slots asked for of each.
const SLOTS: usize = 200;

/// A spring's block, with no two numbers alike.
const SPRING: [[f32; 2]; 2] = [[9.0, -1.5], [-2.25, 4.0]];

/// The same pattern on either side, and the pairs that it was built from.
struct Both {
    pairs: Vec<[u32; 2]>,
    ours: BlockMatrix,
    rust: Blocks,
}

impl Both {
    fn of(graph: &Graph) -> Self {
        let pairs: Vec<(u32, u32)> = graph.pairs.iter().map(|&[a, b]| (a, b)).collect();
        Self {
            pairs: graph.pairs.iter().copied().filter(|[a, b]| a != b).collect(),
            ours: BlockMatrix::from_pairs(graph.n, &pairs).expect("accepted"),
            rust: Blocks::from_pairs(graph.n, &graph.flat()),
        }
    }

    fn fill_ours(&mut self) {
        for &[a, b] in black_box(&self.pairs) {
            for [row, col] in four(a, b) {
                let block = self.ours.block_mut(row, col).expect("stored");
                for (column, more) in block.iter_mut().zip(SPRING) {
                    column[0] += more[0];
                    column[1] += more[1];
                }
            }
        }
    }

    fn fill_rust(&mut self) {
        let [c0, c1] = SPRING.map(|[x, y]| Vector::new(x, y));
        for &[a, b] in black_box(&self.pairs) {
            for [row, col] in four(a, b) {
                self.rust.add(row, col, Matrix::new(c0, c1));
            }
        }
    }

    /// By the C function alone, over the same lists.
    fn fill_by_call(&mut self, blocks: &mut [[[f32; 2]; 2]]) {
        let [row_offsets, cols, _] = self.rust.pattern();
        for &[a, b] in black_box(&self.pairs) {
            for [row, col] in four(a, b) {
                let block = &mut blocks[slot_by_call(row_offsets, cols, row, col) as usize];
                for (column, more) in block.iter_mut().zip(SPRING) {
                    column[0] += more[0];
                    column[1] += more[1];
                }
            }
        }
    }
}

/// The four blocks that a spring between two particles adds to.
fn four(a: u32, b: u32) -> [[u32; 2]; 4] {
    [[a, a], [a, b], [b, a], [b, b]]
}

fn slot_by_call(row_offsets: &[u32], cols: &[u32], row: u32, col: u32) -> u32 {
    let mut slot = 0;
    let n = row_offsets.len() - 1;
    let refused = sys::bracket_row_slot(n, row_offsets, cols, row as usize, col, &mut slot);
    assert_eq!(refused, 0, "refused");
    slot
}

pub fn compare(draw: &mut Draw) -> usize {
    let (mut slots, mut filled) = (Judged::new("wrapper slots"), Judged::new("wrapper filled"));
    for (count, most) in SIZES {
        for turn in 0..count {
            let graph = graphs::drawn(draw, turn, most);
            let mut both = Both::of(&graph);
            for _ in 0..SLOTS.min(graph.n * graph.n) {
                let [row, col] = [0; 2].map(|_| draw.below(graph.n as u32));
                let (ours, rust) = (both.ours.block_index(row, col), both.rust.block_index(row, col));
                slots.count(ours == Ok(rust), || [format!("{row} {col}"), format!("{ours:?}"), rust.to_string()]);
            }
            both.fill_ours();
            both.fill_rust();
            let ours = both.ours.blocks().as_flattened().as_flattened();
            let rust: Vec<f32> = both.rust.blocks().into_iter().map(f32::from_bits).collect();
            filled.count(same(ours, &rust), || [format!("{:?}", graph.pairs), format!("{ours:?}"), format!("{rust:?}")]);
        }
    }
    slots.close("") + filled.close("")
}

/// The wrapper's ratio, that of the C function without it, and the Rust's microseconds, as of the other calls.
pub fn times(draw: &mut Draw) {
    for (name, graph) in six(draw) {
        let slots = slots(draw, &graph);
        let filled = filled(&graph);
        println!("{name}: wrapper slots {slots}, wrapper filled {filled}");
    }
}

/// Slots of any row, every other one stored.
fn slots(draw: &mut Draw, graph: &Graph) -> String {
    let mut both = Both::of(graph);
    let asked = any_slots(draw, graph).asked;
    let each = |ask: &mut dyn FnMut(u32, u32) -> u32| {
        for &(row, col) in black_box(&asked) {
            black_box(ask(row, col));
        }
    };
    let [ours, call, rust] = by_turns(
        &mut both,
        |both| each(&mut |row, col| both.rust.block_index(row, col)),
        |both| each(&mut |row, col| both.ours.block_index(row, col).expect("a row")),
        |both| {
            let [row_offsets, cols, _] = both.rust.pattern();
            each(&mut |row, col| slot_by_call(row_offsets, cols, row, col))
        },
    );
    told([ours, call, rust / ASKED as f64])
}

fn filled(graph: &Graph) -> String {
    let mut both = Both::of(graph);
    let mut blocks = vec![[[0.0; 2]; 2]; both.rust.pattern()[1].len()];
    told(by_turns(
        &mut both,
        |both| both.fill_rust(),
        |both| both.fill_ours(),
        |both| both.fill_by_call(&mut blocks),
    ))
}
