//! Solves that the rules accept: matrices, vectors and settings of many kinds, each drawn apart
//! from the others, and some that are made for one end.

use crate::blocks::Blocks;
use crate::call::{Call, Operation};
use crate::calls::lengthen;
use crate::draw::Draw;
use crate::gradient::Gradient;
use crate::graphs::Graph;
use crate::values;

/// What a solve is given beside its pattern.
struct Given {
    blocks: Vec<f32>,
    preconditioner: Vec<f32>,
    b: Vec<f32>,
    x: Vec<f32>,
    tolerance: f32,
    limit: usize,
}

const IDENTITY: [f32; 4] = [1.0, 0.0, 0.0, 1.0];

/// The kinds of matrices.
pub(crate) const MATRICES: u32 = 9;

fn floats(bits: &[u32]) -> Vec<f32> {
    bits.iter().copied().map(f32::from_bits).collect()
}

pub(crate) fn bits(list: &[f32]) -> Vec<u32> {
    list.iter().copied().map(f32::to_bits).collect()
}

/// Springs between the pattern's neighbours and a mass for each particle: positive definite if the
/// mass is above zero. Whole ones are added and multiplied without rounding.
fn springs(draw: &mut Draw, pattern: &Blocks, whole: bool, mass: f32) -> Vec<f32> {
    let [row_offsets, cols, diagonal] = pattern.pattern();
    let mut blocks = vec![0.0; 4 * cols.len()];
    for r in 0..diagonal.len() {
        for i in [0, 3] {
            blocks[4 * diagonal[r] as usize + i] += mass;
        }
        for k in row_offsets[r] as usize..row_offsets[r + 1] as usize {
            let c = cols[k] as usize;
            if c < r {
                let mut one = || match whole {
                    true => draw.from_to(-2, 2) as f32,
                    false => draw.from_to(-1000, 1000) as f32 / 1000.0,
                };
                let (u, v) = (one(), one());
                let mirror = pattern.block_index(c as u32, r as u32) as usize;
                for (i, term) in [u * u, u * v, u * v, v * v].into_iter().enumerate() {
                    blocks[4 * k + i] -= term;
                    blocks[4 * mirror + i] -= term;
                    blocks[4 * diagonal[r] as usize + i] += term;
                    blocks[4 * diagonal[c] as usize + i] += term;
                }
            }
        }
    }
    blocks
}

fn scaled(list: Vec<f32>, factor: f32) -> Vec<f32> {
    list.into_iter().map(|it| it * factor).collect()
}

pub(crate) fn matrix(draw: &mut Draw, pattern: &Blocks, kind: u32) -> Vec<f32> {
    let mass = [0.01, 0.5, 4.0][draw.below(3) as usize];
    let whole = draw.from_to(1, 3) as f32;
    match kind {
        0 => springs(draw, pattern, false, mass),
        1 => springs(draw, pattern, true, whole),
        // Singular.
        2 => springs(draw, pattern, true, 0.0),
        // Indefinite: a few entries of the diagonal blocks are lessened.
        3 => {
            let exact = draw.below(2) == 0;
            let mut blocks = springs(draw, pattern, exact, whole);
            let [_, _, diagonal] = pattern.pattern();
            for &slot in diagonal {
                if draw.below(3) == 0 {
                    let entry = [0, 3][draw.below(2) as usize];
                    blocks[4 * slot as usize + entry] -= draw.from_to(0, 8) as f32;
                }
            }
            blocks
        }
        4 => scaled(springs(draw, pattern, true, whole), -1.0),
        5 => values_of(draw, 6, 4 * pattern.pattern()[1].len()),
        6 => {
            let turn = draw.below(8) as usize;
            values_of(draw, turn, 4 * pattern.pattern()[1].len())
        }
        7 => {
            let power = [-120, -90, -60, 60, 90, 115][draw.below(6) as usize];
            scaled(springs(draw, pattern, false, mass), 2f32.powi(power))
        }
        // Unsymmetric.
        _ => {
            let mut blocks = springs(draw, pattern, false, mass);
            for it in &mut blocks {
                *it += draw.from_to(-100, 100) as f32 / 400.0;
            }
            blocks
        }
    }
}

pub(crate) fn values_of(draw: &mut Draw, turn: usize, length: usize) -> Vec<f32> {
    floats(&values::drawn(draw, turn, length))
}

fn product(pattern: &Blocks, blocks: &[f32], v: &[f32]) -> Vec<f32> {
    let n = v.len() / 2;
    let matrix = Blocks::from_lists(n, pattern.pattern(), &bits(blocks));
    let v = crate::blocks::vectors(&bits(v), n);
    let mut out = v.clone();
    matrix.mul(&v, &mut out);
    out.iter().flat_map(|it| [it.x, it.y]).collect()
}

pub(crate) fn updated(pattern: &Blocks, blocks: &[f32]) -> Vec<f32> {
    let n = pattern.pattern()[2].len();
    let matrix = Blocks::from_lists(n, pattern.pattern(), &bits(blocks));
    floats(&Gradient::updated(&matrix).preconditioner())
}

pub(crate) fn preconditioner(draw: &mut Draw, pattern: &Blocks, blocks: &[f32]) -> Vec<f32> {
    let n = pattern.pattern()[2].len();
    match draw.below(12) {
        0 | 1 | 2 => IDENTITY.repeat(n),
        3 => values_of(draw, 6, 4 * n),
        4 => {
            let turn = draw.below(8) as usize;
            values_of(draw, turn, 4 * n)
        }
        5 => scaled(updated(pattern, blocks), -1.0),
        _ => updated(pattern, blocks),
    }
}

/// Ordinary vectors mostly; whole ones among both zeros, all zeros, squares that overflow or vanish,
/// anything.
pub(crate) fn vector(draw: &mut Draw, length: usize) -> Vec<f32> {
    let list = |draw: &mut Draw, turn| values_of(draw, turn, length);
    match draw.below(14) {
        0..=4 => list(draw, 0),
        5..=7 => {
            let zeros = list(draw, 6);
            let one = |zero| match draw.below(3) {
                0 => zero,
                _ => draw.small_whole(),
            };
            zeros.into_iter().map(one).collect()
        }
        8 => list(draw, 6),
        9 => scaled(list(draw, 0), 2f32.powi(70)),
        10 => scaled(list(draw, 0), 2f32.powi(-90)),
        11 => scaled(list(draw, 0), 2f32.powi(-66)),
        _ => {
            let turn = draw.below(8) as usize;
            list(draw, turn)
        }
    }
}

/// An infinity or a NaN is likely among them.
pub(crate) fn anything(draw: &mut Draw, length: usize) -> Vec<f32> {
    let mut list = values_of(draw, 0, length);
    for _ in 0..1 + draw.below(2) {
        if length > 0 {
            list[draw.below(length as u32) as usize] = draw.special();
        }
    }
    list
}

pub(crate) fn tolerance(draw: &mut Draw) -> f32 {
    let some = [
        0.0,
        0.0,
        -0.0,
        1e-45,
        1e-30,
        1e-20,
        1e-6,
        1e-4,
        1e-2,
        0.5,
        1.0,
        1e10,
        f32::MAX,
    ];
    some[draw.below(some.len() as u32) as usize]
}

pub(crate) fn limit(draw: &mut Draw) -> usize {
    let some = [0, 0, 1, 1, 2, 3, 4, 5, 7, 12, 20, 40];
    some[draw.below(some.len() as u32) as usize]
}

/// Each part drawn apart from the others.
fn mixed(draw: &mut Draw, pattern: &Blocks, length: usize) -> Given {
    let kind = draw.below(MATRICES);
    let blocks = matrix(draw, pattern, kind);
    let preconditioner = preconditioner(draw, pattern, &blocks);
    let x = match draw.below(8) {
        0..=2 => vec![0.0; length],
        3 => anything(draw, length),
        _ => vector(draw, length),
    };
    let b = match draw.below(6) {
        // The solution is x.
        0 => product(pattern, &blocks, &x),
        _ => vector(draw, length),
    };
    Given {
        blocks,
        preconditioner,
        b,
        x,
        tolerance: tolerance(draw),
        limit: limit(draw),
    }
}

/// A matrix that is positive definite, and settings that let it converge.
fn ordinary(draw: &mut Draw, pattern: &Blocks, length: usize) -> Given {
    let kind = draw.below(2);
    let blocks = matrix(draw, pattern, kind);
    let preconditioner = updated(pattern, &blocks);
    Given {
        blocks,
        preconditioner,
        b: values_of(draw, 0, length),
        x: values_of(draw, 0, length),
        tolerance: [1e-5, 1e-3, 1e-1][draw.below(3) as usize],
        limit: [10, 200, 4096][draw.below(3) as usize],
    }
}

/// No turns, so that x is rescaled as it was given: by a multiple of the solution, by one that is
/// exact, and by a quotient that vanishes below zero.
fn unturned(draw: &mut Draw, pattern: &Blocks, length: usize) -> Given {
    let whole = draw.from_to(1, 3) as f32;
    let mut blocks = springs(draw, pattern, true, whole);
    let mut x: Vec<f32> = (0..length).map(|_| draw.small_whole()).collect();
    let mut b = product(pattern, &blocks, &x);
    match draw.below(4) {
        0 => {
            let factor = [-2.0, -0.5, 0.25, 0.5, 1.5, 3.0][draw.below(6) as usize];
            b = scaled(b, factor);
        }
        // b is the product but where x is zero.
        1 | 2 if length > 0 => {
            let place = draw.below(length as u32) as usize;
            x[place] = 0.0;
            b = product(pattern, &blocks, &x);
            b[place] += 1.0 + draw.below(8) as f32;
        }
        _ => {
            blocks = scaled(blocks, 2f32.powi(100));
            b = scaled(x.clone(), -2f32.powi(-68));
        }
    }
    Given {
        preconditioner: updated(pattern, &blocks),
        blocks,
        b,
        x,
        tolerance: [0.0, 1e-3][draw.below(2) as usize],
        limit: 0,
    }
}

/// Whole numbers and a matrix that is singular or indefinite, so that a run breaks down after some
/// turns, and at a denominator that is just zero if the rest is exact.
fn breaking(draw: &mut Draw, pattern: &Blocks, length: usize) -> Given {
    let kind = 2 + draw.below(2);
    let mut blocks = matrix(draw, pattern, kind);
    let mut b: Vec<f32> = (0..length).map(|_| draw.from_to(-2, 2) as f32).collect();
    // Diagonal, with ones and zeros: after one turn the rest lies where the matrix is zero.
    if draw.below(3) == 0 {
        let [_, _, diagonal] = pattern.pattern();
        blocks.fill(0.0);
        for &slot in diagonal {
            blocks[4 * slot as usize] = 1.0;
        }
        b = (0..length)
            .map(|_| [-1.0, 1.0][draw.below(2) as usize])
            .collect();
    }
    Given {
        preconditioner: IDENTITY.repeat(length / 2),
        blocks,
        b,
        x: vec![0.0; length],
        tolerance: [0.0, -0.0, 1e-6][draw.below(3) as usize],
        limit: [3, 10, 40][draw.below(3) as usize],
    }
}

/// Numbers so large that a run overflows on its way.
fn overflowing(draw: &mut Draw, pattern: &Blocks, length: usize) -> Given {
    let blocks = springs(draw, pattern, false, 0.5);
    let power = draw.from_to(56, 66);
    let preconditioner = match draw.below(2) {
        0 => IDENTITY.repeat(length / 2),
        _ => scaled(updated(pattern, &blocks), 2f32.powi(draw.from_to(-4, 4))),
    };
    Given {
        preconditioner,
        blocks,
        b: scaled(values_of(draw, 0, length), 2f32.powi(power)),
        x: vec![0.0; length],
        tolerance: tolerance(draw),
        limit: limit(draw),
    }
}

/// How many kinds of solves there are. Every other one is mixed.
pub const KINDS: usize = 8;

/// A solve of this turn's kind on the graph.
pub fn drawn(draw: &mut Draw, turn: usize, graph: &Graph) -> Call {
    let pattern = Blocks::from_pairs(graph.n, &graph.flat());
    let kind = match turn % KINDS {
        1 => ordinary,
        3 => unturned,
        5 => breaking,
        7 => overflowing,
        _ => mixed,
    };
    let given = kind(draw, &pattern, 2 * graph.n);
    call(draw, turn, &pattern, given)
}

fn call(draw: &mut Draw, turn: usize, pattern: &Blocks, given: Given) -> Call {
    let mut lists: Vec<Vec<u32>> = pattern.pattern().map(<[u32]>::to_vec).to_vec();
    let n = lists[2].len();
    let parts = [&given.blocks, &given.preconditioner, &given.b, &given.x];
    lists.extend(parts.map(|it| bits(it)));
    lists.resize(11, Vec::new());
    let mut call = Call {
        operation: Operation::ConjugateGradient,
        numbers: vec![n, given.limit, given.tolerance.to_bits() as usize],
        lists,
    };
    lengthen(draw, &mut call, turn);
    call
}

/// An update of the preconditioner on the graph, of a matrix of any kind.
pub fn update(draw: &mut Draw, turn: usize, graph: &Graph) -> Call {
    let pattern = Blocks::from_pairs(graph.n, &graph.flat());
    let blocks = matrix(draw, &pattern, turn as u32 % MATRICES);
    let mut lists: Vec<Vec<u32>> = pattern.pattern().map(<[u32]>::to_vec).to_vec();
    lists.extend([bits(&blocks), Vec::new()]);
    let mut call = Call {
        operation: Operation::UpdatePreconditioner,
        numbers: vec![graph.n],
        lists,
    };
    lengthen(draw, &mut call, turn);
    call
}

/// A solve that is far from its end at its limit: springs of very different strength, hardly any mass,
/// and nothing preconditioned.
pub fn slow(draw: &mut Draw, graph: &Graph, limit: usize) -> Call {
    let n = graph.n;
    let pattern = Blocks::from_pairs(n, &graph.flat());
    let mut blocks = springs(draw, &pattern, false, 0.01);
    for (r, &slot) in pattern.pattern()[2].iter().enumerate() {
        for entry in [0, 3] {
            blocks[4 * slot as usize + entry] += 1e4f32.powf(r as f32 / n as f32);
        }
    }
    let given = Given {
        preconditioner: IDENTITY.repeat(n),
        blocks,
        b: values_of(draw, 0, 2 * n),
        x: vec![0.0; 2 * n],
        tolerance: 0.0,
        limit,
    };
    call(draw, 0, &pattern, given)
}
