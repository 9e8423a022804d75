//! Graphs to build patterns from.

use crate::draw::Draw;

/// The most pairs that may be given.
pub const PAIRS: usize = 4096;

/// The largest complete graph of no more pairs.
pub const COMPLETE: usize = 91;

pub struct Graph {
    pub n: usize,
    pub pairs: Vec<[u32; 2]>,
}

impl Graph {
    pub(crate) fn new(n: usize, pairs: impl Iterator<Item = (usize, usize)>) -> Self {
        let pairs = pairs.map(|(a, b)| [a as u32, b as u32]).take(PAIRS);
        Self {
            n,
            pairs: pairs.collect(),
        }
    }

    /// The pairs' numbers, one after the other.
    pub fn flat(&self) -> Vec<u32> {
        self.pairs.concat()
    }
}

pub fn chain(n: usize) -> Graph {
    Graph::new(n, (1..n).map(|i| (i - 1, i)))
}

/// A hub of all others, in the middle of the numbers.
pub fn hub(n: usize) -> Graph {
    let hub = n / 2;
    Graph::new(n, (0..n).filter(|&i| i != hub).map(|i| (i, hub)))
}

pub fn grid(width: usize, height: usize) -> Graph {
    let n = width * height;
    let across = (0..n)
        .filter(move |i| (i + 1) % width != 0)
        .map(|i| (i, i + 1));
    let down = (width..n).map(|i| (i - width, i));
    Graph::new(n, across.chain(down))
}

pub fn complete(n: usize) -> Graph {
    Graph::new(n, (0..n).flat_map(|a| (0..a).map(move |b| (a, b))))
}

/// Any pairs, equal ones and repeats among them.
pub fn random(draw: &mut Draw, n: usize, count: usize) -> Graph {
    let mut one = || draw.below(n as u32) as usize;
    let count = if n == 0 { 0 } else { count };
    Graph::new(n, (0..count).map(|_| (one(), one())))
}

/// Graphs of a few particles each, their numbers interleaved, and particles without a pair.
pub fn apart(draw: &mut Draw, n: usize) -> Graph {
    let groups = 2 + draw.below(5) as usize;
    let mut pairs = Vec::new();
    for i in groups..n {
        if draw.below(4) > 0 {
            pairs.push((i, i - groups));
        }
    }
    Graph::new(n, pairs.into_iter())
}

/// The numbers below n in any order.
pub fn shuffle(draw: &mut Draw, n: usize) -> Vec<usize> {
    let mut names: Vec<usize> = (0..n).collect();
    for i in (1..n).rev() {
        names.swap(i, draw.below(i as u32 + 1) as usize);
    }
    names
}

/// The graph with particle i called `names[i]`.
pub fn relabelled(graph: &Graph, names: &[usize]) -> Graph {
    let name = |i: u32| names[i as usize];
    let pairs = graph.pairs.iter().map(|&[a, b]| (name(a), name(b)));
    Graph::new(graph.n, pairs)
}

/// The graph with what adds nothing to it: repeats in either order, and equal pairs of any number.
pub fn noisy(draw: &mut Draw, graph: Graph) -> Graph {
    let mut pairs = Vec::new();
    for [a, b] in graph.pairs {
        pairs.push(if draw.below(2) == 0 { [a, b] } else { [b, a] });
        match draw.below(8) {
            0 => pairs.push([a, b]),
            1 => pairs.push([b, a]),
            2 => pairs.push([a, a]),
            3 => pairs.push([draw.word() as u32; 2]),
            _ => {}
        }
    }
    if draw.below(2) == 0 {
        pairs.push([graph.n as u32; 2]);
    }
    pairs.truncate(PAIRS);
    Graph { n: graph.n, pairs }
}

/// A graph of this turn's kind with at most `most` particles; none, one or two are frequent.
pub fn drawn(draw: &mut Draw, turn: usize, most: usize) -> Graph {
    let limit = if draw.below(8) == 0 { 3 } else { most + 1 };
    let n = draw.below(limit as u32) as usize;
    let graph = match turn % 7 {
        0 => chain(n),
        1 => hub(n),
        2 => {
            let width = 1 + draw.below(8) as usize;
            grid(width, n / width)
        }
        3 => complete(n.min(COMPLETE)),
        4 => random(draw, n, n),
        5 => random(draw, n, 4 * n),
        _ => apart(draw, n),
    };
    if draw.below(4) == 0 {
        graph
    } else {
        noisy(draw, graph)
    }
}
