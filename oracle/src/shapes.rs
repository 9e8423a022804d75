//! Graphs to plan, by kinds. Many have particles of one degree everywhere, so that ties are decided by
//! the numbers.

use crate::draw::Draw;
use crate::graphs::{self, relabelled, shuffle, Graph, COMPLETE, PAIRS};
use crate::moves;

/// A kind's name, and how a graph of at most n particles is drawn.
pub type Kind = (&'static str, fn(&mut Draw, usize) -> Graph);

/// Those whose graphs are as large as is asked for.
pub const SIZED: [Kind; 14] = [
    ("chains", |_, n| graphs::chain(n)),
    ("cycles", |_, n| circulant(n, &[1])),
    ("circulants", circulants),
    ("grids", grids),
    ("complete", |_, n| graphs::complete(n.min(COMPLETE))),
    ("complete bipartite", bipartite),
    ("hypercubes", |_, n| hypercube(n)),
    ("hubs", hubs),
    ("trees", tree),
    ("caterpillars", caterpillar),
    ("random n/2", |draw, n| graphs::random(draw, n, n / 2)),
    ("random n", |draw, n| graphs::random(draw, n, n)),
    ("random 4n", |draw, n| graphs::random(draw, n, 4 * n)),
    ("disconnected", disconnected),
];

/// Those whose start moves: made to, up to six times, and found by chance. Their numbers matter.
pub const MOVING: [Kind; 2] = [
    ("made to move", |draw, _| {
        let times = below(draw, 7);
        moves::made(draw, times)
    }),
    ("found to move", |draw, _| moves::found(draw)),
];

/// All of them.
pub fn kinds() -> impl Iterator<Item = Kind> {
    SIZED.into_iter().chain(MOVING)
}

fn below(draw: &mut Draw, limit: usize) -> usize {
    draw.below(limit as u32) as usize
}

/// Each particle joined to those so many steps further round.
fn circulant(n: usize, steps: &[usize]) -> Graph {
    let around = |step: usize| (0..n).map(move |i| (i, (i + step) % n));
    Graph::new(n, steps.iter().copied().flat_map(around))
}

fn circulants(draw: &mut Draw, n: usize) -> Graph {
    let count = (1 + below(draw, 4)).min(PAIRS / n.max(1));
    let steps: Vec<usize> = (0..count).map(|_| 1 + below(draw, n.max(1))).collect();
    circulant(n, &steps)
}

fn grids(draw: &mut Draw, n: usize) -> Graph {
    let width = 1 + below(draw, 32);
    graphs::grid(width, n / width)
}

fn bipartite(draw: &mut Draw, n: usize) -> Graph {
    let left = below(draw, n.min(64) + 1);
    let right = (n - left).min(PAIRS / left.max(1));
    joined_to_all(left, left + right)
}

/// The largest of at most n particles, up to nine dimensions.
fn hypercube(n: usize) -> Graph {
    let n = n.clamp(1, 512).ilog2();
    let along = |d: u32| (0..1 << n).map(move |i: usize| (i, i ^ 1 << d));
    Graph::new(1 << n, (0..n).flat_map(along).filter(|(a, b)| a < b))
}

/// Each of the first `hubs` particles joined to every one behind them.
pub fn joined_to_all(hubs: usize, n: usize) -> Graph {
    let pairs = (hubs..n).flat_map(|i| (0..hubs).map(move |hub| (hub, i)));
    Graph::new(n, pairs)
}

/// A few particles that have all the others for neighbours, or nearly all.
fn hubs(draw: &mut Draw, n: usize) -> Graph {
    let count = (1 + below(draw, 4)).min(n);
    let mut pairs = Vec::new();
    for i in count..n {
        for hub in 0..count {
            if count == 1 || below(draw, 3) > 0 {
                pairs.push((hub, i));
            }
        }
    }
    Graph::new(n, pairs.into_iter())
}

/// Each particle hangs on one of a few before it, or on any.
fn tree(draw: &mut Draw, n: usize) -> Graph {
    let reach = 1 + below(draw, n.max(1));
    let pairs = (1..n).map(|i| (i, i - 1 - below(draw, reach.min(i))));
    Graph::new(n, pairs)
}

/// A spine with legs of up to three particles.
fn caterpillar(draw: &mut Draw, n: usize) -> Graph {
    let (mut pairs, mut spine, mut next) = (Vec::new(), 0, 1);
    while next < n {
        let mut foot = spine;
        for _ in 0..below(draw, 4).min(n - next) {
            pairs.push((foot, next));
            (foot, next) = (next, next + 1);
        }
        if next < n {
            pairs.push((spine, next));
            (spine, next) = (next, next + 1);
        }
    }
    Graph::new(n, pairs.into_iter())
}

/// Two to five graphs of the kinds before this one, side by side.
fn disconnected(draw: &mut Draw, n: usize) -> Graph {
    let parts = 2 + below(draw, 4);
    let (mut pairs, mut all) = (Vec::new(), 0);
    for _ in 0..parts {
        let (_, kind) = SIZED[below(draw, SIZED.len() - 1)];
        let part = kind(draw, n / parts);
        let apart = |[a, b]: [u32; 2]| (all + a as usize, all + b as usize);
        pairs.extend(part.pairs.into_iter().map(apart));
        all += part.n;
    }
    Graph::new(all, pairs.into_iter())
}

/// A graph of the kind, with at most `most` particles if it is one of those, now and then just so many.
/// Three of four of these have their numbers mixed.
pub fn drawn(draw: &mut Draw, (name, kind): Kind, most: usize) -> Graph {
    let n = below(draw, most + most / 8 + 1).min(most);
    let graph = kind(draw, n);
    if MOVING.iter().any(|(moving, _)| *moving == name) || below(draw, 4) == 0 {
        return graph;
    }
    let names = shuffle(draw, graph.n);
    relabelled(&graph, &names)
}
