//! Graphs whose envelope has just so many entries. A place adds four times its reach, and three.

use crate::blocks::Blocks;
use crate::draw::Draw;
use crate::graphs::{self, relabelled, shuffle, Graph};
use crate::plan::Plan;

/// The most particles.
const PARTICLES: usize = 1024;

/// How many graphs are drawn before the search for one is given up.
const DRAWN: usize = 10_000;

/// What a particle more adds at the end of a chain.
const LINK: usize = 7;

pub fn envelope(graph: &Graph) -> usize {
    Plan::new(&Blocks::from_pairs(graph.n, &graph.flat())).envelope()
}

fn below(draw: &mut Draw, limit: usize) -> usize {
    draw.below(limit as u32) as usize
}

/// A connected graph whose particles reach back a little way; its envelope is near 16,000 entries.
fn band(draw: &mut Draw) -> Graph {
    let n = 200 + below(draw, 600);
    let reach = 2 + 12_000 / (2 * n) + below(draw, 4);
    let mut pairs: Vec<(usize, usize)> = (1..n).map(|i| (i - 1, i)).collect();
    for i in 1..n {
        for _ in 0..2 {
            pairs.push((i, i - 1 - below(draw, reach.min(i))));
        }
    }
    Graph::new(n, pairs.into_iter())
}

/// The graph with `count` particles more, a chain at its last one.
fn tailed(graph: &Graph, count: usize) -> Graph {
    let given = graph.pairs.iter().map(|&[a, b]| (a as usize, b as usize));
    let tail = (graph.n..graph.n + count).map(|i| (i - 1, i));
    Graph::new(graph.n + count, given.chain(tail))
}

/// A connected graph of just so many entries: bands are drawn until a tail makes up for the rest.
pub fn connected(draw: &mut Draw, entries: usize) -> Graph {
    for _ in 0..DRAWN {
        let graph = band(draw);
        let short = entries.saturating_sub(envelope(&tailed(&graph, LINK)));
        let tail = LINK + short / LINK;
        if graph.n + tail <= PARTICLES {
            let graph = tailed(&graph, tail);
            if envelope(&graph) == entries {
                return graph;
            }
        }
    }
    panic!("no connected graph of {entries} entries was found")
}

/// A graph in several parts of just so many entries: one large, a chain of one to three and single
/// particles. Their numbers are mixed, each part's own in the order that it had.
pub fn apart(draw: &mut Draw, entries: usize) -> Graph {
    for _ in 0..DRAWN {
        let large = match below(draw, 3) {
            0 => graphs::complete(60 + below(draw, 31)),
            1 => graphs::grid(10 + below(draw, 40), 9 + below(draw, 4)),
            _ => band(draw),
        };
        let names = shuffle(draw, large.n);
        let large = relabelled(&large, &names);
        let rest = entries as isize - envelope(&large) as isize;
        // Chains of 1, 2 and 3 particles have 3, 10 and 17 entries.
        let chain = 1 + rest.rem_euclid(3) as usize;
        let single = (rest - (LINK * chain) as isize + 4) / 3;
        let n = large.n + chain + single.max(0) as usize;
        if single >= 0 && n <= PARTICLES {
            return spread(draw, &beside_chain(&large, chain), n);
        }
    }
    panic!("no graph of {entries} entries in several parts was found")
}

/// The graph beside a chain of so many particles.
fn beside_chain(graph: &Graph, chain: usize) -> Graph {
    let given = graph.pairs.iter().map(|&[a, b]| (a as usize, b as usize));
    let links = (graph.n + 1..graph.n + chain).map(|i| (i - 1, i));
    Graph::new(graph.n + chain, given.chain(links))
}

/// The graph's particles among n, in the order that they have.
fn spread(draw: &mut Draw, graph: &Graph, n: usize) -> Graph {
    let mut names = shuffle(draw, n);
    names.truncate(graph.n);
    names.sort_unstable();
    let spread = relabelled(graph, &names);
    Graph {
        n,
        pairs: spread.pairs,
    }
}
