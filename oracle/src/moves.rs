//! Graphs whose start moves: from the far node a search goes deeper than the last one, and from its
//! far node the next goes deeper still. Random graphs hardly do so more than once, trees never.

use crate::draw::Draw;
use crate::graphs::{relabelled, shuffle, Graph};

/// Small graphs that a search by chance found: how often the start would move if it were never
/// stopped, the particles, and the pairs.
pub const FOUND: [(usize, usize, &str); 5] = [
    (2, 9, "0-3 0-6 0-8 1-5 1-7 1-8 2-7 2-8 3-6 3-8 4-5 4-7"),
    (
        3,
        12,
        "0-3 0-5 0-8 0-9 1-5 1-6 2-4 2-6 3-11 4-7 6-10 7-10 8-9 10-11",
    ),
    (
        4,
        21,
        "0-20 1-9 2-3 2-6 3-4 3-14 4-20 5-17 5-18 6-15 6-19 7-15 7-19 8-11 9-13 9-14 10-12 \
         10-13 11-16 11-18 12-18 14-19 16-20",
    ),
    (
        5,
        26,
        "0-19 0-24 1-14 2-6 2-8 3-5 3-14 4-12 4-17 5-6 5-18 6-11 7-10 7-13 7-24 8-9 9-25 \
         10-23 11-20 11-22 12-16 12-24 13-15 14-23 15-21 17-22 20-25",
    ),
    (
        6,
        31,
        "0-2 0-7 1-4 1-11 1-30 2-15 2-20 3-29 4-29 5-26 6-10 6-26 7-25 8-12 8-13 8-22 9-13 \
         9-18 9-24 10-11 10-25 14-16 14-28 15-23 16-26 17-19 18-29 19-22 20-21 20-27 21-30 \
         22-28 23-27",
    ),
];

/// Pairs of a path of `length` steps from a to b, over particles from `next` on.
fn path(pairs: &mut Vec<(usize, usize)>, next: &mut usize, a: usize, b: usize, length: usize) {
    let mut at = a;
    for _ in 1..length {
        pairs.push((at, *next));
        at = *next;
        *next += 1;
    }
    pairs.push((at, b));
}

/// A graph whose start would move `times` times if it were never stopped. Its ends, particles of one
/// neighbour, stand on legs of one length around a core; there each is the farthest from the one
/// before it, and every time that is one step more. The other distances are shorter.
pub fn made(draw: &mut Draw, times: usize) -> Graph {
    let ends = times + 2;
    let near = ends + draw.below(3) as usize;
    let leg = (near + 3 * times) / 2 + 2 + draw.below(3) as usize;
    // The ends, then the places in the core where their legs stand, then what lies between.
    let (mut pairs, mut n) = (Vec::new(), 2 * ends);
    for i in 0..ends {
        path(&mut pairs, &mut n, i, ends + i, leg);
        for j in i + 1..ends {
            let length = match j - i {
                1 => near + i,
                _ => near - 1 + draw.below(i as u32 + 1) as usize,
            };
            path(&mut pairs, &mut n, ends + i, ends + j, length);
        }
    }
    let mut names = shuffle(draw, n);
    // The search begins at the end of the least number.
    let first = (0..ends).min_by_key(|&end| names[end]).unwrap_or(0);
    names.swap(0, first);
    relabelled(&Graph::new(n, pairs.into_iter()), &names)
}

/// The found graphs, each with how often its start would move.
pub fn found_all() -> impl Iterator<Item = (usize, Graph)> {
    FOUND.into_iter().map(|(moves, n, pairs)| {
        let pairs = pairs.split(' ').map(pair).collect::<Vec<_>>();
        (moves, Graph::new(n, pairs.into_iter()))
    })
}

fn pair(word: &str) -> (usize, usize) {
    let number = |digits: &str| digits.parse().expect("a pair is two numbers");
    let (a, b) = word.split_once('-').expect("a pair is two numbers");
    (number(a), number(b))
}

/// A found graph, as it stands or with a few pairs more and fewer.
pub fn found(draw: &mut Draw) -> Graph {
    let at = draw.below(FOUND.len() as u32) as usize;
    let (_, graph) = found_all().nth(at).expect("one of those found");
    let Graph { mut n, mut pairs } = graph;
    for _ in 0..draw.below(3) {
        let one = draw.below(n as u32);
        match draw.below(3) {
            0 => {
                pairs.push([one, n as u32]);
                n += 1;
            }
            1 => pairs.push([one, draw.below(n as u32)]),
            _ => {
                pairs.swap_remove(draw.below(pairs.len() as u32) as usize);
            }
        }
    }
    Graph { n, pairs }
}
