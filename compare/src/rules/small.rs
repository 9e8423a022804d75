//! Every small pattern and plan, whole or not.

use super::plans::grown;
use super::{judge_pattern, judge_plan, laid, Case, Test, OF_PATTERN, OF_PLAN, OWN};
use oracle::blocks::Blocks;
use oracle::draw::Draw;
use oracle::graphs::complete;

/// How many numbers each place takes of two particles' row offsets, of four columns and of the diagonal slots.
const TWO: [usize; 9] = [2, 5, 5, 3, 3, 3, 3, 5, 5];

/// Of up to so many particles every set of blocks is laid out.
const SETS: usize = 4;

/// How many numbers each place takes of so many particles' order, inverse, first columns and row starts. Without first
/// columns rows are whole, and without row starts these follow.
const PLACES: [(usize, &[usize]); 3] = [
    (1, &[2, 2, 3, 3, 5, 5, 5]),
    (2, &[3, 3, 3, 3, 5, 5, 5, 5]),
    (3, &[4; 6]),
];

/// Every list whose places take so many numbers.
fn every(places: &[usize]) -> impl Iterator<Item = Vec<u32>> + '_ {
    let list = |mut code: usize| {
        let next = |count: &usize| {
            let number = code % count;
            code /= count;
            number as u32
        };
        places.iter().map(next).collect()
    };
    (0..places.iter().product()).map(list)
}

pub fn compare_patterns(draw: &mut Draw) -> usize {
    let mut test = Test::new("small patterns", &OF_PATTERN);
    for lists in every(&TWO) {
        let pattern = [&lists[..3], &lists[3..7], &lists[7..]].map(<[u32]>::to_vec);
        judge_pattern(draw, &mut test, pattern);
    }
    for n in 0..=SETS {
        for stored in every(&vec![2; n * n]) {
            let mut rows = vec![Vec::new(); n];
            let blocks = (0..n * n).filter(|&block| stored[block] == 1);
            blocks.for_each(|block| rows[block / n].push((block % n) as u32));
            let pattern = laid(draw, &rows);
            judge_pattern(draw, &mut test, pattern);
        }
    }
    test.close()
}

pub fn compare_plans(draw: &mut Draw) -> usize {
    let mut tests = [
        Test::new("small plans with their patterns", &OF_PLAN),
        Test::new("small plans alone", &OF_PLAN[..OWN]),
    ];
    for (n, places) in PLACES {
        let matrix = Blocks::from_pairs(n, &complete(n).flat());
        for mut perm in every(places) {
            let mut row_start = perm.split_off(perm.len().min(4 * n));
            perm.resize(4 * n, 0);
            let first = perm.split_off(2 * n);
            let inv_perm = perm.split_off(n);
            if row_start.is_empty() {
                row_start = grown(&first);
            }
            let pattern = matrix.pattern().map(<[u32]>::to_vec);
            let plan = [perm, inv_perm, first, row_start];
            judge_plan(draw, &mut tests, Case { pattern, plan });
        }
    }
    tests.map(Test::close).iter().sum()
}
