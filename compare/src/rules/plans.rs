//! Plans that break a rule: damage at their positions and to their lists.

use super::patterns::store;
use super::{below, change, judge_plan, laid, row, rows_of};
use super::{Case, Test, CHANGED, GRAPHS, OF_PLAN, OWN};
use oracle::draw::Draw;
use oracle::systems::{factorize, System};

/// Row starts that grow as the first columns ask. Behind a first column past the diagonal they fall, below zero too.
pub fn grown(first: &[u32]) -> Vec<u32> {
    let mut starts: Vec<u32> = vec![0];
    for (row, &column) in first.iter().enumerate() {
        let length = (row as u32 + 1).wrapping_sub(column);
        starts.push(starts[row].wrapping_add(length));
    }
    starts
}

/// By how much both rows of a position start further to the right; row starts follow.
const MOVES: [[i32; 2]; 9] = [
    [0, 2],
    [0, -2],
    [2, 0],
    [-2, 0],
    [1, 1],
    [-1, -1],
    [-2, -2],
    [2, 2],
    [i32::MIN; 2],
];

/// Damage to a plan at two of its positions, which may be the same.
const IN_PLAN: [fn(&mut Draw, &mut Case, usize, usize); 13] = [
    |_, case, i, j| case.plan[0][i] = case.plan[0][j],
    |_, case, i, j| case.plan[1][i] = case.plan[1][j],
    // Both have a number twice, at places that lead to each other.
    |_, case, i, j| {
        let lost = case.plan[0][i] as usize;
        case.plan[0][i] = case.plan[0][j];
        case.plan[1][lost] = j as u32;
    },
    |_, case, i, j| case.plan[0].swap(i, j),
    |_, case, i, j| case.plan[1].swap(i, j),
    // A plan still, but perhaps with a block outside.
    |_, case, i, j| {
        let [p, q] = [i, j].map(|i| case.plan[0][i] as usize);
        case.plan[0].swap(i, j);
        case.plan[1].swap(p, q);
    },
    // One is taken for both.
    |_, case, _, _| case.plan[1] = case.plan[0].clone(),
    |_, case, _, _| case.plan[0] = case.plan[1].clone(),
    // The first column past the diagonal.
    |_, case, i, _| start_rows(case, i, [2 * i as u32 + 2; 2]),
    leave_out,
    jump,
    // A pair more, perhaps outside.
    |draw, case, i, j| {
        let mut rows = rows_of(&case.pattern);
        store(&mut rows, i, j);
        store(&mut rows, j, i);
        case.pattern = laid(draw, &rows);
    },
    |draw, case, _, _| change(draw, &mut case.pattern, case.plan[0].len()),
];

/// The rows of position i start at these columns, and the row starts follow.
fn start_rows(case: &mut Case, i: usize, columns: [u32; 2]) {
    let [_, _, first, row_start] = &mut case.plan;
    first[2 * i..2 * i + 2].copy_from_slice(&columns);
    *row_start = grown(first);
}

/// The rows of position i start just behind their leftmost block.
fn leave_out(_: &mut Draw, case: &mut Case, i: usize, _: usize) {
    let [perm, inv_perm, ..] = &case.plan;
    let columns = row(&case.pattern, perm[i] as usize).iter();
    let left = columns.map(|&c| inv_perm[c as usize]).min();
    let left = left.expect("a row has its diagonal");
    start_rows(case, i, [2 * left + 2; 2]);
}

/// Row starts from one up to another are off by as much.
fn jump(draw: &mut Draw, case: &mut Case, _: usize, _: usize) {
    let starts = &mut case.plan[3];
    let at = [0, below(draw, starts.len())][below(draw, 2)];
    let end = at + 1 + below(draw, starts.len() - at);
    let end = [at + 1, end, starts.len()][below(draw, 3)];
    let by = [1, 2, u32::MAX, u32::MAX - 1, 1 << 16, 1 << 31][below(draw, 6)];
    let off = starts[at..end].iter_mut();
    off.for_each(|start| *start = start.wrapping_add(by));
}

/// A plan of any kind that fits, and its pattern.
fn whole(draw: &mut Draw, most: usize) -> Case {
    let system = System::drawn(draw, most);
    let mut call = factorize(draw, ("zeros", |_, _| {}), system);
    for (at, need) in call.needs().into_iter().enumerate() {
        call.lists[at].truncate(need);
    }
    let lists = <[Vec<u32>; 9]>::try_from(call.lists).expect("a factorization has nine lists");
    let [row_offsets, cols, diagonal, _, perm, inv_perm, first, row_start, _] = lists;
    Case {
        pattern: [row_offsets, cols, diagonal],
        plan: [perm, inv_perm, first, row_start],
    }
}

/// The plan damaged at its positions.
fn judge_displaced(draw: &mut Draw, tests: &mut [Test; 2], whole: &Case) {
    let n = whole.plan[0].len();
    for damage in IN_PLAN {
        let mut case = whole.clone();
        let (i, j) = (below(draw, n), below(draw, n));
        damage(draw, &mut case, i, j);
        judge_plan(draw, tests, case);
    }
    for moves in MOVES {
        let mut case = whole.clone();
        let i = below(draw, n);
        let column = case.plan[2][2 * i];
        start_rows(&mut case, i, moves.map(|by| column.wrapping_add_signed(by)));
        judge_plan(draw, tests, case);
    }
}

pub fn compare(draw: &mut Draw) -> usize {
    let mut tests = [
        Test::new("plans with their patterns", &OF_PLAN),
        Test::new("plans alone", &OF_PLAN[..OWN]),
    ];
    for (turns, most) in GRAPHS {
        for _ in 0..turns {
            let whole = whole(draw, most);
            let n = whole.plan[0].len();
            if n > 0 {
                judge_displaced(draw, &mut tests, &whole);
            }
            for _ in 0..CHANGED {
                let mut case = whole.clone();
                change(draw, &mut case.plan, n);
                judge_plan(draw, &mut tests, case);
            }
            judge_plan(draw, &mut tests, whole);
        }
    }
    tests.map(|test| test.report("fit")).iter().sum()
}
