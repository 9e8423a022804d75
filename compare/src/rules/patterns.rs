//! Patterns that break a rule: damage to their rows and to their lists.

use super::{below, change, judge_pattern, laid, one, row, rows_of, slots};
use super::{Pattern, Rows, Test, CHANGED, GRAPHS, OF_PATTERN, PARTICLES};
use oracle::blocks::Blocks;
use oracle::draw::Draw;
use oracle::shapes::{self, SIZED};

fn some_block(draw: &mut Draw, rows: &Rows) -> Option<(usize, usize)> {
    let columns = |r: usize| rows[r].iter().map(move |&c| (r, c as usize));
    let blocks: Vec<(usize, usize)> = (0..rows.len()).flat_map(columns).collect();
    one(draw, &blocks)
}

fn lose(rows: &mut Rows, r: usize, c: usize) {
    rows[r].retain(|&it| it as usize != c);
}

pub fn store(rows: &mut Rows, r: usize, c: usize) {
    if let Err(at) = rows[r].binary_search(&(c as u32)) {
        rows[r].insert(at, c as u32);
    }
}

fn store_twice(rows: &mut Rows, r: usize, c: usize) {
    let at = rows[r].partition_point(|&it| (it as usize) < c);
    rows[r].insert(at, c as u32);
}

/// Damage to a pattern's rows at one of its blocks; they are laid out after it.
const IN_ROWS: [fn(&mut Draw, &mut Rows, usize, usize); 9] = [
    |_, rows, r, c| lose(rows, r, c),
    |_, rows, r, c| store_twice(rows, r, c),
    // Its mirror too.
    |_, rows, r, c| {
        store_twice(rows, r, c);
        store_twice(rows, c, r);
    },
    // Both rows keep a diagonal, since their particles are neighbours.
    |_, rows, r, c| rows.swap(r, c),
    // Two columns change places.
    |draw, rows, r, _| {
        let at = below(draw, rows[r].len());
        let last = rows[r].len() - 1;
        rows[r].swap(at, last.min(at + 1));
    },
    // The block moves, and its mirror stays.
    |draw, rows, r, c| {
        lose(rows, r, c);
        let other = below(draw, rows.len());
        store(rows, r, other);
    },
    exchange_columns,
    // Three blocks in a ring.
    |draw, rows, r, c| {
        let other = below(draw, rows.len());
        store(rows, c, other);
        store(rows, other, r);
    },
    // The row has a column more, at n or above.
    |draw, rows, r, c| {
        let (n, c) = (rows.len() as u32, c as u32);
        let past = [n, n, n + 1, c | 1 << 16, c | 1 << 31, u32::MAX];
        rows[r].push(past[below(draw, past.len())]);
    },
];

/// With another block, so that each row and each column has as many blocks as before.
fn exchange_columns(draw: &mut Draw, rows: &mut Rows, r: usize, c: usize) {
    if let Some((s, d)) = some_block(draw, rows) {
        if !rows[r].contains(&(d as u32)) && !rows[s].contains(&(c as u32)) {
            lose(rows, r, c);
            lose(rows, s, d);
            store(rows, r, d);
            store(rows, s, c);
        }
    }
}

/// Damage to a pattern's lists at one of its rows.
const IN_PATTERN: [fn(&mut Draw, &mut Pattern, usize); 4] = [
    // The first row begins behind a column.
    |draw, [row_offsets, cols, diagonal], _| {
        cols.insert(0, draw.below(diagonal.len() as u32 + 1));
        let slots = row_offsets.iter_mut().chain(diagonal);
        slots.for_each(|slot| *slot += 1);
    },
    // The last row has more columns.
    |draw, [row_offsets, _, diagonal], _| row_offsets[diagonal.len()] += 1 + draw.below(2),
    leave_home,
    fall,
];

/// The row's diagonal is said to stand elsewhere in the row, at its end, or at its column in another row or behind all
/// rows.
fn leave_home(draw: &mut Draw, pattern: &mut Pattern, r: usize) {
    let slots = slots(pattern, r);
    let [_, cols, diagonal] = pattern;
    cols.push(r as u32);
    let near =
        |&slot: &usize| cols[slot] as usize == r || slots.contains(&slot) || slot == slots.end;
    let near: Vec<usize> = (0..cols.len()).filter(near).collect();
    diagonal[r] = near[below(draw, near.len())] as u32;
}

/// A particle more before row r, whose own row ends before it starts: row r begins within the row before, with columns
/// that both have, and all other rows are as they must be.
fn fall(draw: &mut Draw, pattern: &mut Pattern, r: usize) {
    if r == 0 || pattern[2].len() == PARTICLES {
        return;
    }
    let (before, behind) = (row(pattern, r - 1), row(pattern, r));
    let shares = |&count: &usize| before.ends_with(&behind[..count]);
    let Some(shared) = (1..=before.len().min(behind.len())).rev().find(shares) else {
        return;
    };
    let [row_offsets, cols, diagonal] = pattern;
    let start = row_offsets[r];
    let end = start - shared as u32;
    cols.drain(end as usize..start as usize);
    let renamed = cols.iter_mut().filter(|c| **c as usize >= r);
    renamed.for_each(|c| *c += 1);
    let later = row_offsets[r + 1..].iter_mut().chain(&mut diagonal[r..]);
    later.for_each(|slot| *slot -= shared as u32);
    row_offsets.insert(r + 1, end);
    diagonal.insert(r, draw.below(start + 1));
}

fn judge_damaged(draw: &mut Draw, test: &mut Test, whole: &Pattern) {
    let n = whole[2].len();
    let rows = rows_of(whole);
    for damage in IN_ROWS {
        if let Some((r, c)) = some_block(draw, &rows) {
            let mut rows = rows.clone();
            damage(draw, &mut rows, r, c);
            let pattern = laid(draw, &rows);
            judge_pattern(draw, test, pattern);
        }
    }
    for damage in IN_PATTERN.iter().filter(|_| n > 0) {
        let mut pattern = whole.clone();
        let r = below(draw, n);
        damage(draw, &mut pattern, r);
        judge_pattern(draw, test, pattern);
    }
    for _ in 0..CHANGED {
        let mut pattern = whole.clone();
        change(draw, &mut pattern, n);
        judge_pattern(draw, test, pattern);
    }
}

pub fn compare(draw: &mut Draw) -> usize {
    let mut test = Test::new("patterns", &OF_PATTERN);
    for (turns, most) in GRAPHS {
        for turn in 0..turns {
            let graph = shapes::drawn(draw, SIZED[turn % SIZED.len()], most);
            let matrix = Blocks::from_pairs(graph.n, &graph.flat());
            let whole = matrix.pattern().map(<[u32]>::to_vec);
            judge_damaged(draw, &mut test, &whole);
            judge_pattern(draw, &mut test, whole);
        }
    }
    test.report("well formed")
}
