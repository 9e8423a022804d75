//! The rules of patterns and of plans, each broken alone and together: what the doors say beside a plain reading of
//! the rules' sentences.

mod patterns;
mod plans;
mod small;

use crate::doors;
use crate::judge::Judged;
use oracle::call::{Call, Operation};
use oracle::draw::Draw;
use oracle::plan::ENVELOPE;
use std::ops::Range;

/// How many graphs of at most so many particles there are. Each is judged whole and damaged in every way.
const GRAPHS: [(usize, usize); 4] = [(5500, 12), (600, 40), (40, 200), (20, PARTICLES)];
const PARTICLES: usize = 1024;

/// How many cases of each graph have any one to three numbers changed.
const CHANGED: usize = 5;

/// How often each rule must be broken alone, so that the comparison can't go blind.
const LEAST: usize = 100;

/// A case of more blocks or entries is left out, since lists of that length would have to be lent.
const LONGEST: u32 = 100_000;

/// Row offsets, columns and diagonal slots.
type Pattern = [Vec<u32>; 3];

/// Order, inverse, first columns and row starts.
type Plan = [Vec<u32>; 4];

/// Each row's columns.
type Rows = Vec<Vec<u32>>;

#[derive(Clone)]
struct Case {
    pattern: Pattern,
    plan: Plan,
}

/// The rules of a pattern, and where a mirror is missing. That the row starts end at the block count can't be broken:
/// the last of them is that count.
const OF_PATTERN: [&str; 7] = [
    "begin",
    "rise",
    "columns rise",
    "columns below n",
    "diagonals",
    "mirrors above",
    "mirrors below",
];

/// The rules of a plan, and where the blocks that lie outside stand in the pattern. Order and inverse are one rule,
/// since either direction follows from the other.
const OF_PLAN: [&str; 8] = [
    "order and inverse",
    "same column",
    "even column",
    "column at most 2i",
    "begin",
    "grow",
    "blocks above inside",
    "blocks below inside",
];

/// The first so many ask for no pattern.
const OWN: usize = 6;

pub fn compare(draw: &mut Draw) -> usize {
    patterns::compare(draw)
        + small::compare_patterns(draw)
        + plans::compare(draw)
        + small::compare_plans(draw)
}

/// A row that falls has none, and none is behind the last block.
fn slots([row_offsets, _, diagonal]: &Pattern, r: usize) -> Range<usize> {
    let blocks = row_offsets[diagonal.len()];
    let bound = |r: usize| row_offsets[r].min(blocks) as usize;
    bound(r)..bound(r + 1)
}

fn row(pattern: &Pattern, r: usize) -> &[u32] {
    pattern[1].get(slots(pattern, r)).unwrap_or_default()
}

/// Which rules are broken. A rule is asked only where the others leave something to ask, so that each can be broken
/// alone: a row that falls has no diagonal, a column at n or above no mirror.
fn broken_of_pattern(pattern: &Pattern) -> [bool; OF_PATTERN.len()] {
    let [row_offsets, cols, diagonal] = pattern;
    let n = diagonal.len();
    let rises = |r: usize| row_offsets[r] <= row_offsets[r + 1];
    let strictly = |r: usize| row(pattern, r).windows(2).all(|two| two[0] < two[1]);
    let below = |r: usize| row(pattern, r).iter().all(|&c| (c as usize) < n);
    let home = |r: usize| {
        let slot = diagonal[r] as usize;
        slots(pattern, r).contains(&slot) && cols[slot] as usize == r
    };
    let stored = |r: usize, c: usize| row(pattern, r).contains(&(c as u32));
    let columns = |r: usize| row(pattern, r).iter().map(|&c| c as usize);
    let hold = [
        row_offsets[0] == 0,
        (0..n).all(rises),
        (0..n).all(strictly),
        (0..n).all(below),
        (0..n).all(|r| home(r) || !rises(r)),
        (0..n).all(|r| columns(r).all(|c| c >= r || stored(c, r))),
        (0..n).all(|r| columns(r).all(|c| c <= r || c >= n || stored(c, r))),
    ];
    hold.map(|holds| !holds)
}

/// The same for a plan: a block has no place where the inverse has none for its particles. That a diagonal block is
/// inside is the rule of columns at most 2i.
fn broken_of_plan(case: &Case) -> [bool; OF_PLAN.len()] {
    let [perm, inv_perm, first, row_start] = &case.plan;
    let n = perm.len();
    let back = |a: &[u32], b: &[u32]| (0..n).all(|i| b.get(a[i] as usize) == Some(&(i as u32)));
    let start = |row: usize| u64::from(row_start[row]);
    let grows = |row: usize| start(row + 1) + u64::from(first[row]) == start(row) + row as u64 + 1;
    let columns = |r: usize| row(&case.pattern, r).iter().map(|&c| c as usize);
    let position = |r: usize| inv_perm.get(r).map(|&i| i as usize).filter(|&i| i < n);
    let inside = |r: usize, c: usize| match (position(r), position(c)) {
        (Some(i), Some(j)) if j < i => first[2 * i] as usize <= 2 * j,
        _ => true,
    };
    let hold = [
        back(perm, inv_perm) && back(inv_perm, perm),
        (0..n).all(|i| first[2 * i] == first[2 * i + 1]),
        first.iter().all(|column| column % 2 == 0),
        (0..2 * n).all(|row| first[row] as usize <= 2 * (row / 2)),
        row_start[0] == 0,
        (0..2 * n).all(grows),
        (0..n).all(|r| columns(r).all(|c| c < r || inside(r, c))),
        (0..n).all(|r| columns(r).all(|c| c > r || inside(r, c))),
    ];
    hold.map(|holds| !holds)
}

/// One door's cases so far: how often no rule was broken, and each rule alone.
struct Test {
    judged: Judged,
    rules: &'static [&'static str],
    whole: usize,
    alone: Vec<usize>,
    left_out: usize,
}

impl Test {
    fn new(word: &'static str, rules: &'static [&'static str]) -> Self {
        Self {
            judged: Judged::by(word, "read"),
            rules,
            whole: 0,
            alone: vec![0; rules.len()],
            left_out: 0,
        }
    }

    fn count(&mut self, broken: &[bool]) {
        let found: Vec<usize> = (0..broken.len()).filter(|&rule| broken[rule]).collect();
        match found[..] {
            [] => self.whole += 1,
            [rule] => self.alone[rule] += 1,
            _ => {}
        }
    }

    fn judge(&mut self, mut call: Call, broken: &[bool], number: u8) {
        let refused = doors::made(&mut call).0;
        self.judged.count(refused == number, || {
            let rules = self.rules.iter().zip(broken).filter(|(_, &broken)| broken);
            let rules: Vec<&str> = rules.map(|(rule, _)| *rule).collect();
            let read = format!("{number}, broken: {}", rules.join(", "));
            [call.line(), refused.to_string(), read]
        });
    }

    fn close(self) -> usize {
        let besides = format!("; left out by their length: {}", self.left_out);
        self.judged.close(&besides)
    }

    /// Also tells what was counted.
    fn report(self, word: &str) -> usize {
        let alone = self.rules.iter().zip(&self.alone);
        let told: Vec<String> = alone.map(|(rule, n)| format!("{rule}: {n}")).collect();
        let told = format!("{word}: {}; broken alone, {}", self.whole, told.join(", "));
        let seen = self.alone.iter().all(|&count| count >= LEAST);
        let differences = self.close();
        println!("  {told}");
        assert!(seen, "each rule is broken alone");
        differences
    }
}

/// The call, each of its lists with a rest of up to two places.
fn call(draw: &mut Draw, operation: Operation, n: usize, mut lists: Vec<Vec<u32>>) -> Call {
    for list in &mut lists {
        (0..draw.below(3)).for_each(|_| list.push(draw.below(8)));
    }
    Call {
        operation,
        numbers: vec![n],
        lists,
    }
}

/// Any columns up to the block count, if that is more than there are.
fn complete_columns(draw: &mut Draw, [row_offsets, cols, diagonal]: &mut Pattern) {
    let n = diagonal.len();
    while cols.len() < row_offsets[n] as usize {
        cols.push(draw.below(n as u32 + 2));
    }
}

fn judge_pattern(draw: &mut Draw, test: &mut Test, mut pattern: Pattern) {
    let n = pattern[2].len();
    let blocks = pattern[0][n];
    if blocks > LONGEST {
        test.left_out += 1;
        return;
    }
    complete_columns(draw, &mut pattern);
    let broken = broken_of_pattern(&pattern);
    let number = if broken.contains(&true) { 5 } else { 0 };
    let lists = pattern.into_iter().chain([vec![0; 4 * blocks as usize]]);
    let call = call(draw, Operation::ClearValues, n, lists.collect());
    test.count(&broken);
    test.judge(call, &broken, number);
}

/// The plan with its pattern and alone.
fn judge_plan(draw: &mut Draw, [with, alone]: &mut [Test; 2], mut case: Case) {
    let n = case.plan[0].len();
    let (blocks, entries) = (case.pattern[0][n], case.plan[3][2 * n]);
    if blocks.max(entries) > LONGEST {
        with.left_out += 1;
        alone.left_out += 1;
        return;
    }
    complete_columns(draw, &mut case.pattern);
    let formed = !broken_of_pattern(&case.pattern).contains(&true);
    let broken = broken_of_plan(&case);
    let own = &broken[..OWN];
    let number = |broken: &[bool]| match broken.contains(&true) {
        true => 6,
        false if entries as usize > ENVELOPE => 7,
        false => 0,
    };
    let Case { pattern, plan } = case;
    // Zeros end a factorization at its first pivot.
    let [blocks, values] = [4 * blocks, entries].map(|length| vec![0; length as usize]);
    let lists = [&plan[..], &[values.clone()], &vec![vec![0; 2 * n]; 3]].concat();
    let solve = call(draw, Operation::Solve, n, lists);
    alone.count(own);
    alone.judge(solve, own, number(own));
    let lists = [&pattern[..], &[blocks], &plan[..], &[values]].concat();
    let factorize = call(draw, Operation::Factorize, n, lists);
    if formed {
        with.count(&broken);
    }
    with.judge(factorize, &broken, if formed { number(&broken) } else { 5 });
}

fn below(draw: &mut Draw, limit: usize) -> usize {
    draw.below(limit as u32) as usize
}

/// One of them, if there is one.
fn one<T: Copy>(draw: &mut Draw, of: &[T]) -> Option<T> {
    (!of.is_empty()).then(|| of[below(draw, of.len())])
}

/// One to three numbers of the lists become a neighbour in size or in place, a number at a limit, or any.
fn change(draw: &mut Draw, lists: &mut [Vec<u32>], n: usize) {
    for _ in 0..=draw.below(3) {
        let list = &mut lists[below(draw, lists.len())];
        if list.is_empty() {
            continue;
        }
        let at = below(draw, list.len());
        let next = (at + 1) % list.len();
        let by = [1, 2, 1 << 16][below(draw, 3)];
        match draw.below(10) {
            0 | 1 => list[at] = list[at].wrapping_add(by),
            2 | 3 => list[at] = list[at].wrapping_sub(by),
            4 => list[at] = list[next],
            5 => list.swap(at, next),
            6 => list[at] = draw.below(n as u32 + 2),
            7 => list[at] ^= 1 << 31,
            8 => list[at] = 1 << 31,
            _ => list[at] = [u32::MAX, draw.word() as u32][below(draw, 2)],
        }
    }
}

fn rows_of(pattern: &Pattern) -> Rows {
    let rows = 0..pattern[2].len();
    rows.map(|r| row(pattern, r).to_vec()).collect()
}

/// The pattern of these rows. A diagonal that is missing is said to stand at its row's start.
fn laid(draw: &mut Draw, rows: &Rows) -> Pattern {
    let [mut row_offsets, mut cols, mut diagonal] = [vec![0], vec![], vec![]];
    for (r, row) in rows.iter().enumerate() {
        let homes: Vec<usize> = (0..row.len()).filter(|&k| row[k] as usize == r).collect();
        diagonal.push((cols.len() + one(draw, &homes).unwrap_or(0)) as u32);
        cols.extend(row);
        row_offsets.push(cols.len() as u32);
    }
    [row_offsets, cols, diagonal]
}
