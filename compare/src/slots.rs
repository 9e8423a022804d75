//! A block's slot, found through the row view: of built patterns beside the Rust's `block_index`, of any lists beside a plain reading of
//! the rule and beside the second program.

use crate::judge::Judged;
use crate::lend::UNTOUCHED;
use crate::rows::{any, beside_second, listing, told, Asked as Row, Row as Shown};
use crate::sys::c::*;
use oracle::blocks::Blocks;
use oracle::draw::Draw;
use oracle::graphs;

/// How many graphs of at most so many particles are built. Each of their blocks is asked for, and in each row columns that may be absent.
const SIZES: [(usize, usize); 3] = [(1000, 10), (100, 100), (10, 1024)];
const ABSENT: usize = 3;

/// Any lists; and long rows, of at most so many columns, where the search takes more steps.
const ANY: usize = 20_000;
const LONG: usize = 10_000;
const LONGEST: u32 = 80;

/// How many columns are asked for in each.
const COLUMNS: usize = 2;

type Answer = Result<u32, u8>;

struct Asked {
    at: Row,
    col: u32,
}

impl Asked {
    fn proved(&mut self) -> Answer {
        let Self { at, col } = self;
        let mut place = UNTOUCHED;
        let refused =
            unsafe { lend!(bracket_row_slot(at.n; at.starts, at.cols; at.row, *col, &mut place;)) };
        told(refused, place, UNTOUCHED)
    }

    /// The rule, read plainly: what the row view shows is searched by halves.
    fn read(&self) -> Answer {
        let row = self.at.read()?;
        let found = halved(&row.cols, self.col).map(|at| (row.first + at) as u32);
        Ok(found.unwrap_or(u32::MAX))
    }

    /// Whether a column of the row is missed: it stands there, but the row doesn't rise.
    fn missed(&self) -> bool {
        let stands = |row: Shown| row.cols.contains(&self.col);
        self.read() == Ok(u32::MAX) && self.at.read().is_ok_and(stands)
    }

    /// As the second program reads it.
    fn line(&self) -> String {
        let Row { n, row, .. } = self.at;
        format!("row_slot {n} {row} {} {}", self.col, self.at.lists())
    }
}

/// Where the column stands: the one in the middle says which half is left, the larger one's length of either.
fn halved(cols: &[u32], col: u32) -> Option<usize> {
    if cols.len() <= 1 {
        return cols.first().filter(|&&one| one == col).map(|_| 0);
    }
    let middle = cols.len() / 2;
    let from = if cols[middle] <= col { middle } else { 0 };
    let left = &cols[from..from + cols.len() - middle];
    halved(left, col).map(|at| from + at)
}

fn answer_line(answer: &Answer) -> String {
    match answer {
        Ok(slot) => format!("done {slot}"),
        Err(number) => format!("refused {number}"),
    }
}

pub fn compare(draw: &mut Draw) -> usize {
    compare_rust(draw) + compare_any(draw)
}

fn judge(judged: &mut Judged, asked: &Asked, proved: &Answer, other: &Answer) {
    judged.count(proved == other, || {
        [asked.line(), format!("{proved:?}"), format!("{other:?}")]
    });
}

fn compare_rust(draw: &mut Draw) -> usize {
    let mut judged = Judged::new("row_slot");
    let mut absent = 0;
    for (turns, most) in SIZES {
        for turn in 0..turns {
            let graph = graphs::drawn(draw, turn, most);
            let matrix = Blocks::from_pairs(graph.n, &graph.flat());
            absent += built(draw, &mut judged, graph.n, &matrix);
        }
    }
    judged.close(&format!(
        ", each block of built patterns, and {absent} absent ones"
    ))
}

/// Every block of the matrix, and columns that may be absent; tells how many were. The lists have any rest.
fn built(draw: &mut Draw, judged: &mut Judged, n: usize, matrix: &Blocks) -> usize {
    let [starts, cols, _] = matrix.pattern();
    let (starts, cols) = (
        [starts, &listing(draw, 2)].concat(),
        [cols, &listing(draw, 2)].concat(),
    );
    let at = Row {
        n,
        starts,
        cols,
        row: n,
    };
    let mut asked = Asked { at, col: 0 };
    let proved = asked.proved();
    judge(judged, &asked, &proved, &Err(4));
    let mut absent = 0;
    for row in 0..n {
        let mut columns = matrix.columns(row as u32);
        columns.extend((0..ABSENT).map(|_| draw.below(n as u32 + 1)));
        columns.push(u32::MAX);
        asked.at.row = row;
        for col in columns {
            let rust = matrix.block_index(row as u32, col);
            absent += usize::from(rust == u32::MAX);
            asked.col = col;
            let proved = asked.proved();
            judge(judged, &asked, &proved, &Ok(rust));
        }
    }
    absent
}

fn compare_any(draw: &mut Draw) -> usize {
    let word = "row_slot of any lists";
    let mut asked: Vec<Asked> = Vec::new();
    for turn in 0..ANY + LONG {
        for _ in 0..COLUMNS {
            let at = if turn < ANY { any(draw) } else { long(draw) };
            let col = column(draw, &at);
            asked.push(Asked { at, col });
        }
    }
    let mut judged = Judged::by(word, "read");
    let (mut refused, mut absent, mut missed) = ([0; 5], 0, 0);
    let mut answers = Vec::new();
    for one in &mut asked {
        let proved = one.proved();
        judge(&mut judged, one, &proved, &one.read());
        refused[usize::from(proved.err().unwrap_or(0))] += 1;
        absent += usize::from(proved == Ok(u32::MAX));
        missed += usize::from(one.missed());
        answers.push(answer_line(&proved));
    }
    let [done, one, _, three, four] = refused;
    let found = done - absent;
    let besides = format!(
        ": {found} found, {absent} absent, of these {missed} missed in a row that doesn't rise; refused by 1: {one}, 3: {three}, 4: {four}"
    );
    let lines = asked.iter().map(Asked::line).collect();
    judged.close(&besides) + beside_second(word, lines, &answers)
}

/// A column that stands somewhere, mostly, or any.
fn column(draw: &mut Draw, at: &Row) -> u32 {
    let any = draw.below(LONGEST);
    match (draw.below(4), at.cols.len() as u32) {
        (0, _) | (_, 0) => any,
        (_, count) => at.cols[draw.below(count) as usize],
    }
}

/// A long row between two short ones, of columns that rise, or rise but for a few, or of any.
fn long(draw: &mut Draw) -> Row {
    let [first, count, last] = [draw.below(3), draw.below(LONGEST), draw.below(3)];
    let total = first + count + last;
    let mut cols: Vec<u32> = (0..total).map(|_| draw.below(LONGEST)).collect();
    let shape = draw.below(3);
    if shape > 0 {
        cols[first as usize..(first + count) as usize].sort_unstable();
    }
    if shape == 1 && count > 1 {
        let [one, other] = [0, 1].map(|_| (first + draw.below(count)) as usize);
        cols.swap(one, other);
    }
    Row {
        n: 3,
        starts: vec![0, first, first + count, total],
        cols,
        row: 1,
    }
}
