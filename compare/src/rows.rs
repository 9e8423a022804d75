//! One row, as the view's public form shows it: of built patterns beside the Rust's `for_each_block_of_row`, of any lists beside
//! a plain reading of the rule and beside the second program.

use crate::judge::Judged;
use crate::lend::UNTOUCHED;
use crate::second;
use crate::sys::c::*;
use oracle::blocks::Blocks;
use oracle::draw::Draw;
use oracle::graphs;

/// How many graphs of at most so many particles are built; each of their rows is a case, and the one past them.
const SIZES: [(usize, usize); 3] = [(1000, 10), (100, 100), (10, 1024)];

/// Any lists, of at most so many places.
const ANY: usize = 20_000;
const PLACES: u32 = 7;

/// What the call is handed. The lists may be longer than needed.
pub struct Asked {
    pub n: usize,
    pub starts: Vec<u32>,
    pub cols: Vec<u32>,
    pub row: usize,
}

pub type Answer = Result<Row, u8>;

/// The slot of the first block, the columns, and what is answered past them.
#[derive(Debug, PartialEq)]
pub struct Row {
    pub first: usize,
    pub cols: Vec<u32>,
    past: [u32; 2],
}

impl Row {
    fn expected(first: u32, cols: &[u32]) -> Self {
        Self {
            first: first as usize,
            cols: cols.to_vec(),
            past: [u32::MAX; 2],
        }
    }
}

impl Asked {
    /// The row, or the number that all three functions refuse it by.
    fn proved(&mut self) -> Answer {
        let (first, len) = (self.first(), self.len());
        let numbers = [first.err(), len.err(), self.col(0).err()];
        assert_eq!(
            numbers,
            [numbers[0]; 3],
            "refused in two ways: {}",
            self.line()
        );
        let (first, len) = (first?, len?);
        let cols = (0..len).map(|j| self.col(j)).collect::<Result<_, _>>()?;
        let past = [self.col(len)?, self.col(usize::MAX)?];
        Ok(Row { first, cols, past })
    }

    fn first(&mut self) -> Result<usize, u8> {
        let mut place = UNTOUCHED as usize;
        let refused = unsafe {
            lend!(bracket_row_first(self.n; self.starts, self.cols; self.row, &mut place;))
        };
        told(refused, place, UNTOUCHED as usize)
    }

    fn len(&mut self) -> Result<usize, u8> {
        let mut place = UNTOUCHED as usize;
        let refused = unsafe {
            lend!(bracket_row_len(self.n; self.starts, self.cols; self.row, &mut place;))
        };
        told(refused, place, UNTOUCHED as usize)
    }

    fn col(&mut self, j: usize) -> Result<u32, u8> {
        let mut place = UNTOUCHED;
        let refused = unsafe {
            lend!(bracket_row_col(self.n; self.starts, self.cols; self.row, j, &mut place;))
        };
        told(refused, place, UNTOUCHED)
    }

    /// The rule, read plainly: 1, 3 and 4; then a row whose bounds are in order and within the last row offset, or none.
    pub fn read(&self) -> Answer {
        if self.n > 1024 {
            return Err(1);
        }
        let last = *self.starts.get(self.n).ok_or(3)?;
        if self.cols.len() < last as usize {
            return Err(3);
        }
        if self.row >= self.n {
            return Err(4);
        }
        let [from, to] = self.bounds();
        if from > to || to > last {
            return Ok(Row::expected(0, &[]));
        }
        Ok(Row::expected(from, &self.cols[from as usize..to as usize]))
    }

    /// Where the row asked for begins and ends, once the lists are known to have it.
    fn bounds(&self) -> [u32; 2] {
        [self.starts[self.row], self.starts[self.row + 1]]
    }

    /// As the second program reads it.
    fn line(&self) -> String {
        format!("row {} {} {}", self.n, self.row, self.lists())
    }

    pub fn lists(&self) -> String {
        [&self.starts, &self.cols]
            .map(|list| listed(list))
            .join(" ")
    }
}

/// What a call came to; a refusal leaves its place.
pub fn told<T: PartialEq>(refused: u8, place: T, untouched: T) -> Result<T, u8> {
    assert!(
        refused == 0 || place == untouched,
        "a refusal wrote a place"
    );
    match refused {
        0 => Ok(place),
        number => Err(number),
    }
}

fn listed(items: &[u32]) -> String {
    let tokens = std::iter::once(items.len().to_string()).chain(items.iter().map(u32::to_string));
    tokens.collect::<Vec<_>>().join(" ")
}

fn answer_line(answer: &Answer) -> String {
    match answer {
        Ok(row) => format!("done {} {}", row.first, listed(&row.cols)),
        Err(number) => format!("refused {number} 0"),
    }
}

pub fn compare(draw: &mut Draw) -> usize {
    compare_rust(draw) + compare_any(draw)
}

fn judge(judged: &mut Judged, asked: &Asked, proved: &Answer, other: &Answer) {
    judged.count(proved == other, || {
        [asked.line(), format!("{proved:?}"), format!("{other:?}")]
    });
}

fn compare_rust(draw: &mut Draw) -> usize {
    let mut judged = Judged::new("row");
    for (turns, most) in SIZES {
        for turn in 0..turns {
            let graph = graphs::drawn(draw, turn, most);
            let matrix = Blocks::from_pairs(graph.n, &graph.flat());
            let [starts, cols, _] = matrix.pattern();
            let mut asked = Asked {
                n: graph.n,
                starts: [starts, &numbers(draw)].concat(),
                cols: [cols, &numbers(draw)].concat(),
                row: 0,
            };
            for row in 0..graph.n {
                let rust = Row::expected(starts[row], &matrix.columns(row as u32));
                asked.row = row;
                let proved = asked.proved();
                judge(&mut judged, &asked, &proved, &Ok(rust));
            }
            asked.row = graph.n;
            let proved = asked.proved();
            judge(&mut judged, &asked, &proved, &Err(4));
        }
    }
    judged.close(", each row of built patterns in lists of any rest")
}

fn compare_any(draw: &mut Draw) -> usize {
    let mut asked: Vec<Asked> = (0..ANY).map(|_| any(draw)).collect();
    let word = "row of any lists";
    let mut judged = Judged::by(word, "read");
    let (mut refused, mut falling, mut passing) = ([0; 5], 0, 0);
    let mut answers = Vec::new();
    for one in &mut asked {
        let proved = one.proved();
        judge(&mut judged, one, &proved, &one.read());
        match &proved {
            Err(number) => refused[usize::from(*number)] += 1,
            Ok(_) => {
                let ([from, to], last) = (one.bounds(), one.starts[one.n]);
                refused[0] += 1;
                falling += usize::from(from > to);
                passing += usize::from(to > last);
            }
        }
        answers.push(answer_line(&proved));
    }
    let [done, one, _, three, four] = refused;
    let besides = format!(
        ": {done} done; bounds that fall: {falling}, that pass the last row offset: {passing}; refused by 1: {one}, 3: {three}, 4: {four}"
    );
    let lines = asked.iter().map(Asked::line).collect();
    judged.close(&besides) + beside_second(word, lines, &answers)
}

/// What the code answered to these lines, beside what the second program answers.
pub fn beside_second(word: &'static str, lines: Vec<String>, proved: &[String]) -> usize {
    let answers = match second::answers(lines.clone()) {
        Ok(answers) => answers,
        Err(problem) => {
            println!("{word}: not compared, since the second program did not run ({problem})");
            return 0;
        }
    };
    assert_eq!(
        answers.len(),
        lines.len(),
        "the second program left rows unanswered"
    );
    let mut judged = Judged::by(word, "second");
    for ((line, proved), answer) in lines.into_iter().zip(proved).zip(answers) {
        judged.count(*proved == answer, || [line, proved.clone(), answer.clone()]);
    }
    judged.close(" from the second program")
}

/// Mostly few particles, with row offsets one short, just enough or more, and a row of theirs or past them.
pub fn any(draw: &mut Draw) -> Asked {
    let few = draw.below(PLACES - 2);
    let n = match draw.below(40) {
        0 => usize::MAX,
        1 => 1025,
        2 => 1024,
        _ => few as usize,
    };
    let row = match draw.below(12) {
        0 => usize::MAX,
        _ => draw.below(few + 2) as usize,
    };
    let places = few + draw.below(5);
    Asked {
        n,
        starts: listing(draw, places),
        cols: numbers(draw),
        row,
    }
}

fn numbers(draw: &mut Draw) -> Vec<u32> {
    let places = draw.below(PLACES + 1);
    listing(draw, places)
}

pub fn listing(draw: &mut Draw, places: u32) -> Vec<u32> {
    let one = |_| match draw.below(24) {
        23 => u32::MAX,
        small => small % 5,
    };
    (0..places).map(one).collect()
}
