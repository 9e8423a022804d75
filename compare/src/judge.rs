//! Holds one side's answers against the other's, and times both.

use crate::sides::{Side, Sides};
use oracle::text::{answer_line, case_line};
use std::hint::black_box;
use std::time::{Duration, Instant};

/// How many differing cases are shown, and how much of a long line.
const SHOWN: usize = 5;
const LINE: usize = 4000;

/// How often each side is timed; the best run counts.
const RUNS: usize = 7;

/// Bit for bit, but any NaN for any NaN.
pub fn same(a: &[f32], b: &[f32]) -> bool {
    let one = |(x, y): (&f32, &f32)| x.to_bits() == y.to_bits() || (x.is_nan() && y.is_nan());
    a.len() == b.len() && a.iter().zip(b).all(one)
}

/// One operation's cases so far.
pub struct Judged {
    word: &'static str,
    judge: &'static str,
    cases: usize,
    differences: usize,
}

impl Judged {
    pub fn new(word: &'static str) -> Self {
        Self::by(word, "Rust")
    }

    pub fn by(word: &'static str, judge: &'static str) -> Self {
        Self {
            word,
            judge,
            cases: 0,
            differences: 0,
        }
    }

    pub fn judge(&mut self, given: &[f32], proved: &[f32], rust: &[f32]) {
        let word = self.word;
        self.count(same(proved, rust), || {
            [
                case_line(word, given),
                answer_line(proved),
                answer_line(rust),
            ]
        });
    }

    /// One case more. If its answers differ, `lines` makes the case line and both sides' answers.
    pub fn count(&mut self, same: bool, lines: impl FnOnce() -> [String; 3]) {
        self.cases += 1;
        if same {
            return;
        }
        self.differences += 1;
        if self.differences <= SHOWN {
            let [case, proved, other] = lines();
            println!("differs: {case:.LINE$}");
            println!("  proved {proved:.LINE$}");
            println!("  {:6} {other:.LINE$}", self.judge);
        }
    }

    /// Prints the operation's line, with what is said besides, and hands back the differences.
    pub fn close(self, besides: &str) -> usize {
        let Self {
            word,
            cases,
            differences,
            ..
        } = self;
        println!("{word}: {cases} cases, {differences} differences{besides}");
        differences
    }
}

/// Judges one of the calls on every case of `cases`, times both sides over `timed`, and hands back
/// the number of differences.
pub fn compare<const N: usize, const M: usize>(
    word: &'static str,
    sides: &Sides,
    call: impl Fn(&Side, [f32; N]) -> [f32; M],
    cases: impl Iterator<Item = [f32; N]>,
    timed: &[[f32; N]],
) -> usize {
    let mut judged = Judged::new(word);
    for given in cases {
        judged.judge(
            &given,
            &call(&sides.proved, given),
            &call(&sides.rust, given),
        );
    }
    let ratio = ratio(sides, call, timed);
    judged.close(&format!(", time proved/Rust {ratio:.2}"))
}

/// The ratio of the best times, the sides taking turns.
fn ratio<const N: usize, const M: usize>(
    sides: &Sides,
    call: impl Fn(&Side, [f32; N]) -> [f32; M],
    timed: &[[f32; N]],
) -> f64 {
    let (mut proved, mut rust) = (Duration::MAX, Duration::MAX);
    for _ in 0..RUNS {
        proved = proved.min(one_run(&sides.proved, &call, timed));
        rust = rust.min(one_run(&sides.rust, &call, timed));
    }
    proved.as_secs_f64() / rust.as_secs_f64()
}

/// Both sides run through this one loop, which is never copied into its caller.
#[inline(never)]
fn one_run<const N: usize, const M: usize>(
    side: &Side,
    call: impl Fn(&Side, [f32; N]) -> [f32; M],
    timed: &[[f32; N]],
) -> Duration {
    let start = Instant::now();
    for given in timed {
        black_box(call(side, *given));
    }
    start.elapsed()
}
