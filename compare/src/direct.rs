//! The direct solve: matrices and factors of every kind held against the Rust, some and damaged calls
//! against the second program, and times.

use crate::calls::{beside_rust, beside_second};
use crate::damage::damage;
use crate::judge::Judged;
use crate::proved::PROVED;
use crate::times::{by_turns, micros, told};
use crate::{doors, inside};
use oracle::blocks::{vectors, Blocks};
use oracle::call::{Call, Left};
use oracle::direct::Direct;
use oracle::draw::Draw;
use oracle::graphs;
use oracle::plan::ENVELOPE;
use oracle::systems::{
    factorize, solve, stiff, stiff_factor, Factor, System, FACTORS, MATRICES, PLANS,
};
use oracle::values;
use std::hint::black_box;

/// How many systems of at most so many particles each kind of matrix has, and each kind of factor.
const FACTORED: [(usize, usize); 4] = [(1000, 8), (120, 40), (20, 200), (3, 1024)];
const SOLVED: [(usize, usize); 4] = [(2000, 8), (240, 40), (40, 200), (6, 1024)];

/// Plans of 16,384 entries, and of the next numbers.
const PAST: usize = 4;

/// The second program's: of each kind so many whole ones and so many damaged ones.
const WHOLE: [usize; 2] = [60, 120];
const DAMAGED: [usize; 2] = [300, 600];
const WHOLE_SIZE: usize = 8;
const DAMAGED_SIZE: usize = 6;
const DAMAGED_PAST: usize = 5;

pub fn compare(draw: &mut Draw) -> usize {
    compare_factorize(draw) + compare_solve(draw) + compare_second(draw)
}

/// "a: 1, b: 2".
fn counted<'a>(names: impl IntoIterator<Item = &'a str>, counts: &[usize]) -> String {
    let counted = names.into_iter().zip(counts);
    let counted: Vec<String> = counted.map(|(name, n)| format!("{name}: {n}")).collect();
    counted.join(", ")
}

/// What has been met so far of factorizations.
#[derive(Default)]
struct Met {
    plans: [usize; PLANS.len()],
    /// By the matrix's kind.
    done: [usize; MATRICES.len()],
    refused: usize,
    /// By what the pivot was: +0.0, −0.0, finite and below zero, −infinity, NaN.
    failed: [usize; 5],
    /// Those with a finished row whose pivot was subnormal, with an infinity, with a NaN.
    subnormal: usize,
    infinite: usize,
    nan: usize,
    longer: usize,
}

const PIVOTS: [&str; 5] = ["+0.0", "-0.0", "below zero", "-infinity", "NaN"];

fn pivot_kind(pivot: f32) -> usize {
    match pivot {
        p if p.is_nan() => 4,
        f32::NEG_INFINITY => 3,
        p if p < 0.0 => 2,
        p => usize::from(p.is_sign_negative()),
    }
}

impl Met {
    fn count(&mut self, kind: usize, call: &Call, left: &Left) {
        if left.refused > 0 {
            self.refused += 1;
            return;
        }
        match left.failed {
            None => self.done[kind] += 1,
            Some((_, pivot)) => self.failed[pivot_kind(f32::from_bits(pivot))] += 1,
        }
        let (starts, n) = (&call.lists[7], call.n());
        let values: Vec<f32> = left.lists[0].iter().map(|&x| f32::from_bits(x)).collect();
        let finished = left.failed.map_or(2 * n, |(row, _)| row);
        let roots = (0..finished).map(|row| values[starts[row + 1] as usize - 1]);
        // The root of the smallest normal number is 2^-63.
        let mut roots = roots.map(|root| root < f32::from_bits((127 - 63) << 23));
        let factor = &values[..starts[2 * n] as usize];
        self.subnormal += usize::from(roots.any(|small| small));
        self.infinite += usize::from(factor.iter().any(|x| x.is_infinite()));
        self.nan += usize::from(factor.iter().any(|x| x.is_nan()));
        self.longer += usize::from(values.len() > factor.len());
    }

    fn report(&self) {
        let Self {
            refused,
            subnormal,
            infinite,
            nan,
            longer,
            ..
        } = self;
        let done: usize = self.done.iter().sum();
        let by_kind = counted(MATRICES.map(|(name, _)| name), &self.done);
        let failed = counted(PIVOTS, &self.failed);
        println!("  done: {done}, of matrices {by_kind}");
        println!("  failed by a pivot of {failed}; refused by 7: {refused}");
        println!("  with a subnormal pivot: {subnormal}; an infinity in the factor: {infinite}; a NaN: {nan}; values longer than the factor: {longer}");
        println!(
            "  plans {}",
            counted(PLANS.map(|(name, ..)| name), &self.plans)
        );
    }
}

fn compare_factorize(draw: &mut Draw) -> usize {
    let (mut judged, mut met) = (Judged::new("factorize"), Met::default());
    for (at, kind) in MATRICES.into_iter().enumerate() {
        for (turns, most) in FACTORED {
            for _ in 0..turns {
                let system = System::drawn(draw, most);
                met.plans[system.plan_kind] += 1;
                let call = factorize(draw, kind, system);
                met.count(at, &call, &beside_rust(&mut judged, &call));
            }
        }
        for entries in ENVELOPE..=ENVELOPE + PAST {
            let call = factorize(draw, kind, System::of_entries(entries));
            met.count(at, &call, &beside_rust(&mut judged, &call));
        }
    }
    let kinds = MATRICES.map(|(name, _)| name).join("; ");
    let each: usize = FACTORED.iter().map(|(turns, _)| turns).sum();
    let differences = judged.close(&format!(
        ", every list to its end: {each} each of matrices {kinds}; plans of {ENVELOPE} entries and the next {PAST} numbers"
    ));
    met.report();
    differences
}

fn compare_solve(draw: &mut Draw) -> usize {
    let mut judged = Judged::new("solve");
    let mut plans = [0; PLANS.len()];
    let (mut finite, mut refused) = (0, 0);
    for kind in FACTORS {
        for (turns, most) in SOLVED {
            for _ in 0..turns {
                let system = System::drawn(draw, most);
                plans[system.plan_kind] += 1;
                let call = solve(draw, kind, system);
                let left = beside_rust(&mut judged, &call);
                let mut x = left.lists[0][..2 * call.n()].iter();
                finite += usize::from(x.all(|&x| f32::from_bits(x).is_finite()));
                refused += usize::from(left.refused > 0);
            }
        }
        for entries in ENVELOPE..=ENVELOPE + PAST {
            let call = solve(draw, kind, System::of_entries(entries));
            refused += usize::from(beside_rust(&mut judged, &call).refused > 0);
        }
    }
    let kinds = FACTORS.map(|(name, _)| name).join("; ");
    let each: usize = SOLVED.iter().map(|(turns, _)| turns).sum();
    let differences = judged.close(&format!(
        ", every list to its end: {each} each by {kinds}; plans of {ENVELOPE} entries and the next {PAST} numbers"
    ));
    println!("  finite solutions: {finite}; refused by 7: {refused}");
    println!("  plans {}", counted(PLANS.map(|(name, ..)| name), &plans));
    differences
}

/// Calls of every kind, so many of each, over systems of at most so many particles.
fn drawn(draw: &mut Draw, [factored, solved]: [usize; 2], most: usize) -> Vec<Call> {
    let mut calls = Vec::new();
    for kind in MATRICES {
        for _ in 0..factored {
            let system = System::drawn(draw, most);
            calls.push(factorize(draw, kind, system));
        }
    }
    for kind in FACTORS {
        for _ in 0..solved {
            let system = System::drawn(draw, most);
            calls.push(solve(draw, kind, system));
        }
    }
    calls
}

/// Both calls, over plans of more than 16,384 entries.
fn past_limit(draw: &mut Draw) -> Vec<Call> {
    let mut calls = Vec::new();
    for entries in ENVELOPE + 1..=ENVELOPE + PAST {
        let system = System::of_entries(entries);
        calls.push(factorize(draw, MATRICES[0], system));
        let system = System::of_entries(entries);
        calls.push(solve(draw, FACTORS[0], system));
    }
    calls
}

fn compare_second(draw: &mut Draw) -> usize {
    let mut calls = drawn(draw, WHOLE, WHOLE_SIZE);
    calls.push(solve(draw, FACTORS[0], System::of_entries(ENVELOPE)));
    calls.extend(past_limit(draw));
    let whole = beside_second("factorize and solve, whole calls", calls);
    let mut calls = drawn(draw, DAMAGED, DAMAGED_SIZE);
    (0..DAMAGED_PAST).for_each(|_| calls.extend(past_limit(draw)));
    calls.iter_mut().for_each(|call| damage(draw, call));
    whole + beside_second("factorize and solve, damaged calls", calls)
}

/// Without what lists are longer by.
fn exact(mut call: Call) -> Call {
    let needs = call.needs();
    for (list, need) in call.lists.iter_mut().zip(needs) {
        list.truncate(need);
    }
    call
}

/// Ordinary numbers: springs, whose factor and solutions stay far above the smallest normal number. What
/// subnormal ones cost is told apart, for both sides.
pub fn times(draw: &mut Draw) {
    println!("times of factorize and solve: door/Rust inner/Rust (Rust's microseconds); of factorize without its roots inner/Rust");
    for (name, graph) in [
        ("chain 1024", graphs::chain(1024)),
        ("grid 32x10", graphs::grid(32, 10)),
        ("grid 8x5", graphs::grid(8, 5)),
        ("complete 90", graphs::complete(90)),
    ] {
        let system = System::new(draw, &graph, 0);
        let call = exact(factorize(draw, ("stiff", stiff), system.clone()));
        let factored = times_factorize(call);
        let [solved, subnormal] = SOLVES.map(|(factor, turn)| {
            let mut call = exact(solve(draw, factor, system.clone()));
            call.lists[5] = values::drawn(draw, turn, 2 * graph.n);
            assert_eq!(turn != 0, sinks(&call), "subnormals are timed apart");
            times_solve(call)
        });
        println!("{name}: factorize {factored}; solve {solved}; solve of subnormals {subnormal}");
    }
}

/// The factors, and which values make up b: ordinary ones by springs, and subnormals that stay so.
const SOLVES: [(Factor, usize); 2] = [(("stiff", stiff_factor), 0), (FACTORS[0], 5)];

/// A number of the factor, of b or of the solution is subnormal.
fn sinks(call: &Call) -> bool {
    let left = doors::left(call);
    let mut numbers = call.lists[4..6].iter().chain(&left.lists).flatten();
    numbers.any(|&bits| f32::from_bits(bits).is_subnormal())
}

/// The pivots whose roots a factor's diagonal holds, nearly.
fn pivots(values: &[u32], starts: &[u32]) -> Vec<f32> {
    let roots = starts[1..].iter().map(|&end| values[end as usize - 1]);
    roots.map(|root| f32::from_bits(root).powi(2)).collect()
}

/// In a factor each root waits for the one before, so here too.
fn one_after_the_other(pivots: &[f32], root: impl Fn(f32) -> f32) {
    let chain = |last, pivot| root(pivot + last * 0.0);
    black_box(pivots.iter().fold(0.0, chain));
}

fn times_factorize(mut call: Call) -> String {
    let pattern = [0, 1, 2].map(|at| call.lists[at].as_slice());
    let matrix = Blocks::from_lists(call.n(), pattern, &call.lists[3]);
    let mut direct = Direct::from_lists(call.n(), &call.lists[4..8], &[]);
    let rust = |_: &mut Call| assert!(direct.factorize(black_box(&matrix)));
    let door = |call: &mut Call| assert_eq!(doors::made(call).0, 0, "refused");
    let times = by_turns(&mut call, rust, door, inside::factorize);
    let pivots = pivots(&call.lists[8], &call.lists[7]);
    let proved_roots = micros(|| one_after_the_other(&pivots, |x| PROVED.root([x])[0]));
    let rust_roots = micros(|| one_after_the_other(&pivots, f32::sqrt));
    let [_, inner, rust] = times;
    let loops = (inner * rust - proved_roots) / (rust - rust_roots);
    format!("{}, without roots {loops:.2}", told(times))
}

fn times_solve(mut call: Call) -> String {
    let n = call.n();
    let mut direct = Direct::from_lists(n, &call.lists[..4], &call.lists[4]);
    let b = vectors(&call.lists[5], n);
    let mut x = b.clone();
    let rust = |_: &mut Call| direct.solve(black_box(&b), &mut x);
    let door = |call: &mut Call| assert_eq!(doors::made(call).0, 0, "refused");
    told(by_turns(&mut call, rust, door, inside::solve))
}
