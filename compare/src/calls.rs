//! Calls: the block matrix's accepted ones held against the Rust, damaged ones of all against the
//! second program.

use crate::damage::damage;
use crate::doors;
use crate::judge::Judged;
use crate::second;
use oracle::blocks;
use oracle::call::{Call, Items, Left, Operation, MATRIX};
use oracle::calls::accepted;
use oracle::draw::Draw;
use oracle::graphs;

/// How many turns graphs of at most so many particles take, for each operation.
pub const SIZES: [(usize, usize); 3] = [(3000, 10), (200, 100), (20, 1024)];

/// Damaged calls of each operation, over graphs of at most so many particles. Every tenth is left
/// whole, so that the second program and the Rust are held against each other too.
const DAMAGED: usize = 1500;
const DAMAGED_SIZE: usize = 6;
const WHOLE_EVERY: usize = 10;

pub fn compare(draw: &mut Draw) -> usize {
    let whole: usize = MATRIX.into_iter().map(|it| compare_whole(draw, it)).sum();
    whole + compare_damaged(draw)
}

/// Bit for bit, but any NaN for any NaN.
pub fn same(operation: Operation, a: &Left, b: &Left) -> bool {
    let nan = |bits: u32| f32::from_bits(bits).is_nan();
    let kinds = operation.answered();
    let same_lists = kinds.iter().enumerate().all(|(at, &kind)| {
        let (a, b) = (&a.lists[at], &b.lists[at]);
        let float = kind == Items::Float;
        let one = |(&x, &y): (&u32, &u32)| x == y || float && nan(x) && nan(y);
        a.len() == b.len() && a.iter().zip(b).all(one)
    });
    let same_failure = match (a.failed, b.failed) {
        (Some((row, x)), Some((other, y))) => row == other && (x == y || nan(x) && nan(y)),
        (a, b) => a == b,
    };
    a.refused == b.refused && a.number == b.number && same_failure && same_lists
}

/// Holds the proved call against the Rust's, and hands back what the Rust leaves. What only the oracle's
/// reading of the Rust's loop tells is taken for true only where that reading is the Rust's: asked last, so
/// that it is the proved answer that shows a wrong Rust.
pub fn beside_rust(judged: &mut Judged, call: &Call) -> Left {
    beside(judged, call, blocks::left(call))
}

/// The same, where what the Rust leaves is known.
pub fn beside(judged: &mut Judged, call: &Call, rust: Left) -> Left {
    let proved = doors::left(call);
    let alike = same(call.operation, &proved, &rust);
    judged.count(alike, || [call.line(), proved.line(call), rust.line(call)]);
    let misread = alike && rust.misread;
    assert!(!misread, "the reading isn't the Rust's: {}", call.line());
    rust
}

fn compare_whole(draw: &mut Draw, operation: Operation) -> usize {
    let mut judged = Judged::new(operation.word());
    for (turns, most) in SIZES {
        for turn in 0..turns {
            let graph = graphs::drawn(draw, turn, most);
            let call = accepted(draw, operation, &graph, turn);
            beside_rust(&mut judged, &call);
        }
    }
    judged.close(", accepted, every list to its end")
}

/// Calls of one operation, most of them damaged.
pub fn damaged_calls(draw: &mut Draw, operation: Operation) -> Vec<Call> {
    let calls = (0..DAMAGED).map(|turn| damaged(draw, operation, turn));
    calls.collect()
}

fn damaged(draw: &mut Draw, operation: Operation, turn: usize) -> Call {
    let graph = graphs::drawn(draw, turn, DAMAGED_SIZE);
    let mut call = accepted(draw, operation, &graph, turn);
    if turn % WHOLE_EVERY > 0 {
        damage(draw, &mut call);
    }
    call
}

fn compare_damaged(draw: &mut Draw) -> usize {
    let calls = MATRIX
        .into_iter()
        .flat_map(|operation| damaged_calls(draw, operation))
        .collect();
    beside_second("damaged calls", calls)
}

/// The calls' answers beside the second program's, with how many were refused by each number.
pub fn beside_second(word: &'static str, calls: Vec<Call>) -> usize {
    let answers = match second::answers(calls.iter().map(Call::line).collect()) {
        Ok(answers) => answers,
        // compare/run has said that python3 is missing; anything else is a fault.
        Err(problem) if problem.kind() == std::io::ErrorKind::NotFound => {
            println!("{word}: not compared, since the second program did not run ({problem})");
            return 0;
        }
        Err(problem) => panic!("the second program: {problem}"),
    };
    assert_eq!(
        answers.len(),
        calls.len(),
        "the second program left calls unanswered"
    );
    let mut judged = Judged::by(word, "second");
    let mut refused = [0; 9];
    for (call, answer) in calls.iter().zip(answers) {
        let left = doors::left(call);
        refused[usize::from(left.refused)] += 1;
        let line = left.line(call);
        judged.count(line == answer, || {
            [call.line(), line.clone(), answer.clone()]
        });
    }
    let numbers = refused.iter().enumerate().skip(1);
    let given = numbers.filter(|(_, &count)| count > 0);
    let given: Vec<String> = given.map(|(no, count)| format!("{no}: {count}")).collect();
    let given = match given.join(", ") {
        none if none.is_empty() => "none refused".to_string(),
        some => format!("refused by {some}"),
    };
    let done = refused[0];
    judged.close(&format!(" from the second program: {done} done; {given}"))
}
