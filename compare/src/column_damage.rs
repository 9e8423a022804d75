//! Column calls beside the second program: whole ones, damaged ones, and ones at the limits.

use crate::calls::beside_second;
use crate::damage::damage;
use crate::doors;
use crate::gradients::damage_settings;
use crate::steps::damage_route;
use oracle::call::{Call, Operation, COLUMNS};
use oracle::columns::UNLOADED;
use oracle::draw::Draw;
use oracle::plan::ENVELOPE;
use oracle::systems::System;
use oracle::tables;

/// So many whole ones and so many damaged ones of each call, of at most so many particles.
const WHOLE: (usize, usize) = (150, 5);
const DAMAGED: (usize, usize) = (1500, 5);

/// Plans past the limit by so many entries.
const PAST: usize = 2;

/// A call, and the numbers that may refuse it.
#[derive(Clone, Copy)]
struct Numbered(Operation, &'static [u8]);

const NUMBERED: [Numbered; 5] = [
    Numbered(Operation::ClearColumns, &[1, 3]),
    Numbered(Operation::LoadParticle, &[1, 2, 3, 4, 6]),
    Numbered(Operation::ComputeColumns, &[1, 3, 5, 6, 7, 8]),
    Numbered(Operation::ResponseFromColumns, &[1, 2, 3, 4, 6]),
    Numbered(Operation::ParticleBlockFromColumns, &[1, 3, 4, 6]),
];

impl Numbered {
    /// How many of the calls each number refuses. Every one must be met, and no other.
    fn met(self, calls: &[Call]) -> String {
        let Self(operation, numbers) = self;
        let mut refused = [0; 9];
        let asked = calls.iter().filter(|call| call.operation == operation);
        asked.for_each(|call| refused[usize::from(doors::left(call).refused)] += 1);
        let given = |no: &u8| format!("{no}: {}", refused[usize::from(*no)]);
        let given: Vec<String> = numbers.iter().map(given).collect();
        let done = refused[0];
        let line = format!(
            "{} done: {done}, refused by {}",
            operation.word(),
            given.join(", ")
        );
        let as_ruled = |no: usize| (refused[no] > 0) == numbers.contains(&(no as u8));
        assert!((1..9).all(as_ruled), "not every number, or another: {line}");
        line
    }
}

/// The table's items, its count and what is asked for, at every edge of the rules.
fn damage_table(draw: &mut Draw, call: &mut Call) {
    let (n, operation) = (call.n(), call.operation);
    let (Some(pinned), Some(table), Some(loaded)) = (
        operation.pinned_at(),
        operation.table_at(),
        operation.loaded_at(),
    ) else {
        return;
    };
    let count = call.numbers[loaded];
    let places = n.min(call.lists[table].len()).min(call.lists[pinned].len());
    let place = |draw: &mut Draw| (places > 0).then(|| draw.below(places as u32) as usize);
    match draw.below(4) {
        0 => {
            let counts = [
                count + 1,
                count.saturating_sub(1),
                16,
                17,
                1 << 62,
                usize::MAX,
            ];
            call.numbers[loaded] = counts[draw.below(6) as usize];
        }
        1 => {
            if let Some(at) = place(draw) {
                let numbers = [count as u32, 0, u32::MAX - 1, UNLOADED];
                call.lists[table][at] = numbers[draw.below(4) as usize];
            }
        }
        2 => {
            let mut loaded = (0..places).filter(|&at| call.lists[table][at] != UNLOADED);
            if let Some(at) = loaded.next() {
                call.lists[pinned][at] = 1 + draw.below(255);
            }
        }
        _ => {
            if let (Some(one), Some(other)) = (place(draw), place(draw)) {
                call.lists[table][one] = call.lists[table][other];
            }
        }
    }
}

/// A particle, or an entry's, or the number of entries, at a limit, past it, or far past it.
fn damage_asked(draw: &mut Draw, call: &mut Call) {
    let n = call.n();
    let past = [n, n.saturating_add(1), u32::MAX as usize, usize::MAX];
    let past = past[draw.below(4) as usize];
    match (call.operation, call.operation.entries_at()) {
        (_, Some([count, particles, _])) if draw.below(2) == 0 => {
            let given = call.numbers[count].min(call.lists[particles].len());
            if let Some(last) = given.checked_sub(1) {
                call.lists[particles][last] = past.min(u32::MAX as usize) as u32;
            }
        }
        (_, Some([count, ..])) => {
            let some = [call.numbers[count] + 1, 16, 17, usize::MAX];
            call.numbers[count] = some[draw.below(4) as usize];
        }
        (Operation::LoadParticle | Operation::ParticleBlockFromColumns, _) => {
            call.numbers[2] = past;
        }
        _ => {}
    }
}

fn damaged(draw: &mut Draw, mut call: Call) -> Call {
    if draw.below(2) == 0 {
        damage(draw, &mut call);
    }
    if draw.below(2) == 0 {
        damage_table(draw, &mut call);
    }
    if draw.below(3) == 0 {
        damage_asked(draw, &mut call);
    }
    if call.operation == Operation::ComputeColumns {
        if draw.below(6) == 0 {
            damage_route(draw, &mut call);
        }
        if draw.below(4) == 0 {
            damage_settings(draw, &mut call);
        }
    }
    call
}

fn floats(length: usize) -> Vec<u32> {
    vec![0.5f32.to_bits(); length]
}

/// With 15, 16 and 17 loaded of 20: particles that are new, loaded, pinned and past the last, over lists that show them and lists that don't.
fn loads() -> Vec<Call> {
    let mut calls = Vec::new();
    for count in [15, 16, 17, 1 << 62, usize::MAX] {
        let numbered = count.min(17);
        let table: Vec<u32> = (0..22)
            .map(|at| if at < numbered { at as u32 } else { UNLOADED })
            .collect();
        let mut pinned = vec![0; 22];
        pinned[19] = 1;
        for particle in [0, 15, 16, 17, 19, 20, 21, usize::MAX] {
            for [marks, places] in [[22, 22], [20, 20], [20, 17], [20, 16], [17, 20], [16, 20]] {
                calls.push(Call {
                    operation: Operation::LoadParticle,
                    numbers: vec![20, count, particle],
                    lists: vec![pinned[..marks].to_vec(), table[..places].to_vec()],
                });
            }
        }
    }
    calls
}

/// The room for the columns, at each count: just so much, one place less, none; counts that no word holds four times n of.
fn rooms() -> Vec<Call> {
    let mut calls = Vec::new();
    let counts = [
        0,
        1,
        2,
        15,
        16,
        17,
        1 << 32,
        1 << 54,
        1 << 60,
        1 << 61,
        1 << 62,
        1 << 63,
        usize::MAX,
    ];
    for n in [0, 1, 2, 4, 16, 17, 20, 1024] {
        for count in counts {
            let need = 4 * n as u128 * count as u128;
            let held = need.min(1600) as usize;
            for room in [held, held.saturating_sub(1), 0, 4 * n * count.min(16)] {
                let table = (0..n).map(|at| {
                    if at < count.min(16) {
                        at as u32
                    } else {
                        UNLOADED
                    }
                });
                let (pinned, table) = (vec![0; n], table.collect::<Vec<u32>>());
                let room = floats(room.min(1600));
                calls.push(Call {
                    operation: Operation::ResponseFromColumns,
                    numbers: vec![n, count, 1],
                    lists: vec![
                        pinned.clone(),
                        table.clone(),
                        room.clone(),
                        vec![0],
                        floats(2),
                        floats(2 * n),
                    ],
                });
                calls.push(Call {
                    operation: Operation::ResponseFromColumns,
                    numbers: vec![n, count, 0],
                    lists: vec![
                        pinned.clone(),
                        table.clone(),
                        room.clone(),
                        vec![],
                        vec![],
                        floats(2 * n),
                    ],
                });
                calls.push(Call {
                    operation: Operation::ParticleBlockFromColumns,
                    numbers: vec![n, count, 0],
                    lists: vec![pinned, table, room, floats(4 * n)],
                });
            }
        }
    }
    calls
}

/// The same counts where columns are computed, and plans past the limit.
fn computed_at_limits(draw: &mut Draw) -> Vec<Call> {
    let mut calls = Vec::new();
    let operation = Operation::ComputeColumns;
    for turn in 0..60 {
        let system = System::drawn(draw, 3);
        let mut call = tables::call(draw, operation, turn, system);
        call.numbers[5] = [16, 17, 1 << 60, 1 << 61, 1 << 62, usize::MAX][turn % 6];
        let room = 4 * call.n() * [16, 17][turn / 6 % 2];
        call.lists[12] = floats(room);
        calls.push(call);
    }
    for entries in ENVELOPE + 1..=ENVELOPE + PAST {
        let system = System::of_entries(entries);
        let mut drawn = (0..).map(|turn| tables::call(draw, operation, turn, system.clone()));
        calls.extend(drawn.find(Call::dense));
    }
    calls
}

pub fn compare(draw: &mut Draw) -> usize {
    let mut calls = |(turns, most): (usize, usize), change: fn(&mut Draw, Call) -> Call| {
        let mut calls = Vec::new();
        for operation in COLUMNS {
            for turn in 0..turns {
                let system = System::drawn(draw, most);
                let call = tables::call(draw, operation, turn, system);
                calls.push(change(draw, call));
            }
        }
        calls
    };
    let whole = calls(WHOLE, |_, call| call);
    let mut others = calls(DAMAGED, damaged);
    others.extend(computed_at_limits(draw));
    others.extend(loads());
    others.extend(rooms());
    let refused = NUMBERED.map(|numbered| numbered.met(&others));
    let differences = beside_second("columns, whole calls", whole)
        + beside_second("columns, damaged calls and calls at the limits", others);
    refused.iter().for_each(|line| println!("  {line}"));
    differences
}
