//! Column calls that the rules accept, or refuse by 7: tables, combinations and blocks of columns; and sequences of the five calls over
//! one body, some of which the rules refuse.

use crate::blocks;
use crate::call::{Call, Left, Operation};
use crate::calls::lengthen;
use crate::columns::{MOST, UNLOADED};
use crate::draw::Draw;
use crate::graphs::shuffle;
use crate::plan::ENVELOPE;
use crate::solves::bits;
use crate::step::{counted, REFUSED};
use crate::steps::{self, marks_as_bytes, near_cap, pinned, ENTRIES};
use crate::systems::System;
use crate::values;

fn below(draw: &mut Draw, limit: usize) -> usize {
    draw.below(limit as u32) as usize
}

/// One of them, if there is one.
fn one(draw: &mut Draw, some: &[usize]) -> Option<usize> {
    (!some.is_empty()).then(|| some[below(draw, some.len())])
}

/// The table of these particles' columns, numbered in this order, and how many they are.
fn table(n: usize, loaded: &[usize]) -> (Vec<u32>, usize) {
    let mut table = vec![UNLOADED; n];
    for (column, &particle) in loaded.iter().enumerate() {
        table[particle] = column as u32;
    }
    (table, loaded.len())
}

/// None, some, or as many as can be of the unpinned particles are loaded, in any order.
pub(crate) fn drawn(draw: &mut Draw, pinned: &[u32]) -> (Vec<u32>, usize) {
    let free = places(pinned, |mark| mark == 0);
    let most = free.len().min(MOST);
    let count = match draw.below(4) {
        0 => most,
        _ => below(draw, most + 1),
    };
    let order = shuffle(draw, free.len()).into_iter().take(count);
    let loaded: Vec<usize> = order.map(|at| free[at]).collect();
    table(pinned.len(), &loaded)
}

/// Four particles far from one another, loaded from the last to the first.
pub fn screws(n: usize) -> (Vec<u32>, usize) {
    table(n, &[7, 5, 3, 1].map(|eighth| eighth * n / 8))
}

/// Where a list has such items.
fn places(list: &[u32], such: impl Fn(u32) -> bool) -> Vec<usize> {
    (0..list.len()).filter(|&at| such(list[at])).collect()
}

fn zero(draw: &mut Draw) -> f32 {
    [0.0, -0.0][below(draw, 2)]
}

/// The weights of an entry: ordinary ones mostly, now and then a zero of either sign or, if it may be, anything.
fn weights(draw: &mut Draw, wild: bool) -> [f32; 2] {
    [(); 2].map(|()| match draw.below(8) {
        0 | 1 => zero(draw),
        2 if wild => draw.any(),
        3 if wild => [f32::NAN, f32::INFINITY, f32::NEG_INFINITY][below(draw, 3)],
        _ => draw.middling(),
    })
}

/// Up to 16 entries, most of them at loaded particles; some constraints have pinned ones alone. One that isn't loaded has weights of zero
/// mostly, so that it does no harm.
fn constraint(draw: &mut Draw, pinned: &[u32], table: &[u32]) -> (Vec<u32>, Vec<f32>) {
    let n = pinned.len();
    let (set, loaded) = (
        places(pinned, |mark| mark != 0),
        places(table, |column| column != UNLOADED),
    );
    let count = below(draw, if n == 0 { 1 } else { ENTRIES + 1 });
    let (kind, wild) = (draw.below(8), draw.below(3) == 0);
    let (mut particles, mut gradients) = (Vec::new(), Vec::new());
    for _ in 0..count {
        let wanted = match (kind, draw.below(10)) {
            (0, _) | (_, 0) => one(draw, &set),
            (1, _) | (_, 1) => None,
            // So few that they are repeated.
            (2, _) => one(draw, &loaded[..loaded.len().min(2)]),
            _ => one(draw, &loaded),
        };
        let particle = wanted.unwrap_or_else(|| below(draw, n));
        let harmless = table[particle] == UNLOADED && draw.below(8) > 0;
        particles.push(particle as u32);
        gradients.extend(match harmless {
            true => [(); 2].map(|()| zero(draw)),
            false => weights(draw, wild),
        });
    }
    (particles, gradients)
}

/// Loaded mostly, or any.
fn particle(draw: &mut Draw, table: &[u32]) -> usize {
    let loaded = places(table, |column| column != UNLOADED);
    let wanted = match draw.below(4) {
        0 => None,
        _ => one(draw, &loaded),
    };
    wanted.unwrap_or_else(|| below(draw, table.len()))
}

/// To make this call over the system, with values of this turn's kind where they mean nothing. Where a particle is asked for there is one.
pub fn call(draw: &mut Draw, operation: Operation, turn: usize, system: System) -> Call {
    if operation == Operation::ComputeColumns {
        return steps::drawn(draw, operation, turn, system);
    }
    let n = match operation {
        Operation::LoadParticle | Operation::ParticleBlockFromColumns => system.n.max(1),
        _ => system.n,
    };
    let pinned = pinned(draw, n);
    let (table, loaded) = match operation {
        // What clearing doesn't look at.
        Operation::ClearColumns => ((0..n).map(|_| draw.word() as u32).collect(), 0),
        _ => drawn(draw, &pinned),
    };
    let body = Held {
        n,
        loaded,
        pinned,
        table,
        columns: Vec::new(),
    };
    let mut call = match operation {
        Operation::ClearColumns => body.clear(),
        Operation::LoadParticle => load(draw, body),
        Operation::ResponseFromColumns => body.combine(draw),
        _ => {
            let particle = particle(draw, &body.table);
            body.block(particle)
        }
    };
    finish(draw, &mut call, turn);
    call
}

/// Of a new particle mostly; of a loaded one where one more would be refused.
fn load(draw: &mut Draw, body: Held) -> Call {
    let (n, loaded) = (body.n, places(&body.table, |column| column != UNLOADED));
    let new = new(draw, &body.pinned, &body.table, n);
    let mut call = body.load(new.unwrap_or(below(draw, n)));
    if refused(&call) > 0 {
        call.numbers[2] = loaded[0];
    }
    call
}

/// An unpinned particle that isn't loaded, mostly.
fn new(draw: &mut Draw, pinned: &[u32], table: &[u32], n: usize) -> Option<usize> {
    let new: Vec<usize> = (0..n)
        .filter(|&at| pinned[at] == 0 && table[at] == UNLOADED)
        .collect();
    match draw.below(5) {
        0 => None,
        _ => one(draw, &new),
    }
}

/// Every list as long as it must be or longer.
fn finish(draw: &mut Draw, call: &mut Call, turn: usize) {
    lengthen(draw, call, turn);
    marks_as_bytes(call);
}

/// What the calls without a matrix are handed.
struct Held {
    n: usize,
    loaded: usize,
    pinned: Vec<u32>,
    table: Vec<u32>,
    columns: Vec<u32>,
}

impl Held {
    fn clear(self) -> Call {
        Call {
            operation: Operation::ClearColumns,
            numbers: vec![self.n],
            lists: vec![self.table],
        }
    }

    fn load(self, particle: usize) -> Call {
        Call {
            operation: Operation::LoadParticle,
            numbers: vec![self.n, self.loaded, particle],
            lists: vec![self.pinned, self.table],
        }
    }

    fn combine(self, draw: &mut Draw) -> Call {
        let n = self.n;
        let (particles, gradients) = constraint(draw, &self.pinned[..n], &self.table[..n]);
        Call {
            operation: Operation::ResponseFromColumns,
            numbers: vec![n, self.loaded, particles.len()],
            lists: vec![
                self.pinned,
                self.table,
                self.columns,
                particles,
                bits(&gradients),
                Vec::new(),
            ],
        }
    }

    fn block(self, particle: usize) -> Call {
        Call {
            operation: Operation::ParticleBlockFromColumns,
            numbers: vec![self.n, self.loaded, particle],
            lists: vec![self.pinned, self.table, self.columns, Vec::new()],
        }
    }
}

/// By what the calls of a sequence are refused, 0 if by nothing: the lists that they share hold what they must, so that only a
/// seventeenth particle (2), too little room for the columns (3), a particle at n or above (4), a table that doesn't number
/// (6) and a plan past the limit (7) are left.
pub fn refused(call: &Call) -> u8 {
    let (n, loaded, operation) = (call.n(), call.loaded(), call.operation);
    if operation == Operation::ClearColumns {
        return 0;
    }
    let (pinned, table) = match (operation.pinned_at(), operation.table_at()) {
        (Some(pinned), Some(table)) => (&call.lists[pinned][..n], &call.lists[table][..n]),
        _ => unreachable!("marks and a table"),
    };
    let asked = match operation {
        Operation::ComputeColumns | Operation::ResponseFromColumns => None,
        _ => Some(call.numbers[2]),
    };
    let new =
        |particle: usize| particle < n && pinned[particle] == 0 && table[particle] == UNLOADED;
    if operation == Operation::LoadParticle && loaded >= MOST && asked.is_some_and(new) {
        return 2;
    }
    let lists = call.lists.iter().zip(call.needs());
    if lists.into_iter().any(|(list, need)| list.len() < need) {
        return 3;
    }
    if asked.is_some_and(|particle| particle >= n) {
        return 4;
    }
    let mut numbers: Vec<u32> = table.iter().copied().filter(|&it| it != UNLOADED).collect();
    numbers.sort_unstable();
    let pinned_one = (0..n).any(|at| pinned[at] != 0 && table[at] != UNLOADED);
    if loaded > MOST || pinned_one || !numbers.into_iter().eq(0..loaded as u32) {
        return 6;
    }
    match operation.plan_at().filter(|_| call.dense()) {
        Some(at) if call.lists[at + 3][2 * n] as usize > ENVELOPE => 7,
        _ => 0,
    }
}

/// What the Rust leaves, or what a refusal leaves: all lists, and one refused call more if it is counted.
pub fn left(call: &Call) -> Left {
    let number = refused(call);
    if number == 0 {
        return blocks::left(call);
    }
    let operation = call.operation;
    let mut lists = call.lists[operation.first_changed()..].to_vec();
    if operation.counts() {
        let counts = lists.pop().expect("the counts are a list");
        lists.push(counted(&counts, REFUSED));
    }
    lists.resize(operation.answered().len(), Vec::new());
    Left {
        refused: number,
        lists,
        ..Left::default()
    }
}

/// A body as its caller holds it between two calls: all that its columns are computed from and stand in, as the call that computes them.
struct Body {
    call: Call,
    turn: usize,
}

/// What a caller does next: a call, or a change of what the calls are handed.
#[derive(Clone, Copy)]
enum Act {
    Clear,
    Load,
    Compute,
    Combine,
    Block,
    Pin,
    Unpin,
    Columns,
    Counts,
}

use Act::*;

/// Places of its call.
const LOADED: usize = 5;
const PINNED: usize = 10;
const TABLE: usize = 11;
const COLUMNS: usize = 12;

impl Body {
    fn new(draw: &mut Draw, turn: usize, system: System) -> Self {
        let mut call = steps::drawn(draw, Operation::ComputeColumns, turn, system);
        // Room for all that can be loaded, or now and then for fewer.
        let most = call.n().min(MOST);
        let room = match draw.below(8) {
            0 => most / 2,
            _ => most,
        };
        let missing = (4 * call.n() * room).saturating_sub(call.lists[COLUMNS].len());
        call.lists[COLUMNS].extend(values::drawn(draw, turn, missing));
        let mut body = Self { call, turn };
        body.change_counts(draw);
        body
    }

    fn held(&self) -> Held {
        Held {
            n: self.call.n(),
            loaded: self.call.numbers[LOADED],
            pinned: self.call.lists[PINNED].clone(),
            table: self.call.lists[TABLE].clone(),
            columns: self.call.lists[COLUMNS].clone(),
        }
    }

    fn pinned(&self) -> &[u32] {
        &self.call.lists[PINNED][..self.call.n()]
    }

    fn table(&self) -> &[u32] {
        &self.call.lists[TABLE][..self.call.n()]
    }

    /// The call that is made, if the act is one.
    fn act(&mut self, draw: &mut Draw, act: Act) -> Option<Call> {
        let n = self.call.n();
        let mut call = match act {
            Clear => self.held().clear(),
            Load => {
                let new = new(draw, self.pinned(), self.table(), n);
                let past = n == 0 || draw.below(32) == 0;
                let any = if past { n } else { below(draw, n) };
                self.held().load(new.unwrap_or(any))
            }
            Compute => return Some(self.call.clone()),
            Combine => self.held().combine(draw),
            Block => {
                let particle = match draw.below(16) {
                    0 => n,
                    _ if n > 0 => particle(draw, self.table()),
                    _ => 0,
                };
                self.held().block(particle)
            }
            Pin | Unpin => {
                self.mark(draw, matches!(act, Pin));
                return None;
            }
            Columns => {
                let kind = below(draw, 8);
                let length = self.call.lists[COLUMNS].len();
                self.call.lists[COLUMNS] = values::drawn(draw, kind, length);
                return None;
            }
            Counts => {
                self.change_counts(draw);
                return None;
            }
        };
        // The columns are lent as they are.
        let columns = call.lists.get(2).cloned();
        finish(draw, &mut call, self.turn);
        if let Some(columns) = columns {
            call.lists[2] = columns;
        }
        Some(call)
    }

    /// A particle is pinned, a loaded one mostly; or no loaded one is pinned any more.
    fn mark(&mut self, draw: &mut Draw, set: bool) {
        if !set {
            for at in places(self.table(), |column| column != UNLOADED) {
                self.call.lists[PINNED][at] = 0;
            }
        } else if self.call.n() > 0 {
            let particle = particle(draw, self.table());
            self.call.lists[PINNED][particle] = 1 + draw.below(255);
        }
    }

    /// A record that is fresh, or anything, or such that the cap may fall between two solves.
    fn change_counts(&mut self, draw: &mut Draw) {
        let counts = match draw.below(6) {
            0 => vec![0; 7],
            1 => (0..7).map(|_| draw.word() as u32).collect(),
            _ => {
                let mut counts = near_cap(draw);
                let largest = counts.iter_mut().max().expect("seven counts");
                *largest -= draw.below(24);
                counts
            }
        };
        let last = self.call.lists.len() - 1;
        self.call.lists[last] = counts;
    }

    /// The lists and the count as the call left them.
    fn take(&mut self, call: &Call, left: &Left) {
        match call.operation {
            Operation::ClearColumns | Operation::LoadParticle => {
                self.call.lists[TABLE].clone_from(&left.lists[0]);
                self.call.numbers[LOADED] = left.number.unwrap_or(self.call.numbers[LOADED]);
            }
            Operation::ComputeColumns => {
                let last = self.call.lists.len();
                self.call.lists[COLUMNS..].clone_from_slice(&left.lists[..last - COLUMNS]);
            }
            _ => {}
        }
    }
}

/// So many particles loaded one after the other, computed, and used.
fn round(draw: &mut Draw, loads: usize) -> Vec<Act> {
    let mut acts = vec![Load; loads];
    acts.push(Compute);
    acts.extend((0..1 + draw.below(4)).map(|_| [Combine, Combine, Block][below(draw, 3)]));
    acts
}

/// Acts of this turn's kind.
fn acts(draw: &mut Draw, turn: usize, n: usize) -> Vec<Act> {
    let any = |draw: &mut Draw| {
        let some = [
            Load, Load, Compute, Combine, Combine, Block, Clear, Pin, Unpin, Columns, Counts,
        ];
        some[below(draw, some.len())]
    };
    let few = |draw: &mut Draw| below(draw, 6);
    let mut acts = Vec::new();
    match turn % 4 {
        // With a table that another has made.
        0 => acts.extend([Compute, Combine, Block]),
        // Loaded anew and not computed.
        1 => {
            acts.push(Clear);
            let loads = few(draw);
            acts.extend(round(draw, loads));
            acts.push(Clear);
            acts.extend(vec![Load; few(draw)]);
            acts.extend([Combine, Block, Combine]);
        }
        // As many as can be, and more.
        2 => {
            acts.push(Clear);
            acts.extend(round(draw, n.min(MOST) + 4));
            acts.extend([Load, Compute]);
        }
        // Pinned after loading, and free again.
        _ => {
            acts.push(Clear);
            let loads = 1 + few(draw);
            acts.extend(round(draw, loads));
            acts.extend([
                Pin, Load, Compute, Combine, Block, Unpin, Columns, Combine, Block, Counts, Compute,
            ]);
        }
    }
    acts.extend((0..few(draw)).map(|_| any(draw)));
    acts
}

/// A sequence of calls over one body. `made` makes each, and hands back what it left.
pub fn sequence(draw: &mut Draw, turn: usize, system: System, mut made: impl FnMut(&Call) -> Left) {
    let mut body = Body::new(draw, turn, system);
    let acts = acts(draw, turn, body.call.n());
    for act in acts {
        if let Some(call) = body.act(draw, act) {
            let left = made(&call);
            body.take(&call, &left);
        }
    }
}
