//! The Rust's columns over lists: its own five calls, untouched, and what they leave. Its table and its columns are made of the
//! lists as they stand: it empties its columns when it clears, so a combination is always handed them. The answer's six counts are read
//! solve by solve, as a step solve's outcome is, and so is the tally, which the Rust doesn't have.

use crate::blocks::{block_bits, done, over, vector_bits, vectors, Blocks};
use crate::call::{Call, Left, Operation};
use crate::dynamics::SoftFemParameters;
use crate::gradient::agree;
use crate::math::{Matrix, Vector};
use crate::soft_fem::system::SoftFemSystem;
use crate::step::{counted, entries, past_limit, pinned, read, Step, NOTHING};

/// What the table has for a particle that isn't loaded.
pub const UNLOADED: u32 = u32::MAX;

/// The number of the answer 'not loaded'.
pub const NOT_LOADED: u32 = 7;

/// The most particles that are loaded.
pub const MOST: usize = 16;

/// The ways in which a solve ends: by the factor, and the outcomes.
pub const WAYS: usize = 6;

/// Calls without a line.
impl Step {
    /// With the call's marks, table and columns, as far as it has them. Clearing is told no count: any will do.
    pub fn of_table(call: &Call) -> Self {
        let n = call.n();
        let mut step = Self {
            system: SoftFemSystem {
                mass: vec![0.0; n],
                pinned: pinned(call),
                num_columns: n,
                ..SoftFemSystem::default()
            },
            settings: SoftFemParameters {
                max_dense_dofs: 0,
                linear_tolerance: 0.0,
                max_linear_iterations: 0,
            },
        };
        step.lay(call);
        step
    }

    /// The call's table, its count, and the columns of the loaded particles.
    pub fn lay(&mut self, call: &Call) {
        let (n, operation) = (call.n(), call.operation);
        if let Some(at) = operation.table_at() {
            self.system.column_of = call.lists[at][..n].to_vec();
            if let Some(columns) = call.lists.get(at + 1) {
                self.system.columns = vectors(columns, 2 * n * call.loaded());
            }
        }
        if operation.loaded_at().is_some() {
            self.system.num_columns = call.loaded();
        }
    }

    pub fn clear(&mut self) {
        self.system.clear_columns();
    }

    pub fn load(&mut self, particle: u32) {
        self.system.load_particle(particle);
    }

    pub fn compute(&mut self) {
        self.system.compute_columns(&self.settings);
    }

    pub fn combine(&self, entries: &[(u32, Vector)], out: &mut [Vector]) -> Option<f32> {
        let entries = entries.iter().copied();
        self.system.response_from_columns(entries, out)
    }

    pub fn block(&self, particle: u32, out: &mut [Vector]) -> Option<Matrix> {
        self.system.particle_block_from_columns(particle, out)
    }
}

/// Clearing and loading: the table, and how many are loaded then.
pub(crate) fn numbered(call: &Call) -> Left {
    let mut step = Step::of_table(call);
    match call.operation {
        Operation::ClearColumns => step.clear(),
        _ => step.load(call.numbers[2] as u32),
    }
    let (table, lent) = (step.system.column_of, &call.lists[call.lists.len() - 1]);
    let lists = vec![over(lent, &table, table.len())];
    done(Some(step.system.num_columns), lists)
}

/// The axis's unit vector at the particle, as a right-hand side.
fn along(n: usize, particle: usize, axis: usize) -> Vec<u32> {
    let mut rhs = vec![0; 2 * n];
    rhs[2 * particle + axis] = 1f32.to_bits();
    rhs
}

/// The columns over the front of their list, work lists zero in their needed part, the counts after each solve, and how many solves
/// ended in each way.
pub(crate) fn computed(call: &Call, matrix: Blocks) -> Left {
    if let Some(refused) = past_limit(call) {
        return refused;
    }
    let n = call.n();
    let mut step = Step::new(call, matrix);
    step.lay(call);
    step.compute();
    let columns = vector_bits(&step.system.columns);
    let [lent, work @ .., counts] = &call.lists[call.operation.first_changed()..] else {
        unreachable!("columns have lists to change")
    };
    let (mut ended, mut counts, mut misread) = (vec![0; WAYS], counts.clone(), false);
    for (particle, &column) in call.lists[11][..n].iter().enumerate() {
        if column == UNLOADED {
            continue;
        }
        for axis in [0, 1] {
            let read = read(call, along(n, particle, axis));
            let how = read.as_ref().map_or(0, |read| read.outcome as usize);
            ended[how] += 1;
            counts = counted(&counts, how);
            let start = 2 * n * (2 * column as usize + axis);
            let solved = &columns[start..start + 2 * n];
            misread |= read.is_some_and(|read| !agree(&read, solved));
        }
    }
    let needs = &call.needs()[call.operation.first_changed() + 1..];
    let mut lists = vec![over(lent, &columns, columns.len())];
    lists.extend(
        work.iter()
            .zip(needs)
            .map(|(lent, &need)| over(lent, &[], need)),
    );
    lists.extend([counts, ended]);
    Left {
        misread,
        ..done(None, lists)
    }
}

/// What a combination or a block leaves in out, its number, and its floats.
fn told(lent: &[u32], out: &[Vector], how: u32, floats: Vec<u32>) -> Left {
    let out = vector_bits(out);
    let lists = vec![over(lent, &out, out.len()), vec![how], floats];
    done(None, lists)
}

pub(crate) fn combined(call: &Call) -> Left {
    let (step, entries) = (Step::of_table(call), entries(call));
    let mut out = vectors(&call.lists[5], call.n());
    let gain = step.combine(&entries, &mut out);
    let mut particles = entries.iter().map(|&(particle, _)| particle as usize);
    let how = match gain {
        None => NOT_LOADED,
        Some(_) if particles.all(|particle| step.system.pinned[particle]) => NOTHING,
        Some(_) => 0,
    };
    let floats = gain.map(f32::to_bits).into_iter().collect();
    told(&call.lists[5], &out, how, floats)
}

pub(crate) fn block(call: &Call) -> Left {
    let step = Step::of_table(call);
    let mut out = vectors(&call.lists[3], 2 * call.n());
    let block = step.block(call.numbers[2] as u32, &mut out);
    let how = if block.is_some() { 0 } else { NOT_LOADED };
    let floats = block.iter().flat_map(block_bits).collect();
    told(&call.lists[3], &out, how, floats)
}
