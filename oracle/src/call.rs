//! A call as data: what it takes, what it may change, and what it leaves.

/// What a list holds. Either way it is kept as 32 bits to an item.
#[derive(Clone, Copy, PartialEq, Eq)]
pub enum Items {
    Whole,
    Float,
}

#[derive(Clone, Copy, PartialEq, Eq, Debug)]
pub enum Operation {
    FromPairs,
    PatternFromPairs,
    BlockIndex,
    DiagonalIndex,
    ClearValues,
    Mul,
    MakeDirichlet,
    MakeDirichletMarked,
    Plan,
    Factorize,
    Solve,
    UpdatePreconditioner,
    ConjugateGradient,
    FactorizeStepMatrix,
    SolveStep,
    ResponseInto,
    ClearColumns,
    LoadParticle,
    ComputeColumns,
    ResponseFromColumns,
    ParticleBlockFromColumns,
}

use Items::{Float, Whole};
use Operation::*;

/// The block matrix's, but for `MakeDirichletMarked`, which the Rust doesn't have.
pub const MATRIX: [Operation; 7] = [
    FromPairs,
    PatternFromPairs,
    BlockIndex,
    DiagonalIndex,
    ClearValues,
    Mul,
    MakeDirichlet,
];

/// The step's.
pub const STEP: [Operation; 3] = [FactorizeStepMatrix, SolveStep, ResponseInto];

/// The columns'.
pub const COLUMNS: [Operation; 5] = [
    ClearColumns,
    LoadParticle,
    ComputeColumns,
    ResponseFromColumns,
    ParticleBlockFromColumns,
];

impl Operation {
    pub fn all() -> impl Iterator<Item = Self> {
        let solvers = [
            MakeDirichletMarked,
            Plan,
            Factorize,
            Solve,
            UpdatePreconditioner,
            ConjugateGradient,
        ];
        let steps = STEP.into_iter().chain(COLUMNS);
        MATRIX.into_iter().chain(solvers).chain(steps)
    }

    pub fn word(self) -> &'static str {
        match self {
            FromPairs => "from_pairs",
            PatternFromPairs => "pattern_from_pairs",
            BlockIndex => "block_index",
            DiagonalIndex => "diagonal_index",
            ClearValues => "clear_values",
            Mul => "mul",
            MakeDirichlet => "make_dirichlet",
            MakeDirichletMarked => "make_dirichlet_marked",
            Plan => "plan",
            Factorize => "factorize",
            Solve => "solve",
            UpdatePreconditioner => "update_preconditioner",
            ConjugateGradient => "conjugate_gradient",
            FactorizeStepMatrix => "factorize_step_matrix",
            SolveStep => "solve_step",
            ResponseInto => "response_into",
            ClearColumns => "clear_columns",
            LoadParticle => "load_particle",
            ComputeColumns => "compute_columns",
            ResponseFromColumns => "response_from_columns",
            ParticleBlockFromColumns => "particle_block_from_columns",
        }
    }

    /// How many plain numbers it takes: n, then the pair count, or the row and its column, or the
    /// iteration limit and the tolerance's bits. A step call has `max_dense_dofs` behind these, the mark
    /// as 0 or 1 and, for a response, the number of entries; for columns, how many particles are loaded.
    /// The columns' other calls have n, that number, and a particle or the number of entries.
    pub fn numbers(self) -> usize {
        match self {
            ClearValues | Mul | MakeDirichletMarked | Plan | Factorize | Solve
            | UpdatePreconditioner | ClearColumns => 1,
            FromPairs | PatternFromPairs | DiagonalIndex | MakeDirichlet | FactorizeStepMatrix => 2,
            BlockIndex
            | ConjugateGradient
            | LoadParticle
            | ResponseFromColumns
            | ParticleBlockFromColumns => 3,
            SolveStep => 5,
            ResponseInto | ComputeColumns => 6,
        }
    }

    /// Which of its numbers is `max_dense_dofs`.
    pub fn dense_at(self) -> Option<usize> {
        match self {
            FactorizeStepMatrix => Some(1),
            SolveStep | ResponseInto | ComputeColumns => Some(3),
            _ => None,
        }
    }

    /// Which of its numbers says how many particles are loaded.
    pub fn loaded_at(self) -> Option<usize> {
        match self {
            ComputeColumns => Some(5),
            LoadParticle | ResponseFromColumns | ParticleBlockFromColumns => Some(1),
            _ => None,
        }
    }

    /// Which of its lists are the marks of pinned particles, if it reads them one by one.
    pub fn pinned_at(self) -> Option<usize> {
        match self {
            ResponseInto | ComputeColumns => Some(10),
            LoadParticle | ResponseFromColumns | ParticleBlockFromColumns => Some(0),
            _ => None,
        }
    }

    /// Which of its lists is the table of columns. The columns stand behind it.
    pub fn table_at(self) -> Option<usize> {
        match self {
            ClearColumns => Some(0),
            _ => self.loaded_at().and(self.pinned_at()).map(|at| at + 1),
        }
    }

    /// Where a constraint's entries are: the number, and the lists of particles and of gradients.
    pub fn entries_at(self) -> Option<[usize; 3]> {
        match self {
            ResponseInto => Some([5, 11, 12]),
            ResponseFromColumns => Some([2, 3, 4]),
            _ => None,
        }
    }

    /// Whether its last list is the tally's seven counts, lent without a length.
    pub fn counts(self) -> bool {
        matches!(self, SolveStep | ResponseInto | ComputeColumns)
    }

    /// Its lists, in the order of its parameters: the pairs if it builds, the pattern's three if it
    /// takes them, and what else it reads or writes.
    pub fn lists(self) -> &'static [Items] {
        match self {
            FromPairs => &[Whole, Whole, Whole, Whole, Float, Whole],
            PatternFromPairs => &[Whole; 5],
            BlockIndex | DiagonalIndex => &[Whole; 3],
            ClearValues | MakeDirichlet => &[Whole, Whole, Whole, Float],
            MakeDirichletMarked => &[Whole, Whole, Whole, Whole, Float],
            Mul => &[Whole, Whole, Whole, Float, Float, Float],
            // The plan's four, and five to work in.
            Plan => &[Whole; 12],
            // The pattern's three and its values, the plan's four, the factor.
            Factorize => &[
                Whole, Whole, Whole, Float, Whole, Whole, Whole, Whole, Float,
            ],
            // The plan's four, the factor, b, x and the scratch.
            Solve => &[Whole, Whole, Whole, Whole, Float, Float, Float, Float],
            UpdatePreconditioner => &[Whole, Whole, Whole, Float, Float],
            // Preconditioner, b and x, and four to work in.
            ConjugateGradient => &[
                Whole, Whole, Whole, Float, Float, Float, Float, Float, Float, Float, Float,
            ],
            // As to factorize, and the preconditioner.
            FactorizeStepMatrix => &[
                Whole, Whole, Whole, Float, Whole, Whole, Whole, Whole, Float, Float,
            ],
            // These, b and x, the scratch and four to work in, and the counts.
            SolveStep => &[
                Whole, Whole, Whole, Float, Whole, Whole, Whole, Whole, Float, Float, Float, Float,
                Float, Float, Float, Float, Float, Whole,
            ],
            // In place of b the pinned marks, the entries' particles and gradients; out, and the right-hand side behind it.
            ResponseInto => &[
                Whole, Whole, Whole, Float, Whole, Whole, Whole, Whole, Float, Float, Whole, Whole,
                Float, Float, Float, Float, Float, Float, Float, Float, Whole,
            ],
            ClearColumns => &[Whole],
            LoadParticle => &[Whole, Whole],
            // As a response up to the pinned marks, the table and the columns, the right-hand side, the scratch and four to work in, and the counts.
            ComputeColumns => &[
                Whole, Whole, Whole, Float, Whole, Whole, Whole, Whole, Float, Float, Whole, Whole,
                Float, Float, Float, Float, Float, Float, Float, Whole,
            ],
            // Pinned marks, the table, the columns, the entries' particles and gradients, and out.
            ResponseFromColumns => &[Whole, Whole, Float, Whole, Float, Float],
            ParticleBlockFromColumns => &[Whole, Whole, Float, Float],
        }
    }

    /// The first list that the call may change; it may change all after it.
    pub fn first_changed(self) -> usize {
        match self {
            FromPairs | PatternFromPairs => 1,
            BlockIndex | DiagonalIndex | ClearValues | MakeDirichlet | Plan => 3,
            Mul => 5,
            Solve => 6,
            Factorize | FactorizeStepMatrix => 8,
            MakeDirichletMarked | UpdatePreconditioner => 4,
            ConjugateGradient => 6,
            SolveStep => 11,
            ResponseInto => 13,
            ClearColumns => 0,
            LoadParticle => 1,
            ComputeColumns => 12,
            ResponseFromColumns => 5,
            ParticleBlockFromColumns => 3,
        }
    }

    /// What an answer's lists hold: those that the call may change. Behind a solve's stand its
    /// outcome's number and count, and the outcome's floats, a response's gain first; behind computed columns how
    /// many solves ended in each way; behind a combination or a block its number, and the gain or the
    /// block. None of these if it was refused.
    pub fn answered(self) -> Vec<Items> {
        let mut kinds = self.lists()[self.first_changed()..].to_vec();
        match self {
            ComputeColumns => kinds.push(Whole),
            ResponseFromColumns | ParticleBlockFromColumns => kinds.extend([Whole, Float]),
            _ if self.iterates() => kinds.extend([Whole, Float]),
            _ => {}
        }
        kinds
    }

    /// Whether it is handed an iteration limit and a tolerance.
    pub fn iterates(self) -> bool {
        self == ConjugateGradient || self.counts()
    }

    /// Which of its numbers is a float's bits.
    pub fn float_number(self) -> Option<usize> {
        self.iterates().then_some(2)
    }

    pub fn builds(self) -> bool {
        matches!(self, FromPairs | PatternFromPairs)
    }

    /// Whether its first three lists are a pattern's.
    pub fn takes_pattern(self) -> bool {
        let without = [
            Solve,
            ClearColumns,
            LoadParticle,
            ResponseFromColumns,
            ParticleBlockFromColumns,
        ];
        !self.builds() && !without.contains(&self)
    }

    /// Where the plan's four lists begin, if it is handed a plan.
    pub fn plan_at(self) -> Option<usize> {
        match self {
            Factorize | FactorizeStepMatrix | SolveStep | ResponseInto | ComputeColumns => Some(4),
            Solve => Some(0),
            _ => None,
        }
    }
}

/// How long building's lists must be, in the order of `from_pairs`: without its blocks they are
/// `pattern_from_pairs`'s.
pub fn building_needs(n: usize, count: usize) -> [usize; 6] {
    let room = n + 2 * count;
    let work = 2 * count;
    [2 * count, n + 1, room, n, 4 * room, work]
}

#[derive(Clone)]
pub struct Call {
    pub operation: Operation,
    pub numbers: Vec<usize>,
    pub lists: Vec<Vec<u32>>,
}

impl Call {
    pub fn n(&self) -> usize {
        self.numbers[0]
    }

    /// How long each list must be. A pattern's row offsets and a handed plan's row starts must be long
    /// enough to tell.
    pub fn needs(&self) -> Vec<usize> {
        let n = self.n();
        match self.operation {
            FromPairs => building_needs(n, self.numbers[1]).to_vec(),
            PatternFromPairs => {
                let [pairs, row_offsets, cols, diagonal, _, work] =
                    building_needs(n, self.numbers[1]);
                vec![pairs, row_offsets, cols, diagonal, work]
            }
            Plan => {
                let pattern = [n + 1, self.lists[0][n] as usize, n];
                let plan = [n, n, 2 * n, 2 * n + 1];
                [&pattern[..], &plan, &[n; 5]].concat()
            }
            Factorize => {
                let blocks = self.lists[0][n] as usize;
                let factor = self.lists[7][2 * n] as usize;
                vec![n + 1, blocks, n, 4 * blocks, n, n, 2 * n, 2 * n + 1, factor]
            }
            Solve => {
                let (m, factor) = (2 * n, self.lists[3][2 * n] as usize);
                vec![n, n, m, m + 1, factor, m, m, m]
            }
            FactorizeStepMatrix | SolveStep | ResponseInto | ComputeColumns => self.step_needs(),
            ClearColumns => vec![n],
            LoadParticle => vec![n, n],
            ResponseFromColumns => {
                let entries = self.numbers[2];
                vec![n, n, self.columns_need(), entries, 2 * entries, 2 * n]
            }
            ParticleBlockFromColumns => vec![n, n, self.columns_need(), 4 * n],
            MakeDirichletMarked => {
                let blocks = self.lists[0][n] as usize;
                vec![n + 1, blocks, n, n, 4 * blocks]
            }
            UpdatePreconditioner | ConjugateGradient => {
                let blocks = self.lists[0][n] as usize;
                let mut needs = vec![n + 1, blocks, n, 4 * blocks, 4 * n];
                needs.resize(self.operation.lists().len(), 2 * n);
                needs
            }
            _ => {
                let blocks = self.lists[0][n] as usize;
                let all = [n + 1, blocks, n, 4 * blocks, 2 * n, 2 * n];
                all[..self.operation.lists().len()].to_vec()
            }
        }
    }

    /// Whether the plan and the factor count.
    pub fn dense(&self) -> bool {
        let at = self.operation.dense_at();
        at.is_some_and(|at| 2 * self.n() <= self.numbers[at])
    }

    /// How many particles are loaded, where that is handed in.
    pub fn loaded(&self) -> usize {
        let at = self.operation.loaded_at();
        at.map_or(0, |at| self.numbers[at])
    }

    /// Two vectors to a particle for each loaded one.
    fn columns_need(&self) -> usize {
        (4 * self.n()).saturating_mul(self.loaded())
    }

    fn step_needs(&self) -> Vec<usize> {
        let n = self.n();
        let blocks = self.lists[0][n] as usize;
        let mut needs = vec![n + 1, blocks, n, 4 * blocks];
        match self.dense() {
            true => needs.extend([n, n, 2 * n, 2 * n + 1, self.lists[7][2 * n] as usize]),
            false => needs.extend([0; 5]),
        }
        needs.push(4 * n);
        if self.operation == FactorizeStepMatrix {
            return needs;
        }
        if self.operation == ResponseInto {
            let entries = self.numbers[5];
            needs.extend([n, entries, 2 * entries]);
        }
        let mut scratch = needs.len() + 2;
        if self.operation == ComputeColumns {
            needs.extend([n, n, self.columns_need()]);
            scratch = needs.len() + 1;
        }
        needs.resize(self.operation.lists().len() - 1, 2 * n);
        if !self.dense() {
            needs[scratch] = 0;
        }
        needs.push(7);
        needs
    }
}

/// What a call answers, and what it leaves in the lists that it may change.
#[derive(Clone, Default, PartialEq)]
pub struct Left {
    /// 0 if the call was accepted.
    pub refused: u8,
    /// The row whose pivot failed, and the pivot's bits.
    pub failed: Option<(usize, u32)>,
    pub number: Option<usize>,
    pub lists: Vec<Vec<u32>>,
    /// The oracle's own reading of the Rust's loop came to something else than the Rust: what only that
    /// reading tells is worth nothing then.
    pub misread: bool,
}
