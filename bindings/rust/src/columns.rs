//! The columns of a step: the two axis responses of each loaded particle, solved once and combined for its constraints.

use crate::error::{exact, BOTH_COLUMNS};
use crate::refusal::accepted;
use crate::{
    sys, Combined, Computed, Error, Marked, ParticleBlock, SoftFemParameters, Step, Tally, Vector,
};

/// What a table of columns has for a particle that isn't loaded.
pub(crate) const UNLOADED: u32 = u32::MAX;

/// What a combination and a block have in `how` where a particle isn't loaded.
const NOT_LOADED: u32 = 7;

/// Columns, in the order of their calls. They are of the step's matrix at the time of [`Self::compute_columns`]: clearing, loading another
/// particle or factoring a matrix ends them, and what would be combined from them is [`Error::NotComputed`] then. The Rust goes on
/// with those of a matrix before, and panics where there are none.
impl Step {
    /// How many particles are loaded.
    #[must_use]
    pub fn num_columns(&self) -> usize {
        self.num_columns
    }

    /// How the solves of the columns ended; none while there are none of the step's matrix and all loaded particles.
    #[must_use]
    pub fn computed(&self) -> Option<Computed> {
        self.computed
    }

    /// Forgets the columns and which particles are loaded, as a new step has none.
    pub fn clear_columns(&mut self) -> Result<(), Error> {
        accepted(sys::bracket_clear_columns(
            self.num_particles(),
            &mut self.column_of,
            &mut self.num_columns,
        ))?;
        self.columns.clear();
        self.computed = None;
        Ok(())
    }

    /// Loads a particle, for [`Self::compute_columns`] to solve its columns. Loading a pinned one, or one twice, changes nothing.
    pub fn load_particle(&mut self, particle: u32) -> Result<(), Error> {
        let before = self.num_columns;
        accepted(sys::bracket_load_particle(
            self.num_particles(),
            &self.pinned,
            before,
            particle as usize,
            &mut self.column_of,
            &mut self.num_columns,
        ))?;
        if self.num_columns != before {
            self.computed = None;
        }
        Ok(())
    }

    /// Solves both columns of every loaded particle, each a step solve, and counts how it ended. A call that fails is one refused call.
    /// A solve that gave up is no error: ask the answer whether all are [solved](Computed::solved), now or later by
    /// [`Self::computed`], since what is combined from such a column doesn't tell.
    pub fn compute_columns(
        &mut self,
        params: &SoftFemParameters,
        tally: &mut Tally,
    ) -> Result<Computed, Error> {
        tally.counting(self.asked(&[], params))?;
        let needed = 2 * self.num_particles() * self.num_columns;
        // Room for another number of columns stands aside until the call is accepted.
        let mut other = (self.columns.len() != needed).then(|| vec![Vector::default(); needed]);
        let columns = other.as_mut().unwrap_or(&mut self.columns);
        let (matrix, direct, cg) = (&self.step_matrix, &mut self.direct, &mut self.step_cg);
        let mut counts = tally.counts();
        let mut ended = [0; 6];
        let number = sys::bracket_compute_columns(
            matrix.num_rows(),
            &matrix.row_offsets,
            &matrix.cols,
            &matrix.diagonal,
            matrix.numbers(),
            &direct.perm,
            &direct.inv_perm,
            &direct.first,
            &direct.row_start,
            &direct.values,
            self.marked == Some(Marked::Direct),
            cg.preconditioner.as_flattened().as_flattened(),
            params.linear_tolerance,
            params.max_linear_iterations,
            params.max_dense_dofs,
            &self.pinned,
            self.num_columns,
            &self.column_of,
            columns.as_flattened_mut(),
            self.response_rhs.as_flattened_mut(),
            &mut direct.scratch,
            cg.residual.as_flattened_mut(),
            cg.direction.as_flattened_mut(),
            cg.a_direction.as_flattened_mut(),
            cg.z.as_flattened_mut(),
            &mut counts,
            &mut ended,
        );
        *tally = counts.into();
        accepted(number)?;
        if let Some(other) = other {
            self.columns = other;
        }
        let computed = ended.into();
        self.computed = Some(computed);
        Ok(computed)
    }

    /// Whether there are columns to combine, if any particle is loaded, and `out` is as long as needed.
    fn combining(&self, list: &'static str, needed: usize, given: usize) -> Result<(), Error> {
        if self.num_columns > 0 && self.computed.is_none() {
            return Err(Error::NotComputed);
        }
        exact(list, needed, given)
    }

    /// What [`Self::response_into`] answers, combined from the columns without a solve, and so not counted. Pinned particles are skipped;
    /// one that isn't loaded ends it, unless its gradient is zeros.
    pub fn response_from_columns(
        &self,
        entries: &[(u32, Vector)],
        out: &mut [Vector],
    ) -> Result<Combined, Error> {
        self.combining("out", self.num_particles(), out.len())?;
        let (particles, gradients): (Vec<u32>, Vec<Vector>) = entries.iter().copied().unzip();
        let (mut gain, mut how) = (0.0, 0);
        accepted(sys::bracket_response_from_columns(
            self.num_particles(),
            &self.pinned,
            self.num_columns,
            &self.column_of,
            self.columns.as_flattened(),
            entries.len(),
            &particles,
            gradients.as_flattened(),
            out.as_flattened_mut(),
            &mut gain,
            &mut how,
        ))?;
        Ok(match how {
            0 => Combined::Gain(gain),
            NOT_LOADED => Combined::NotLoaded,
            _ => Combined::Nothing,
        })
    }

    /// Both columns of a particle, copied into `out` one after the other, and the block of their values at the particle, made
    /// symmetric. `out` has two vectors for each particle.
    pub fn particle_block_from_columns(
        &self,
        particle: u32,
        out: &mut [Vector],
    ) -> Result<ParticleBlock, Error> {
        self.combining(BOTH_COLUMNS, 2 * self.num_particles(), out.len())?;
        let (mut how, mut block) = (0, [0.0; 4]);
        accepted(sys::bracket_particle_block_from_columns(
            self.num_particles(),
            &self.pinned,
            self.num_columns,
            &self.column_of,
            self.columns.as_flattened(),
            particle as usize,
            out.as_flattened_mut(),
            &mut how,
            &mut block,
        ))?;
        let [c0x, c0y, c1x, c1y] = block;
        Ok(match how {
            NOT_LOADED => ParticleBlock::NotLoaded,
            _ => ParticleBlock::Block([[c0x, c0y], [c1x, c1y]]),
        })
    }
}
