//! The block matrix.

use crate::error::exact;
use crate::refusal::accepted;
use crate::{sys, Error, Matrix, Refusal, Vector};

/// What [`BlockMatrix::block_index`] answers where the pattern stores no block.
pub const ABSENT: u32 = u32::MAX;

/// A symmetric matrix of 2 by 2 blocks, both triangles stored row by row. Its pattern is built once and stays well formed, with a
/// value for each block: a caller changes values alone.
#[derive(Clone, Debug, PartialEq)]
pub struct BlockMatrix {
    pub(crate) row_offsets: Vec<u32>,
    pub(crate) cols: Vec<u32>,
    pub(crate) diagonal: Vec<u32>,
    pub(crate) blocks: Vec<Matrix>,
}

/// The matrix of no particles.
impl Default for BlockMatrix {
    fn default() -> Self {
        Self::with_room(0, 0)
    }
}

impl BlockMatrix {
    /// A block for each particle and two for each pair, in either order, repeats and equal pairs adding nothing. The values are zeros.
    pub fn from_pairs(num_rows: usize, pairs: &[(u32, u32)]) -> Result<Self, Error> {
        let pairs: Vec<u32> = pairs.iter().flat_map(|&(a, b)| [a, b]).collect();
        // Without room only the two counts are judged; room is made once they are known to be small.
        match Self::default().build(num_rows, &pairs) {
            Err(Refusal::ShortBuffer) => {}
            other => other?,
        }
        let mut matrix = Self::with_room(num_rows, num_rows + pairs.len());
        matrix.build(num_rows, &pairs)?;
        let count = matrix.row_offsets[num_rows] as usize;
        matrix.cols.truncate(count);
        matrix.blocks.truncate(count);
        Ok(matrix)
    }

    fn with_room(num_rows: usize, blocks: usize) -> Self {
        Self {
            row_offsets: vec![0; num_rows + 1],
            cols: vec![0; blocks],
            diagonal: vec![0; num_rows],
            blocks: vec![Default::default(); blocks],
        }
    }

    fn build(&mut self, num_rows: usize, pairs: &[u32]) -> Result<(), Refusal> {
        accepted(sys::bracket_from_pairs(
            num_rows,
            pairs.len() / 2,
            pairs,
            &mut self.row_offsets,
            &mut self.cols,
            &mut self.diagonal,
            self.blocks.as_flattened_mut().as_flattened_mut(),
            &mut vec![0; pairs.len()],
        ))
    }

    #[must_use]
    #[inline]
    pub fn num_rows(&self) -> usize {
        self.diagonal.len()
    }

    /// The column of every stored block, by slot.
    #[must_use]
    pub fn cols(&self) -> &[u32] {
        &self.cols
    }

    /// The value of every stored block, by slot.
    #[must_use]
    #[inline]
    pub fn blocks(&self) -> &[Matrix] {
        &self.blocks
    }

    #[must_use]
    #[inline]
    pub fn blocks_mut(&mut self) -> &mut [Matrix] {
        &mut self.blocks
    }

    /// The values as numbers, four to a block.
    pub(crate) fn numbers(&self) -> &[f32] {
        self.blocks.as_flattened().as_flattened()
    }

    /// The slot of the `(row, col)` block, or [`ABSENT`] if the pattern has none. The row alone is tested and searched.
    #[inline]
    pub fn block_index(&self, row: u32, col: u32) -> Result<u32, Error> {
        let mut slot = ABSENT;
        accepted(sys::bracket_row_slot(
            self.num_rows(),
            &self.row_offsets,
            &self.cols,
            row as usize,
            col,
            &mut slot,
        ))?;
        Ok(slot)
    }

    /// The value of the `(row, col)` block.
    #[inline]
    pub fn block(&self, row: u32, col: u32) -> Result<&Matrix, Error> {
        let slot = self.block_index(row, col)? as usize;
        self.blocks.get(slot).ok_or(Error::NoBlock { row, col })
    }

    #[inline]
    pub fn block_mut(&mut self, row: u32, col: u32) -> Result<&mut Matrix, Error> {
        let slot = self.block_index(row, col)? as usize;
        self.blocks.get_mut(slot).ok_or(Error::NoBlock { row, col })
    }

    /// The slot of the `row`-th diagonal block, as the pattern's building recorded it.
    #[inline]
    pub fn diagonal_index(&self, row: u32) -> Result<u32, Error> {
        let slot = self.diagonal.get(row as usize);
        slot.copied().ok_or(Refusal::OutOfRange.into())
    }

    /// Hands each block of the row to `f`, with its column, columns rising. A refused call hands on none.
    pub fn for_each_block_of_row(
        &self,
        row: u32,
        mut f: impl FnMut(u32, &Matrix),
    ) -> Result<(), Error> {
        let (n, starts, cols, row) = (self.num_rows(), &self.row_offsets, &self.cols, row as usize);
        let (mut first, mut len) = (0, 0);
        accepted(sys::bracket_row_first(n, starts, cols, row, &mut first))?;
        accepted(sys::bracket_row_len(n, starts, cols, row, &mut len))?;
        // The row ends within the columns, as is proved, and there are as many values.
        for (j, block) in self.blocks[first..first + len].iter().enumerate() {
            let mut col = ABSENT;
            accepted(sys::bracket_row_col(n, starts, cols, row, j, &mut col))?;
            f(col, block);
        }
        Ok(())
    }

    pub fn clear_values(&mut self) -> Result<(), Error> {
        accepted(sys::bracket_clear_values(
            self.num_rows(),
            &self.row_offsets,
            &self.cols,
            &self.diagonal,
            self.blocks.as_flattened_mut().as_flattened_mut(),
        ))?;
        Ok(())
    }

    /// `out = A x`.
    pub fn mul(&self, x: &[Vector], out: &mut [Vector]) -> Result<(), Error> {
        exact("x", self.num_rows(), x.len())?;
        exact("out", self.num_rows(), out.len())?;
        accepted(sys::bracket_mul(
            self.num_rows(),
            &self.row_offsets,
            &self.cols,
            &self.diagonal,
            self.numbers(),
            x.as_flattened(),
            out.as_flattened_mut(),
        ))?;
        Ok(())
    }

    /// Pins a particle: the identity at its diagonal, zeros in the rest of its row and column.
    pub fn make_dirichlet(&mut self, row: u32) -> Result<(), Error> {
        accepted(sys::bracket_make_dirichlet(
            self.num_rows(),
            &self.row_offsets,
            &self.cols,
            &self.diagonal,
            row as usize,
            self.blocks.as_flattened_mut().as_flattened_mut(),
        ))?;
        Ok(())
    }

    /// Pins every particle whose mark is set, as pinning them one after the other would, at the cost of one.
    pub fn make_dirichlet_marked(&mut self, pinned: &[bool]) -> Result<(), Error> {
        exact("pinned", self.num_rows(), pinned.len())?;
        accepted(sys::bracket_make_dirichlet_marked(
            self.num_rows(),
            &self.row_offsets,
            &self.cols,
            &self.diagonal,
            &bytes(pinned),
            self.blocks.as_flattened_mut().as_flattened_mut(),
        ))?;
        Ok(())
    }
}

/// A byte for each mark, zero if it isn't set.
pub(crate) fn bytes(marks: &[bool]) -> Vec<u8> {
    marks.iter().map(|&mark| u8::from(mark)).collect()
}
