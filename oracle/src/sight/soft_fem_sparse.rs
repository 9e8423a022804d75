
// Not of the source: oracle/build puts these lines behind it, to show its private fields and to make a
// matrix and a preconditioner of given ones.

impl BlockMatrix {
    pub(crate) fn from_lists(
        row_offsets: Vec<u32>,
        cols: Vec<u32>,
        diagonal: Vec<u32>,
        blocks: Vec<Matrix>,
    ) -> Self {
        Self {
            row_offsets,
            cols,
            diagonal,
            blocks,
        }
    }

    pub(crate) fn see_row_offsets(&self) -> &[u32] {
        &self.row_offsets
    }

    pub(crate) fn see_cols(&self) -> &[u32] {
        &self.cols
    }

    pub(crate) fn see_diagonal(&self) -> &[u32] {
        &self.diagonal
    }
}

impl ConjugateGradient {
    pub(crate) fn from_preconditioner(preconditioner: Vec<Matrix>) -> Self {
        Self {
            preconditioner,
            ..Self::default()
        }
    }

    pub(crate) fn see_preconditioner(&self) -> &[Matrix] {
        &self.preconditioner
    }

    pub(crate) fn see_residual(&self) -> &[Vector] {
        &self.residual
    }
}
