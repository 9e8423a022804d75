
// Not of the source: oracle/build puts these lines behind it, to show its private fields and to make a
// factor of given ones.

impl SkylineCholesky {
    pub(crate) fn from_lists(
        perm: Vec<u32>,
        inv_perm: Vec<u32>,
        first: Vec<u32>,
        row_start: Vec<usize>,
        values: Vec<Real>,
    ) -> Self {
        let scratch = vec![0.0; first.len()];
        Self {
            perm,
            inv_perm,
            first,
            row_start,
            values,
            scratch,
        }
    }

    pub(crate) fn see_perm(&self) -> &[u32] {
        &self.perm
    }

    pub(crate) fn see_inv_perm(&self) -> &[u32] {
        &self.inv_perm
    }

    pub(crate) fn see_first(&self) -> &[u32] {
        &self.first
    }

    pub(crate) fn see_row_start(&self) -> &[usize] {
        &self.row_start
    }

    pub(crate) fn see_values(&self) -> &[Real] {
        &self.values
    }
}
