
// Not of the source: oracle/build puts these lines behind it, to let its private call be made.

impl SoftFemSystem {
    pub(crate) fn see_solve_step(
        &mut self,
        b: &[Vector],
        x: &mut [Vector],
        params: &SoftFemParameters,
    ) {
        self.solve_step(b, x, params);
    }
}
