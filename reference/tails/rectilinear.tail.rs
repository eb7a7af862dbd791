
// ---- end of the original text; what follows is added for the test build ----

impl<'a, T: Float, const N: usize> MulticubicRectilinear<'a, T, N> {
    /// The private place: origin, and class as 0 None, 1 InsideLow, 2 OutsideLow, 3 InsideHigh, 4 OutsideHigh.
    pub fn oracle_place(&self, v: T, dim: usize) -> Result<(usize, u8), &'static str> {
        self.get_loc(v, dim).map(|(origin, class)| (origin, class as u8))
    }

    /// The private weights, as `interp_one` asks for them.
    pub fn oracle_weights(&self, v: T, dim: usize) -> Result<[T; 4], &'static str> {
        let (origin, sat) = self.get_loc(v, dim)?;
        let grid_cell = &self.grids[dim][origin..origin + 4];
        Ok(interp_weights(grid_cell.try_into().unwrap(), v, sat, self.linearize_extrapolation))
    }
}
