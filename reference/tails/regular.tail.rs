
// ---- end of the original text; what follows is added for the test build ----

impl<'a, T: Float, const N: usize> MulticubicRegular<'a, T, N> {
    /// The private place: origin, and class as 0 None, 1 InsideLow, 2 OutsideLow, 3 InsideHigh, 4 OutsideHigh.
    pub fn oracle_place(&self, v: T, dim: usize) -> Result<(usize, u8), &'static str> {
        self.get_loc(v, dim).map(|(origin, class)| (origin, class as u8))
    }

    /// The private weights, as `interp_one` asks for them.
    pub fn oracle_weights(&self, v: T, dim: usize) -> Result<[T; 4], &'static str> {
        let (origin, sat) = self.get_loc(v, dim)?;
        let index_one_loc = self.starts[dim]
            + self.steps[dim] * <T as NumCast>::from(origin + 1).ok_or("Unrepresentable coordinate value")?;
        let t = (v - index_one_loc) / self.steps[dim];
        Ok(interp_weights(t, sat, self.linearize_extrapolation))
    }
}
