// Appended by the oracle's build: any pair of periodic flags, and a way to the private wrap.
impl<S: Space> NurbsSurface<S> {
    pub fn flagged(mut self, periodic: [bool; 2]) -> Self {
        self.periodic = periodic;
        self
    }
    pub fn wrapped(&self, axis: usize, t: f64) -> f64 {
        self.wrap(axis, t, KnotSide::Right)
    }
}
