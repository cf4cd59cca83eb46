// Appended by the oracle's build: a way to the private derivative.
impl Inverter<'_> {
    pub(crate) fn image(
        &self,
        uv: [f64; 2],
        d: V3,
        work: &mut Work,
    ) -> Result<[f64; 2], PcurveError> {
        self.derivative(uv, d, 0., work)
    }
}
