//! The port's functions, as crate `timing_c` exports them. Nothing ties these declarations to
//! the Rattle source but this file: a slice goes as a pointer and a length.
unsafe extern "C" {
    fn time_root(x: f64) -> f64;
    fn time_rem_euclid(x: f64, y: f64) -> f64;
    fn time_basis(
        knots: *const f64,
        knot_count: usize,
        degree: usize,
        controls: usize,
        u: f64,
    ) -> f64;
    fn time_evaluate(
        degree_u: usize,
        degree_v: usize,
        controls_u: usize,
        controls_v: usize,
        ku: *const f64,
        ku_count: usize,
        kv: *const f64,
        kv_count: usize,
        controls: *const f64,
        control_count: usize,
        weights: *const f64,
        weight_count: usize,
        scale: f64,
        u: f64,
        v: f64,
    ) -> f64;
}

pub fn root(x: f64) -> f64 {
    unsafe { time_root(x) }
}

pub fn rem_euclid(x: f64, y: f64) -> f64 {
    unsafe { time_rem_euclid(x, y) }
}

/// One number of each row. The knots have passed their checks.
pub fn basis(knots: &[f64], degree: usize, controls: usize, u: f64) -> f64 {
    unsafe { time_basis(knots.as_ptr(), knots.len(), degree, controls, u) }
}

/// A surface that has passed its checks, and its largest weight.
pub struct Surface {
    pub degrees: [usize; 2],
    pub shape: [usize; 2],
    pub knots: [Vec<f64>; 2],
    pub controls: Vec<f64>,
    pub weights: Vec<f64>,
    pub scale: f64,
}

/// One number of the point and of each first derivative.
pub fn evaluate(s: &Surface, u: f64, v: f64) -> f64 {
    unsafe {
        time_evaluate(
            s.degrees[0],
            s.degrees[1],
            s.shape[0],
            s.shape[1],
            s.knots[0].as_ptr(),
            s.knots[0].len(),
            s.knots[1].as_ptr(),
            s.knots[1].len(),
            s.controls.as_ptr(),
            s.controls.len(),
            s.weights.as_ptr(),
            s.weights.len(),
            s.scale,
            u,
            v,
        )
    }
}
