//! Times the port's kernels, which make no checks, beside the Rust source's.
mod port;

use bench::{clamped, compare, heading};
use std::hint::black_box;
use tessstep_curves::spline::{KnotSide, KnotVector, SplineLimits};
use tessstep_math::{ModelSpace, Point3};
use tessstep_surfaces::NurbsSurface;

/// Calls in a repeat.
const CALLS: usize = 2000;

fn main() {
    heading("Rust");
    roots();
    remainders();
    for degree in [1, 3, 5, 16] {
        bases(degree);
    }
    for degree in [1, 3, 5, 16] {
        evaluations(degree);
    }
}

fn roots() {
    let inputs: Vec<f64> = (0..CALLS).map(|i| 1e-9 * (i * i + 1) as f64).collect();
    compare(
        "root",
        &inputs,
        |&x| port::root(x),
        |&x| black_box(x).sqrt(),
    );
}

/// Parameters near a domain of width 1, as a wrap meets them, and sizes up to 2 ^ 300 apart.
fn remainders() {
    let near = |i| (16. * i as f64 / CALLS as f64 - 8., 1.);
    let far = |i| ((1. + 1e-4 * i as f64) * 2f64.powi(i as i32 % 301), 1.1);
    remainders_of("rem_euclid, near", (0..CALLS).map(near).collect());
    remainders_of("rem_euclid, far apart", (0..CALLS).map(far).collect());
}

fn remainders_of(name: &str, inputs: Vec<(f64, f64)>) {
    compare(
        name,
        &inputs,
        |&(x, y)| port::rem_euclid(x, y),
        |&(x, y)| black_box(x).rem_euclid(black_box(y)),
    );
}

fn bases(degree: usize) {
    let axis = Axis::new(degree, degree + 9);
    let vector = axis.vector();
    let port = |&u: &f64| port::basis(&axis.knots, degree, axis.controls, u);
    let rust = |&u: &f64| {
        let basis = black_box(vector.basis_on_side(black_box(u), KnotSide::Right)).unwrap();
        basis.values()[0] + basis.first()[0] + basis.second()[0]
    };
    compare(
        &format!("basis, degree {degree}"),
        &axis.parameters(),
        port,
        rust,
    );
}

fn evaluations(degree: usize) {
    let axis = Axis::new(degree, degree + 9);
    let count = axis.controls * axis.controls;
    let controls: Vec<f64> = (0..3 * count)
        .map(|i| ((i * 7919) % 1000) as f64 * 1e-3)
        .collect();
    let weights: Vec<f64> = (0..count).map(|i| 1. + (i % 5) as f64 * 0.25).collect();
    let surface = port::Surface {
        degrees: [degree; 2],
        shape: [axis.controls; 2],
        knots: [axis.knots.clone(), axis.knots.clone()],
        scale: weights.iter().copied().fold(0., f64::max),
        controls,
        weights,
    };
    let original = original(&surface);
    let inputs = axis.parameters();
    let port = |&u: &f64| port::evaluate(&surface, u, 1. - u);
    let rust = |&u: &f64| {
        let e = black_box(original.evaluate(black_box(u), 1. - u)).unwrap();
        e.position.coordinates()[0] + e.du.components()[1] + e.dv.components()[2]
    };
    compare(&format!("evaluate, degree {degree}"), &inputs, port, rust);
}

fn original(s: &port::Surface) -> NurbsSurface<ModelSpace> {
    let points: Vec<Point3<ModelSpace>> = s
        .controls
        .chunks(3)
        .map(|p| Point3::new([p[0], p[1], p[2]]).unwrap())
        .collect();
    let knots = [&s.knots[0][..], &s.knots[1][..]];
    let limits = SplineLimits::default();
    NurbsSurface::new(s.degrees, knots, s.shape, &points, &s.weights, limits).unwrap()
}

struct Axis {
    degree: usize,
    controls: usize,
    knots: Vec<f64>,
}

impl Axis {
    fn new(degree: usize, controls: usize) -> Self {
        let knots = clamped(degree, controls);
        Self {
            degree,
            controls,
            knots,
        }
    }

    fn vector(&self) -> KnotVector {
        KnotVector::new(
            self.degree,
            self.controls,
            &self.knots,
            SplineLimits::default(),
        )
        .unwrap()
    }

    /// Parameters that visit the spans in no order.
    fn parameters(&self) -> Vec<f64> {
        (0..CALLS)
            .map(|i| ((i * 7919) % CALLS) as f64 / CALLS as f64)
            .collect()
    }
}
