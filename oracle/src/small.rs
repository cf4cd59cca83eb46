//! The source's small functions, each callable by itself.
use crate::refusals::{self, Refusal};
use crate::source::pcurve;
use tessstep_curves::spline::{KnotVector, SplineLimits, validate_weights};
use tessstep_math::{ModelSpace, Point3};
use tessstep_surfaces::NurbsSurface;

pub use tessstep_curves::spline::KnotSide;

/// An axis as it is lent: degree, control count and knots, unchecked.
#[derive(Clone, Debug)]
pub struct Axis {
    pub degree: usize,
    pub controls: usize,
    pub knots: Vec<f64>,
}

/// Values, first and second derivatives from control number `start` on.
pub struct Basis {
    pub start: usize,
    pub rows: [Vec<f64>; 3],
}

/// The largest weight.
pub fn weights(weights: &[f64]) -> Result<f64, Refusal> {
    validate_weights(weights).map_err(|_| Refusal::Weights)
}

/// The knot domain.
pub fn knots(axis: &Axis) -> Result<[f64; 2], Refusal> {
    Ok(knot_vector(axis)?.domain())
}

pub fn snap(axis: &Axis, u: f64) -> Result<f64, Refusal> {
    knot_vector(axis)?.snap(u).ok_or(Refusal::Evaluation)
}

pub fn span(axis: &Axis, u: f64, side: KnotSide) -> Result<usize, Refusal> {
    let span = knot_vector(axis)?.span(u, side);
    span.map_err(|_| Refusal::Evaluation)
}

pub fn basis(axis: &Axis, u: f64, side: KnotSide) -> Result<Basis, Refusal> {
    let sample = knot_vector(axis)?.basis_on_side(u, side);
    let sample = sample.map_err(|_| Refusal::Evaluation)?;
    Ok(Basis {
        start: sample.start(),
        rows: [sample.values(), sample.first(), sample.second()].map(<[f64]>::to_vec),
    })
}

fn knot_vector(axis: &Axis) -> Result<KnotVector, Refusal> {
    let Axis {
        degree,
        controls,
        ref knots,
    } = *axis;
    KnotVector::new(degree, controls, knots, SplineLimits::default()).map_err(refusals::of_knots)
}

/// `wrap` on a flagged axis whose knot domain is `lo` to `hi`.
pub fn wrap([lo, hi]: [f64; 2], t: f64) -> Result<f64, Refusal> {
    let origin = Point3::<ModelSpace>::new([0.; 3]).expect("the origin is finite");
    let knots: [&[f64]; 2] = [&[lo, lo, hi, hi], &[0., 0., 1., 1.]];
    let limits = SplineLimits::default();
    let surface = NurbsSurface::new([1; 2], knots, [2; 2], &[origin; 4], &[1.; 4], limits);
    let surface = surface.map_err(refusals::of_construction)?;
    Ok(surface.flagged([true, false]).wrapped(0, t))
}

pub fn nearest(value: f64, hint: f64, period: f64) -> f64 {
    pcurve::nearest(value, hint, period)
}

/// The distance of two points as an inversion computes it.
pub fn distance(a: [f64; 3], b: [f64; 3]) -> f64 {
    pcurve::norm(pcurve::sub(a, b))
}
