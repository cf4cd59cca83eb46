//! Surfaces at the brink of the sizes up to which no second derivative can overflow, and
//! calls on them. Up to there the port may leave out second derivatives; the source knows no
//! such sizes, so answers may not depend on the side that a surface is on.
use super::Case;
use super::cases::{derivative_on, inversion_on, row_on, singular_on, times};
use super::jobs::job_on;
use super::random::{Random, power};
use super::surfaces::{flags, net};
use crate::calls::Surface;

pub fn inversions(r: &mut Random) -> Vec<Case> {
    times(r, 400, inversion)
}

pub fn calls(r: &mut Random) -> Vec<Case> {
    [times(r, 100, derivative), times(r, 60, singular)].concat()
}

pub fn rows(r: &mut Random) -> Vec<Case> {
    times(r, 100, row)
}

/// A case of each call.
pub fn brinks(r: &mut Random) -> Vec<Case> {
    [inversion, derivative, singular, row, job]
        .map(|case| case(r))
        .to_vec()
}

fn inversion(r: &mut Random) -> Case {
    let surface = surface(r);
    Case::Invert(inversion_on(r, surface))
}

fn derivative(r: &mut Random) -> Case {
    let surface = surface(r);
    derivative_on(r, surface)
}

fn singular(r: &mut Random) -> Case {
    let surface = surface(r);
    singular_on(r, surface)
}

fn row(r: &mut Random) -> Case {
    let surface = surface(r);
    Case::Row(row_on(r, surface))
}

fn job(r: &mut Random) -> Case {
    let surface = surface(r);
    Case::Job(job_on(r, surface).write())
}

/// A size of a surface that has a limit, 2 to the power of `exponent`.
struct Limit {
    exponent: i32,
    /// 1 where sizes above the limit are outside, -1 where those below are.
    outward: i32,
    /// Exponents far outside: the later, the more often a number overflows.
    far: &'static [i32],
    /// Gives a surface that size.
    push: fn(&mut Random, &mut Surface, f64),
}

const LIMITS: [Limit; 4] = [
    Limit {
        exponent: 900,
        outward: 1,
        far: &[950, 1000, 1022, 1023],
        push: largest_knot,
    },
    Limit {
        exponent: 100,
        outward: 1,
        far: &[300, 850, 900, 930, 1019],
        push: largest_coordinate,
    },
    Limit {
        exponent: -64,
        outward: -1,
        far: &[-300, -420, -490, -511],
        push: narrowest_span,
    },
    Limit {
        exponent: -62,
        outward: -1,
        far: &[-300, -420, -520, -800],
        push: least_weight,
    },
];

impl Limit {
    fn size(&self, r: &mut Random) -> f64 {
        let limit = power(self.exponent);
        match r.below(12) {
            0 => power(self.exponent - self.outward),
            1 => limit,
            2 if self.outward > 0 => limit.next_up(),
            2 => limit.next_down(),
            3 => power(self.exponent + self.outward),
            _ => power(r.pick(self.far)),
        }
    }
}

/// A surface with one size about its limit. The others are ordinary or at their limits,
/// where derivatives are as large as they get inside.
fn surface(r: &mut Random) -> Surface {
    let mut surface = ordinary(r);
    // The largest knot half as often: no answer depends on its limit.
    let chosen = r.below(7).div_ceil(2);
    let others = r.pick(&[0, 50, 100, 100, 100]);
    for (place, limit) in LIMITS.iter().enumerate() {
        if place != chosen && r.percent(others) {
            (limit.push)(r, &mut surface, power(limit.exponent));
        }
    }
    let size = LIMITS[chosen].size(r);
    (LIMITS[chosen].push)(r, &mut surface, size);
    for knots in &mut surface.knots {
        if r.percent(30) {
            mirror(knots);
        }
    }
    surface
}

/// A surface of degrees 1 to 4 on whole knots from 0.
fn ordinary(r: &mut Random) -> Surface {
    let degrees = [0; 2].map(|_| 1 + r.below(4));
    let spans = [0; 2].map(|_| r.pick(&[1, 1, 2, 3]));
    let shape = [0, 1].map(|k| degrees[k] + spans[k]);
    let rational = r.percent(50);
    let weight = |_| if rational { 0.25 + 4. * r.unit() } else { 1. };
    let weights = (0..shape[0] * shape[1]).map(weight).collect();
    Surface {
        degrees,
        shape,
        periodic: flags(r),
        knots: [0, 1].map(|k| knots(r, degrees[k], spans[k])),
        controls: net(r, shape).as_flattened().to_vec(),
        weights,
        window: None,
    }
}

/// Knots a unit apart, mostly clamped.
fn knots(r: &mut Random, degree: usize, spans: usize) -> Vec<f64> {
    let repeats = if r.percent(90) { degree } else { 0 };
    let last = spans + 2 * (degree - repeats);
    let all = [vec![0; repeats], (0..=last).collect(), vec![last; repeats]].concat();
    all.into_iter().map(|knot| knot as f64).collect()
}

/// Scales the net by a power of two, which keeps its shape, or leaves it and lets one
/// control stand out.
fn largest_coordinate(r: &mut Random, surface: &mut Surface, size: f64) {
    let controls = &mut surface.controls;
    let larger = |&a: &usize, &b: &usize| controls[a].abs().total_cmp(&controls[b].abs());
    let largest = (0..controls.len())
        .max_by(larger)
        .expect("a net has points");
    if r.percent(80) {
        let factor = power_within(size / controls[largest].abs().max(1.));
        controls.iter_mut().for_each(|x| *x *= factor);
    }
    controls[largest] = size.copysign(controls[largest]);
}

/// The largest power of two that is at most x, a normal number above 0.
fn power_within(x: f64) -> f64 {
    f64::from_bits(x.to_bits() & f64::INFINITY.to_bits())
}

/// Moves the last knot outward.
fn largest_knot(r: &mut Random, surface: &mut Surface, size: f64) {
    for knots in some_axes(r, surface) {
        let last = knots[knots.len() - 1];
        shift(r, knots, last, size);
    }
}

/// Moves the first knot above 0 inward: beside 0 a width is exact.
fn narrowest_span(r: &mut Random, surface: &mut Surface, size: f64) {
    for knots in some_axes(r, surface) {
        let first = knots.iter().copied().find(|&knot| knot > 0.);
        shift(r, knots, first.expect("a domain has a width"), size);
    }
}

/// Moves a knot to another place, and at times the others in proportion.
fn shift(r: &mut Random, knots: &mut [f64], from: f64, to: f64) {
    let all = r.percent(50);
    for knot in knots {
        if all || *knot == from {
            *knot = *knot / from * to;
        }
    }
}

/// The knots of u, of v, or of both.
fn some_axes<'a>(r: &mut Random, surface: &'a mut Surface) -> &'a mut [Vec<f64>] {
    let axes = r.pick(&[(0, 1), (1, 2), (0, 2), (0, 2)]);
    &mut surface.knots[axes.0..axes.1]
}

/// Makes a corner light, or a row of controls, or all but a corner. At a clamped corner the
/// weight sum is the corner's weight alone.
fn least_weight(r: &mut Random, surface: &mut Surface, size: f64) {
    let [nu, nv] = surface.shape;
    let [i, j] = [r.pick(&[0, nu - 1]), r.pick(&[0, nv - 1])];
    let heavy = r.power(-200, 400);
    let light = heavy * size;
    let (corner, row) = (i * nv + j, i * nv..(i + 1) * nv);
    let weights = &mut surface.weights;
    weights.fill(heavy);
    match r.below(5) {
        0..3 => weights[corner] = light,
        3 => weights[row].fill(light),
        _ => {
            weights.fill(light);
            weights[corner] = heavy;
        }
    }
}

/// Lets the knots run from the other end, below 0.
fn mirror(knots: &mut [f64]) {
    knots.reverse();
    knots.iter_mut().for_each(|knot| *knot = 0. - *knot);
}
