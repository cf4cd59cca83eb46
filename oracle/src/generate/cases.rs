//! Cases of each call, and how many of each a set holds.
use super::arguments::{Ground, budget, parameter, spoiled};
use super::random::Random;
use super::surfaces::{axis, faulty, singular_edges, small, surface, weights};
use super::{Case, Inversion, Row};
use crate::calls::{Point, Search, Surface, price};
use crate::row::walk;
use crate::small::{Axis, KnotSide, distance, knots};

pub fn times(r: &mut Random, count: usize, case: impl Fn(&mut Random) -> Case) -> Vec<Case> {
    (0..count).map(|_| case(r)).collect()
}

pub fn splines(r: &mut Random) -> Vec<Case> {
    [
        times(r, 800, weights_case),
        times(r, 900, knots_case),
        times(r, 900, snap_case),
        times(r, 900, span_case),
        times(r, 1800, basis_case),
    ]
    .concat()
}

pub fn surfaces(r: &mut Random) -> Vec<Case> {
    [
        times(r, 300, wrap_case),
        times(r, 300, |r| Case::Evaluate(faulty(r), Vec::new())),
        times(r, 1000, evaluate),
    ]
    .concat()
}

pub fn inversions(r: &mut Random) -> Vec<Case> {
    [
        times(r, 300, nearest_case),
        times(r, 2800, |r| Case::Invert(inversion(r))),
    ]
    .concat()
}

pub fn calls(r: &mut Random) -> Vec<Case> {
    [
        times(r, 500, plane),
        times(r, 900, derivative),
        times(r, 700, singular),
    ]
    .concat()
}

pub fn rows(r: &mut Random) -> Vec<Case> {
    times(r, 1500, |r| Case::Row(row(r)))
}

fn weights_case(r: &mut Random) -> Case {
    let count = r.below(7);
    let mut weights = weights(r, count);
    if count > 0 && r.percent(30) {
        weights[r.below(count)] = r.special();
    }
    Case::Weights(weights)
}

fn knots_case(r: &mut Random) -> Case {
    let mut axis = any_axis(r);
    let count = axis.knots.len();
    match r.below(10) {
        0 => axis.degree = r.pick(&[0, 1, 2, 16, 17, usize::MAX]),
        1 => axis.controls = r.pick(&[0, 1, 2, 16, 17, 100_000, 100_001, usize::MAX]),
        2 => drop(axis.knots.pop()),
        3 => axis.knots.push(axis.knots[count - 1]),
        4 => axis.knots[r.below(count)] = r.special(),
        5 => {
            let place = 1 + r.below(count - 1);
            axis.knots[place] = axis.knots[place - 1];
        }
        6 => axis.knots.swap(r.below(count), r.below(count)),
        _ => {}
    }
    Case::Knots(axis)
}

/// All degrees, the low ones more often.
fn any_axis(r: &mut Random) -> Axis {
    let most = if r.percent(60) { 4 } else { 16 };
    let degree = r.between(1, most) as usize;
    axis(r, degree)
}

fn axis_and_parameter(r: &mut Random) -> (Axis, f64) {
    let axis = any_axis(r);
    let domain = knots(&axis).unwrap_or([0., 1.]);
    let u = parameter(r, domain, &axis.knots);
    (axis, u)
}

fn side(r: &mut Random) -> KnotSide {
    r.pick(&[KnotSide::Left, KnotSide::Right])
}

fn snap_case(r: &mut Random) -> Case {
    let (axis, u) = axis_and_parameter(r);
    Case::Snap(axis, u)
}

fn span_case(r: &mut Random) -> Case {
    let (axis, u) = axis_and_parameter(r);
    Case::Span(axis, u, side(r))
}

fn basis_case(r: &mut Random) -> Case {
    let (axis, u) = axis_and_parameter(r);
    Case::Basis(axis, u, side(r))
}

fn wrap_case(r: &mut Random) -> Case {
    let axis = axis(r, 1);
    let domain = knots(&axis).unwrap_or([0., 1.]);
    Case::Wrap(domain, parameter(r, domain, &axis.knots))
}

fn nearest_case(r: &mut Random) -> Case {
    let number = |r: &mut Random| match r.below(4) {
        0 => r.eighth(),
        1 => r.rim(),
        2 => 0.5 * f64::from(r.between(-9, 9)).next_down(),
        _ => 10. * r.signed(),
    };
    let period = r.pick(&[1., 0.5, 0.3, 2.]);
    let period = if r.percent(15) {
        r.power(-1074, 1023)
    } else {
        period
    };
    Case::Nearest([number(r), number(r), period])
}

pub fn evaluate(r: &mut Random) -> Case {
    let ground = Ground::new(surface(r));
    let pairs = (0..6).map(|_| ground.pair(r)).collect();
    Case::Evaluate(ground.surface, pairs)
}

pub fn inversion(r: &mut Random) -> Inversion {
    let surface = surface(r);
    inversion_on(r, surface)
}

/// On a surface of few controls.
pub fn small_inversion(r: &mut Random) -> Inversion {
    let surface = small(r);
    inversion_on(r, surface)
}

pub fn inversion_on(r: &mut Random, surface: Surface) -> Inversion {
    let ground = Ground::new(surface);
    let mark = ground.mark(r);
    let search = ground.search(r, mark);
    Inversion {
        budget: budget_on(r, &ground.surface, mark, &search),
        surface: ground.surface,
        mark,
        search,
    }
}

pub fn budget_on(r: &mut Random, surface: &Surface, mark: Point, search: &Search) -> u64 {
    budget(r, price(surface, mark, search))
}

pub fn plane(r: &mut Random) -> Case {
    let style = r.below(100);
    let mut vector = || -> Point {
        let eighths = [r.eighth(), r.eighth(), r.eighth()];
        match style {
            0..30 => eighths,
            30..70 => [r.signed(), r.signed(), r.signed()],
            70..90 => eighths.map(|x| if r.percent(30) { r.rim() } else { x }),
            _ => spoiled(r, eighths),
        }
    };
    let frame = [vector(), vector(), vector()];
    Case::Plane(frame, vector(), budget(r, 1))
}

pub fn derivative(r: &mut Random) -> Case {
    let surface = surface(r);
    derivative_on(r, surface)
}

pub fn derivative_on(r: &mut Random, surface: Surface) -> Case {
    let ground = Ground::new(surface);
    let uv = if r.percent(70) {
        ground.inside(r)
    } else {
        ground.pair(r)
    };
    let vector = ground.mark(r);
    Case::Derivative(ground.surface, uv, vector, budget(r, 1))
}

pub fn singular(r: &mut Random) -> Case {
    let surface = surface(r);
    singular_on(r, surface)
}

pub fn singular_on(r: &mut Random, surface: Surface) -> Case {
    let surface = singular_edges(r, surface);
    let tolerance = match r.below(100) {
        0..40 => half_edge(r, &surface),
        40..92 => r.pick(&[0., 0., -0., 0.5, 1., 1e-9, 0.125, f64::MAX]),
        _ => r.special(),
    };
    Case::Singular(surface, tolerance)
}

/// The distance of an edge's corner from its middle, or the next number below.
fn half_edge(r: &mut Random, surface: &Surface) -> f64 {
    let ground = Ground::new(surface.clone());
    let Some(shell) = ground.shell else {
        return 0.;
    };
    let [[u0, u1], [v0, v1]] = shell.domain();
    let middle = r.pick(&[[0.5 * (u0 + u1), v0], [u1, 0.5 * (v0 + v1)]]);
    let (Ok(a), Ok(b)) = (shell.evaluate([u1, v0]), shell.evaluate(middle)) else {
        return 0.;
    };
    let half = distance(a.point, b.point);
    r.pick(&[half, half.next_down()])
}

pub fn row(r: &mut Random) -> Row {
    let surface = if r.percent(75) { small(r) } else { surface(r) };
    row_on(r, surface)
}

pub fn row_on(r: &mut Random, surface: Surface) -> Row {
    let ground = Ground::new(surface);
    let marks = marks(r, &ground);
    let mark = ground.mark(r);
    let mut search = ground.search(r, mark);
    if r.percent(60) {
        search.tolerance = r.pick(&[0., 1e-9, 0.01, 0.3, 1., f64::MAX]);
    }
    row_of(r, ground.surface, marks, search)
}

/// With buffers and a budget.
pub fn row_of(r: &mut Random, surface: Surface, marks: Vec<f64>, search: Search) -> Row {
    let price = row_price(&surface, &marks, &search);
    let answers = buffer(r, marks.len() / 3 * 2);
    let ends = bytes(&mut r.aside(), marks.len() / 3 * 2);
    Row {
        surface,
        marks,
        search,
        budget: budget(r, price),
        answers,
        ends,
    }
}

/// Up to eight marks, rarely up to 64, at times one coordinate too few.
pub fn marks(r: &mut Random, ground: &Ground) -> Vec<f64> {
    let count = if r.percent(4) {
        r.below(65)
    } else {
        r.below(9)
    };
    let wild = r.percent(25);
    let mut marks = Vec::new();
    for _ in 0..count {
        let mark = loop {
            let mark = ground.mark(r);
            if wild || mark.iter().all(|x| x.is_finite()) {
                break mark;
            }
        };
        marks.extend(mark);
    }
    if r.percent(3) {
        marks.pop();
    }
    marks
}

/// A buffer that is at times longer than needed, rarely shorter, with bits of all kinds.
fn buffer(r: &mut Random, needed: usize) -> Vec<f64> {
    let length = match r.below(100) {
        0..4 => needed.saturating_sub(1),
        4..50 => needed,
        _ => needed + r.below(6),
    };
    (0..length).map(|_| r.special()).collect()
}

/// Bytes that are at times more than needed, rarely fewer.
fn bytes(r: &mut Random, needed: usize) -> Vec<u8> {
    let length = match r.below(100) {
        0..3 => needed.saturating_sub(1),
        3 => needed / 2,
        4 => 0,
        5..50 => needed,
        _ => needed + r.below(6),
    };
    (0..length).map(|_| r.word() as u8).collect()
}

pub fn row_price(surface: &Surface, marks: &[f64], search: &Search) -> u64 {
    u64::MAX - walk(surface, marks, search, u64::MAX, |_, _| ()).left
}
