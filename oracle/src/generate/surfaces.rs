//! Surfaces: axes, controls, weights and flags of many styles, some of them spoiled.
use super::random::Random;
use crate::calls::Surface;
use crate::small::Axis;

/// A surface of any kind, refused ones included.
pub fn surface(r: &mut Random) -> Surface {
    match r.below(100) {
        0..8 => faulty(r),
        8..48 => small(r),
        _ => sound(r),
    }
}

/// A surface with one to three faults, so that the order of the checks shows.
pub fn faulty(r: &mut Random) -> Surface {
    let mut surface = sound(r);
    for _ in 0..r.pick(&[1, 1, 2, 3]) {
        if r.percent(50) {
            spoil(r, &mut surface);
        } else {
            misfit(r, &mut surface);
        }
    }
    surface
}

/// A surface whose counts fit. Most of them pass the checks.
pub fn sound(r: &mut Random) -> Surface {
    let axes = axes(r);
    with_axes(r, axes)
}

/// A surface with an axis of 23 to 97 distinct knots.
pub fn dense_surface(r: &mut Random) -> Surface {
    let mut axes = [dense(r), clamped(r, 1, 2)];
    if r.percent(50) {
        axes.reverse();
    }
    with_axes(r, axes)
}

/// A surface of few controls whose grid is small and which passes the checks.
pub fn small(r: &mut Random) -> Surface {
    let axes = [0; 2].map(|_| {
        let degree = r.pick(&[1, 1, 1, 2]);
        clamped(r, degree, degree + 1)
    });
    let mut surface = with_axes(r, axes);
    if r.percent(80) {
        surface.weights.fill(1.);
    }
    surface
}

/// A surface whose edges are often collapsed.
pub fn singular_edges(r: &mut Random, mut surface: Surface) -> Surface {
    let [nu, nv] = surface.shape;
    let net = surface.controls.as_chunks_mut::<3>().0;
    if r.percent(40) && nu > 0 && nu.checked_mul(nv) == Some(net.len()) {
        collapse(r, [nu, nv], net);
    }
    surface
}

fn with_axes(r: &mut Random, [u, v]: [Axis; 2]) -> Surface {
    let shape = [u.controls, v.controls];
    Surface {
        degrees: [u.degree, v.degree],
        shape,
        periodic: flags(r),
        knots: [u.knots, v.knots],
        controls: controls(r, shape),
        weights: weights(r, shape[0] * shape[1]),
        window: None,
    }
}

pub fn flags(r: &mut Random) -> [bool; 2] {
    if r.percent(55) {
        [false; 2]
    } else {
        r.pick(&[[false, false], [true, false], [false, true], [true, true]])
    }
}

fn axes(r: &mut Random) -> [Axis; 2] {
    let mut axes = match r.below(100) {
        0 => [dense(r), clamped(r, 1, 2)],
        1..8 => {
            let degrees = [r.between(4, 16) as usize, r.pick(&[1, 1, 1, 2, 3, 5])];
            degrees.map(|degree| axis(r, degree))
        }
        _ => [0; 2].map(|_| {
            let degree = r.pick(&[1, 1, 1, 1, 2, 2, 3]);
            axis(r, degree)
        }),
    };
    if r.percent(50) {
        axes.reverse();
    }
    axes
}

/// An axis of 23 to 97 distinct knots.
fn dense(r: &mut Random) -> Axis {
    let distinct = r.pick(&[23, 24, 25, 46, 47, 48, 49, 72, 73, 96, 97]);
    let degree = r.pick(&[1, 1, 2]);
    clamped(r, degree, distinct + degree - 1)
}

/// An axis of the given degree with up to two controls more than it needs.
pub fn axis(r: &mut Random, degree: usize) -> Axis {
    let controls = degree + 1 + r.pick(&[0, 0, 0, 1, 1, 2]);
    if r.percent(75) {
        clamped(r, degree, controls)
    } else {
        unclamped(r, degree, controls)
    }
}

fn clamped(r: &mut Random, degree: usize, controls: usize) -> Axis {
    with_ends(r, degree, controls, [degree + 1; 2])
}

fn unclamped(r: &mut Random, degree: usize, controls: usize) -> Axis {
    let ends = [0; 2].map(|_| 1 + r.below(degree + 1));
    with_ends(r, degree, controls, ends)
}

/// An axis whose first and last knots are repeated as often as `ends` says. Inner knots
/// may be repeated up to degree + 1 times.
fn with_ends(r: &mut Random, degree: usize, controls: usize, ends: [usize; 2]) -> Axis {
    let inner = controls + degree + 1 - ends[0] - ends[1];
    let most = if r.percent(30) { degree + 1 } else { 1 };
    let whole = r.percent(60);
    let mut knots = vec![0.; ends[0]];
    let mut at = 0.;
    let mut step = |r: &mut Random| {
        at += if whole { 1. } else { 0.1 + r.unit() };
        at
    };
    while knots.len() < ends[0] + inner {
        let times = (1 + r.below(most)).min(ends[0] + inner - knots.len());
        let knot = step(r);
        knots.extend(vec![knot; times]);
    }
    knots.extend(vec![step(r); ends[1]]);
    stretch(r, &mut knots);
    Axis {
        degree,
        controls,
        knots,
    }
}

/// Moves a knot vector to another place and size, at times far out or very small.
fn stretch(r: &mut Random, knots: &mut [f64]) {
    let (offset, factor) = match r.below(100) {
        0..62 => (0., 1.),
        62..76 => (
            r.pick(&[0., 0., -1., 0.5, -0.25, 3., 0.1]),
            r.pick(&[0.5, 2., 0.1, 0.3, 3., 0.25]),
        ),
        76..86 => (4. * r.signed(), 0.01 + 4. * r.unit()),
        86..91 => (0., r.power(-1074, 1021)),
        91..94 => (0., r.power(-170, 170)),
        94..97 => (r.signed() * 1e15, r.power(-2, 6)),
        97 => (-1e308, r.pick(&[1.7e308, 1e307])),
        _ => (1.7e308, r.power(972, 980)),
    };
    let negative_zero = r.percent(6);
    for knot in knots {
        *knot = offset + *knot * factor;
        if *knot == 0. && negative_zero {
            *knot = -0.;
        }
    }
}

fn controls(r: &mut Random, shape: [usize; 2]) -> Vec<f64> {
    let mut net = net(r, shape);
    if r.percent(12) {
        collapse(r, shape, &mut net);
    }
    if r.percent(6) {
        close(r, shape, &mut net);
    }
    let scale = match r.below(100) {
        0..84 => [1.; 3],
        84..91 => [r.power(-1074, 1021); 3],
        91..95 => [0; 3].map(|_| r.power(-300, 300)),
        _ => [r.power(-170, 170), r.power(-170, 170), 1.],
    };
    let offset = if r.percent(4) { r.signed() * 1e8 } else { 0. };
    let negative_zero = r.percent(6);
    for point in &mut net {
        *point = [0, 1, 2].map(|k| point[k] * scale[k] + offset);
        if negative_zero {
            *point = point.map(|x| if x == 0. { -0. } else { x });
        }
    }
    net.as_flattened().to_vec()
}

/// Control points of one style, u slowest.
pub fn net(r: &mut Random, shape: [usize; 2]) -> Vec<[f64; 3]> {
    let place = [r.eighth(), r.eighth(), r.eighth()];
    let lean = r.pick(&[1e-7, 3e-8, 1e-8, 1e-6, 1e-12, 0.]);
    let narrow = r.pick(&[1e-12, 1.1e-12, 9e-13, 3e-12, 1e-11, 1e-6]);
    let style = r.below(100);
    let mut net = Vec::new();
    for i in 0..shape[0] {
        for j in 0..shape[1] {
            let (x, y) = (i as f64, j as f64);
            net.push(match style {
                0..14 => [x, y, 0.],
                14..32 => [x, y, f64::from(r.between(-1, 1))],
                32..58 => [x + 0.3 * r.signed(), y + 0.3 * r.signed(), r.signed()],
                58..76 => [r.signed(), r.signed(), r.signed()],
                76..81 => place,
                81..84 => place.map(|t| t * x),
                84..86 => place.map(|t| t * y),
                86..88 => place.map(|t| t * (x - y)),
                88..92 => [x, narrow * y, 0.],
                92..96 => [x + y, lean * y, 0.],
                _ => [r.eighth(), r.eighth(), r.eighth()],
            });
        }
    }
    net
}

/// Draws one or two opposite edges together into a point each.
fn collapse(r: &mut Random, [nu, nv]: [usize; 2], net: &mut [[f64; 3]]) {
    let along_u = r.percent(50);
    let (first, last) = (r.percent(60), r.percent(60));
    for i in 0..nu {
        for j in 0..nv {
            let (at, end, start) = if along_u {
                (j, nv - 1, j)
            } else {
                (i, nu - 1, i * nv)
            };
            if (first && at == 0) || (last && at == end) {
                net[i * nv + j] = net[start];
            }
        }
    }
}

/// Lets the last row or column of controls repeat the first.
fn close(r: &mut Random, [nu, nv]: [usize; 2], net: &mut [[f64; 3]]) {
    if r.percent(50) {
        net.copy_within(..nv, (nu - 1) * nv);
    } else {
        for row in net.chunks_exact_mut(nv) {
            row[nv - 1] = row[0];
        }
    }
}

pub fn weights(r: &mut Random, count: usize) -> Vec<f64> {
    let style = r.below(100);
    let base = r.between(-1074, 1023);
    let spread = r.pick(&[0, 3, 60, 500, 1074]);
    let one = |_| match style {
        0..62 => 1.,
        62..84 => 0.25 + 4. * r.unit(),
        84..92 => r.power(-8, 8),
        _ => r.power(base, (base + spread).min(1023)),
    };
    (0..count).map(one).collect()
}

/// Puts a number from the rim of the format, or beyond it, in one place.
pub fn spoil(r: &mut Random, surface: &mut Surface) {
    let [u, v] = &mut surface.knots;
    let numbers = match r.below(4) {
        0 => u,
        1 => v,
        2 => &mut surface.controls,
        _ => &mut surface.weights,
    };
    if !numbers.is_empty() {
        let place = r.below(numbers.len());
        numbers[place] = r.special();
    }
}

/// Changes a count, or what is lent, so that they no longer fit.
pub fn misfit(r: &mut Random, surface: &mut Surface) {
    let k = r.below(2);
    let [u, v] = &mut surface.knots;
    match r.below(12) {
        0 => surface.degrees[k] = r.pick(&[0, 1, 2, 16, 17, 18, 255, usize::MAX]),
        1 => surface.shape[k] = r.pick(&[0, 1, 2, 3, 100_000, 100_001, 1 << 32, usize::MAX]),
        2 => surface.shape = [1 << 32; 2],
        3 => {
            surface.shape = [r.pick(&[200_000, 0, usize::MAX]), 0];
            surface.controls.clear();
            surface.weights.clear();
        }
        4 => surface.weights.clear(),
        5 => surface.weights.push(1.),
        6 => drop(surface.controls.pop()),
        7 => surface.controls.extend([0., 1., 2.]),
        8 => surface.controls.truncate(3),
        9 => drop(if k == 0 { u } else { v }.pop()),
        10 => u.push(f64::MAX),
        _ => u.reverse(),
    }
}
