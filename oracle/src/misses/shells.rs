//! The shells whose marks are measured, in mm.
use crate::calls::{Point, Surface};

/// A kind of shell.
pub struct Kind {
    pub name: &'static str,
    pub what: &'static str,
    pub surface: Surface,
}

pub fn kinds() -> Vec<Kind> {
    vec![
        bump(),
        cup(),
        coarse_cup(),
        corner(),
        fold(),
        bellows(),
        lid(),
    ]
}

/// Knots of equal spans, both ends repeated.
fn clamped(degree: usize, controls: usize) -> Vec<f64> {
    let last = controls - degree;
    let inner = (0..=last).map(|knot| knot as f64).collect();
    [vec![0.; degree], inner, vec![last as f64; degree]].concat()
}

/// A surface with clamped knots; `control` gives a control and its weight.
fn net(
    degrees: [usize; 2],
    shape: [usize; 2],
    control: impl Fn(usize, usize) -> (Point, f64),
) -> Surface {
    let places = (0..shape[0]).flat_map(|i| (0..shape[1]).map(move |j| (i, j)));
    let (points, weights): (Vec<Point>, Vec<f64>) = places.map(|(i, j)| control(i, j)).unzip();
    Surface {
        degrees,
        shape,
        periodic: [false; 2],
        knots: [0, 1].map(|axis| clamped(degrees[axis], shape[axis])),
        controls: points.as_flattened().to_vec(),
        weights,
        window: None,
    }
}

/// A net of degree 2 along u, where each span has three controls and shares the outer two.
fn turned(
    degree: usize,
    shape: [usize; 2],
    control: impl Fn(usize, usize) -> (Point, f64),
) -> Surface {
    let mut surface = net([2, degree], shape, control);
    let inner = (1..shape[0] / 2).flat_map(|knot| [knot as f64; 2]);
    let last = (shape[0] / 2) as f64;
    surface.knots[0] = [vec![0.; 3], inner.collect(), vec![last; 3]].concat();
    surface
}

/// The circle of radius 1 as nine controls, and their weights.
fn circle() -> [([f64; 2], f64); 9] {
    let half = 0.5_f64.sqrt();
    [
        ([1., 0.], 1.),
        ([1., 1.], half),
        ([0., 1.], 1.),
        ([-1., 1.], half),
        ([-1., 0.], 1.),
        ([-1., -1.], half),
        ([0., -1.], 1.),
        ([1., -1.], half),
        ([1., 0.], 1.),
    ]
}

/// The corners of a ring of 16 equal sides, the first once more at the end.
fn ring() -> Vec<[f64; 2]> {
    let [c, s] = [0.923_879_532_511_286_7, 0.382_683_432_365_089_8];
    let turn = |&[x, y]: &[f64; 2]| Some([c * x - s * y, s * x + c * y]);
    let corners = std::iter::successors(Some([1., 0.]), turn).take(16);
    corners.chain([[1., 0.]]).collect()
}

fn bump() -> Kind {
    let surface = net([3; 2], [9; 2], |i, j| {
        let [x, y] = [i, j].map(|place| 30. * place as f64 - 120.);
        let hump = 120. / (1. + (x * x + y * y) / 1200.);
        let bump = if i % 2 == 1 && j % 2 == 1 { 50. } else { 0. };
        let weight = if hump > 60. { 2. } else { 1. };
        ([x, y, hump + bump], weight)
    });
    Kind {
        name: "bump",
        what: "bicubic 9 by 9 net, 240 by 240, a hump of weight 2 with small bumps around it",
        surface,
    }
}

fn cup() -> Kind {
    let ring = ring();
    let radii = [1., 1., 0.98, 0.93, 0.84, 0.7, 0.5, 0.22, 0.];
    let depths = [0., 0.12, 0.3, 0.48, 0.66, 0.81, 0.93, 1., 1.];
    let surface = net([3; 2], [17, 9], |i, j| {
        let [x, y] = ring[i].map(|part| part * radii[j]);
        ([60. * x, 45. * y, -70. * depths[j]], 1.)
    });
    Kind {
        name: "cup",
        what: "bicubic 17 by 9 net, a bowl 120 by 90 by 70 closed around u, its bottom one point",
        surface,
    }
}

/// A net around the ellipsoid of the cup's size, from the rim to the bottom.
fn ellipsoid(around: &[([f64; 2], f64)]) -> Surface {
    let profile = [(1., 0., 1.), (1., 1., 0.5_f64.sqrt()), (0., 1., 1.)];
    turned(2, [around.len(), 3], |i, j| {
        let ([x, y], weight) = around[i];
        let (radius, depth, down) = profile[j];
        let point = [60. * radius * x, 45. * radius * y, -70. * depth];
        (point, weight * down)
    })
}

fn coarse_cup() -> Kind {
    Kind {
        name: "coarse cup",
        what: "rational biquadratic 9 by 3 net, half an ellipsoid of the cup's size, four spans by one",
        surface: ellipsoid(&circle()),
    }
}

fn corner() -> Kind {
    Kind {
        name: "corner",
        what: "rational biquadratic 3 by 3 net, a quarter of the coarse cup, an edge of it one point",
        surface: ellipsoid(&circle()[..3]),
    }
}

fn fold() -> Kind {
    let half = 0.5_f64.sqrt();
    let lower = (0..40).map(|place| {
        let wave = if place < 20 {
            [0., 3., 0., -3.][place % 4]
        } else {
            0.
        };
        ([3.75 * place as f64, wave], 1.)
    });
    let bend = [
        ([150., 0.], 1.),
        ([156., 0.], half),
        ([156., 6.], 1.),
        ([156., 12.], half),
    ];
    let upper = [([150., 12.], 1.), ([75., 12.], 1.), ([0., 12.], 1.)];
    let profile: Vec<([f64; 2], f64)> = lower.chain(bend).chain(upper).collect();
    let surface = turned(1, [profile.len(), 2], |i, j| {
        let ([x, z], weight) = profile[i];
        ([x, 100. * j as f64, z], weight)
    });
    Kind {
        name: "fold",
        what: "rational, degree 2 by 1, 47 by 2 net, 150 by 100, a leaf in 20 spans, half of it \
             corrugated, a half circle of radius 6, a plain leaf in one span",
        surface,
    }
}

fn bellows() -> Kind {
    let circle = circle();
    let mut surface = turned(3, [9, 10], |i, j| {
        let ([x, y], weight) = circle[i];
        let radius = if j % 2 == 0 { 34. } else { 16. };
        ([radius * x, radius * y, 15. * j as f64], weight)
    });
    surface.periodic = [true, false];
    Kind {
        name: "bellows",
        what: "rational, degree 2 by 3, 9 by 10 net, a tube 135 long with five bulges, u periodic",
        surface,
    }
}

fn lid() -> Kind {
    let half = 0.5_f64.sqrt();
    let surface = net([2; 2], [3; 2], |i, j| {
        let [x, y] = [i, j].map(|place| 40. * (place as f64 - 1.));
        match (i, j) {
            (1, 1) => ([0., 0., 40.], 1.),
            (1, _) | (_, 1) => ([2. * x, 2. * y, 0.], half),
            _ => ([x, y, 0.], 1.),
        }
    });
    Kind {
        name: "lid",
        what: "rational biquadratic 3 by 3 net, a domed disc 113 wide, one span by one; at its four \
             corners on the rim the derivatives are parallel",
        surface,
    }
}
