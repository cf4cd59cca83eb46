//! The cases that TRAPS.md lists, by its numbers, and a few more from the rim.
use super::cases::row_price;
use super::ends;
use super::random::power;
use super::{Case, Inversion, Row};
use crate::calls::{Pair, Point, Search, Surface, price};
use crate::job::{Job, MOST_BYTES};
use crate::small::{Axis, KnotSide};

const MARK: Point = [0.25, 0.5, 0.75];
pub const FREE: Search = Search {
    hint: None,
    tolerance: 0.5,
    periods: [None; 2],
};
const FLAGS: [[bool; 2]; 4] = [[false, false], [true, false], [false, true], [true, true]];

pub fn hinted(u: f64, v: f64) -> Search {
    Search {
        hint: Some([u, v]),
        ..FREE
    }
}

pub fn tolerant(search: Search, tolerance: f64) -> Search {
    Search {
        tolerance,
        ..search
    }
}

pub fn shifted(search: Search, periods: [f64; 2]) -> Search {
    Search {
        periods: periods.map(Some),
        ..search
    }
}

/// The square on other knot domains.
fn on(u: [f64; 2], v: [f64; 2]) -> Surface {
    Surface {
        knots: [u, v].map(|[lo, hi]| vec![lo, lo, hi, hi]),
        ..Surface::square()
    }
}

/// A surface with its coordinates multiplied.
fn times(mut surface: Surface, x: f64, y: f64) -> Surface {
    for point in surface.controls.as_chunks_mut::<3>().0 {
        *point = [point[0] * x, point[1] * y, point[2]];
    }
    surface
}

fn flagged(surface: &Surface) -> Vec<Surface> {
    let with = |periodic| Surface {
        periodic,
        ..surface.clone()
    };
    FLAGS.map(with).to_vec()
}

/// The square 1e8 away from the origin in x, where a point is known to 2^-26 only. Its
/// larger span, multiplied by 1e-15, is 2^-26.
fn far_square() -> Surface {
    let mut surface = on([0., 1.], [0., 14_901_161.193_847_654]);
    for point in surface.controls.as_chunks_mut::<3>().0 {
        point[0] += 1e8;
    }
    surface
}

/// A parabola z = x² over x from -1 to 1, drawn along y.
pub fn parabola() -> Surface {
    let row = |x, z| [[x, 0., z], [x, 1., z]];
    Surface {
        degrees: [2, 1],
        shape: [3, 2],
        knots: [vec![0., 0., 0., 1., 1., 1.], vec![0., 0., 1., 1.]],
        controls: [row(-1., 1.), row(0., -1.), row(1., 1.)]
            .as_flattened()
            .as_flattened()
            .to_vec(),
        weights: vec![1.; 6],
        ..Surface::square()
    }
}

/// A degree 1 surface with these counts of distinct knots on a wavy net.
pub fn dense(shape: [usize; 2]) -> Surface {
    let knots = shape.map(|count| {
        let last = count - 1;
        let inner = (0..count).map(|i| i as f64 / last as f64);
        [0.].into_iter().chain(inner).chain([1.]).collect()
    });
    let height = |i: usize, j: usize| ((i * 7 + j * 5) % 11) as f64 / 8.;
    let point = |i, j| [i as f64, j as f64, height(i, j)];
    let net = (0..shape[0]).flat_map(|i| (0..shape[1]).flat_map(move |j| point(i, j)));
    Surface {
        shape,
        knots,
        controls: net.collect(),
        weights: vec![1.; shape[0] * shape[1]],
        ..Surface::square()
    }
}

fn light() -> Surface {
    let mut surface = Surface::square();
    surface.weights[0] = power(-1074);
    surface
}

/// An inversion at its price and with one unit less.
pub fn at_price(surface: &Surface, mark: Point, search: Search) -> [Case; 2] {
    let price = price(surface, mark, &search);
    [price, price.saturating_sub(1)].map(|budget| {
        Case::Invert(Inversion {
            surface: surface.clone(),
            mark,
            search,
            budget,
        })
    })
}

pub fn spline() -> Vec<Case> {
    let unit = Axis {
        degree: 1,
        controls: 2,
        knots: vec![0., 0., 1., 1.],
    };
    let ulps = [1., 3., 4., 4.5, 5.].map(|ulps| ulps * f64::EPSILON);
    let near = ulps.into_iter().flat_map(|by| [-by, 1. + by]);
    let parameters: Vec<f64> = near.chain([0., -0., 0.5, 1., f64::NAN]).collect();
    let sides = [KnotSide::Left, KnotSide::Right];
    let mut cases = Vec::new();
    for &u in &parameters {
        cases.push(Case::Snap(unit.clone(), u));
        cases.extend(sides.map(|side| Case::Span(unit.clone(), u, side)));
        cases.extend(sides.map(|side| Case::Basis(unit.clone(), u, side)));
    }
    let least = power(-1074);
    cases.extend([vec![], vec![least, 1.], vec![least, 2.]].map(Case::Weights));
    cases.extend((0..=18).map(|degree| Case::Knots(bezier(degree))));
    cases.push(Case::Knots(Axis {
        knots: vec![-1.7e308, 0., 1., 1.7e308],
        ..unit
    }));
    cases
}

pub fn bezier(degree: usize) -> Axis {
    Axis {
        degree,
        controls: degree + 1,
        knots: [vec![0.; degree + 1], vec![1.; degree + 1]].concat(),
    }
}

/// Traps 3 and 13 to 17.
pub fn surface() -> Vec<Case> {
    let mut cases: Vec<Case> = [1.25, -0.25, 1., -1e-20, 2., -0., f64::INFINITY]
        .map(|t| Case::Wrap([0., 1.], t))
        .to_vec();
    cases.push(Case::Wrap([-1e308, 7e307], 1e308));
    cases.push(Case::Wrap([0.3, 0.9], 0.3 + (0.9 - 0.3)));
    let grounds = [
        (on([-1e308, 7e307], [0., 1.]), [1e308, 0.5]),
        (on([0.3, 0.9], [0., 1.]), [0.3 + (0.9 - 0.3), 0.5]),
        (Surface::square(), [1. + 4. * f64::EPSILON, -1e-20]),
        (Surface::square(), [2., 1.25]),
        (light(), [0., 0.]),
        (on([0., power(-1074)], [0., 1.]), [0., 0.]),
        (on([0., 1.7e308], [0., 1.]), [1e308, 0.5]),
    ];
    for (surface, pair) in grounds {
        let all = flagged(&surface).into_iter();
        cases.extend(all.map(|surface| Case::Evaluate(surface, vec![pair])));
    }
    let checked = counts()
        .into_iter()
        .chain(knot_faults())
        .chain(two_faults());
    cases.extend(checked.map(|surface| Case::Evaluate(surface, vec![])));
    cases.extend(steep().map(|surface| Case::Evaluate(surface, vec![[0., 0.]])));
    let degrees = (1..=16).map(|degree| [degree, 1]).chain([[16, 16], [3, 9]]);
    cases.extend(degrees.map(|degrees| Case::Evaluate(saddle(degrees), all_along())));
    cases
}

/// Counts at 01's limits, and a weight that its quotient loses.
fn counts() -> [Surface; 9] {
    let shaped = |shape| Surface {
        shape,
        ..Surface::square()
    };
    let bare = |surface| Surface {
        weights: Vec::new(),
        ..surface
    };
    let empty = |surface| Surface {
        controls: Vec::new(),
        ..bare(surface)
    };
    let knots = |count| Surface {
        knots: [vec![0.; count], vec![0.; 4]],
        ..Surface::square()
    };
    let mut lost = light();
    lost.weights[3] = 2.;
    [
        bare(Surface::square()),
        empty(shaped([200_000, 0])),
        shaped([100_000, 1]),
        shaped([100_001, 1]),
        shaped([1 << 32; 2]),
        shaped([usize::MAX, 2]),
        knots(100_030),
        knots(100_031),
        lost,
    ]
}

/// A fault for each of the numbers 1 to 6, those of an axis for u and for v.
pub const FAULTS: [fn(&mut Surface); 8] = [
    |surface| surface.shape = [1 << 32; 2],
    |surface| surface.weights.push(1.),
    |surface| surface.controls[4] = f64::NAN,
    |surface| surface.weights[1] = 0.,
    |surface| surface.degrees[0] = 17,
    |surface| surface.knots[0].reverse(),
    |surface| surface.degrees[1] = 0,
    |surface| surface.knots[1][0] = f64::NAN,
];

pub fn with_faults(faults: &[fn(&mut Surface)]) -> Surface {
    let mut surface = Surface::square();
    faults.iter().for_each(|fault| fault(&mut surface));
    surface
}

/// Each fault beside each, for the order of the checks.
fn two_faults() -> impl Iterator<Item = Surface> {
    let beside = |a| FAULTS.map(|b| with_faults(&[a, b]));
    FAULTS.into_iter().flat_map(beside)
}

/// A knot repeated too often, a range that overflows outside the domain, and an empty
/// domain.
fn knot_faults() -> [Surface; 3] {
    let repeated = Surface {
        shape: [5, 2],
        knots: [vec![0., 0., 0.5, 0.5, 0.5, 1., 1.], vec![0., 0., 1., 1.]],
        controls: vec![0.; 30],
        weights: vec![1.; 10],
        ..Surface::square()
    };
    let [wide, empty] = [[-1.7e308, 0., 1., 1.7e308], [0., 1., 1., 2.]].map(|knots| Surface {
        knots: [vec![0., 0., 1., 1.], knots.to_vec()],
        ..Surface::square()
    });
    [repeated, wide, empty]
}

/// Surfaces of which one second derivative alone overflows: of u, of both, of v.
fn steep() -> [Surface; 3] {
    let narrow = [
        ([2, 1], [1e-5, 1.]),
        ([1, 1], [1e-5, 1e-5]),
        ([1, 2], [1., 1e-5]),
    ];
    narrow.map(|(degrees, widths)| {
        let mut surface = saddle(degrees);
        for (knots, width) in surface.knots.iter_mut().zip(widths) {
            knots.iter_mut().for_each(|knot| *knot *= width);
        }
        surface.controls.iter_mut().for_each(|x| *x *= 1e300);
        surface.weights.fill(1.);
        surface
    })
}

/// A wavy Bezier surface of the given degrees.
fn saddle(degrees: [usize; 2]) -> Surface {
    let [nu, nv] = degrees.map(|degree| degree + 1);
    let point = |n: usize| {
        let (i, j) = (n / nv, n % nv);
        [i as f64, j as f64, (i % 3 * j) as f64]
    };
    Surface {
        degrees,
        shape: [nu, nv],
        knots: degrees.map(|degree| bezier(degree).knots),
        controls: (0..nu * nv).flat_map(point).collect(),
        weights: (0..nu * nv).map(|n| 1. + (n % 3) as f64).collect(),
        ..Surface::square()
    }
}

fn all_along() -> Vec<Pair> {
    [0., 0.25, 0.3, 0.5, 0.9, 1.].map(|t| [t, 1. - t]).to_vec()
}

/// Traps 1 to 12, 15, 16 and 19, on all four pairs of flags, and 22 to 25.
pub fn inversion() -> Vec<Case> {
    let square = Surface::square;
    let tenfold = || times(square(), 10., 10.);
    let dot_on = |u| times(on(u, [0., 1.]), 0., 0.);
    let signed = || on([-0., 1.], [-1., -0.]);
    let edge = 1.7e308;
    let turned = shifted(tolerant(hinted(5.25, -3.5), 1.), [1., 1.]);
    let to_infinity = shifted(tolerant(hinted(0.5, 0.5), 1.), [power(-1074), 0.3]);
    let inputs = [
        // The cases of 01, and 19.
        (square(), MARK, FREE),
        (square(), MARK, tolerant(hinted(0.25, 0.5), 0.75)),
        (square(), MARK, hinted(0.25, 0.5)),
        (square(), MARK, tolerant(hinted(0.5, 0.5), 0.75)),
        (square(), MARK, tolerant(FREE, -0.)),
        (Surface::dot(), [3., 4., 0.], FREE),
        (Surface::dot(), [3., 4., 0.], hinted(0.75, 0.25)),
        // 1, 2 and 5.
        (tenfold(), [1e308, 0., 0.], FREE),
        (tenfold(), [1e306, 0., 0.], FREE),
        (tenfold(), [1e306, 0., 0.], hinted(0.5, 0.5)),
        // 3.
        (on([-1e308, 7e307], [0., 1.]), MARK, hinted(1e308, 0.5)),
        // 4, beyond and within the reach of a grid.
        (
            dot_on([1e308, edge]),
            MARK,
            tolerant(hinted(1.2e308, 0.5), f64::MAX),
        ),
        (dot_on([edge, edge + 8. * power(972)]), MARK, FREE),
        // 6 and 7.
        (signed(), [0., 1., 0.], FREE),
        (signed(), [-1., 2., 0.], hinted(-0., -0.)),
        (signed(), [0., 0., 0.], tolerant(hinted(0., 0.), 1.)),
        (square(), [0., 0.25, 0.], hinted(-0., 0.75)),
        (square(), [0.25, 0., 0.], hinted(0.75, -0.)),
        // 11 and 12.
        (square(), [1.25, 0.5, 0.], hinted(1.25, 0.5)),
        (square(), [0.25, 0.5, 0.], hinted(1.25, -0.5)),
        (square(), MARK, turned),
        (square(), MARK, to_infinity),
        // 9: the determinant at its bound, above it, and a bound that only overflows
        // when it is put together another way.
        (times(square(), 1., 1e-12), [0.3, 1e-12, 0.], FREE),
        (times(square(), 1., 1.1e-12), [0.3, 1e-12, 0.], FREE),
        (
            times(square(), power(265), power(233)),
            [power(263), power(231), 0.],
            FREE,
        ),
        // 10: a move of just the span times 1e-15, and runs of 33 evaluations.
        (
            far_square(),
            [1e8 + 0.3, 0.5, 0.],
            tolerant(hinted(0., 7_450_580.596_923_827), 10.),
        ),
        (parabola(), [0.01, 0.5, 0.47], FREE),
        (parabola(), [0.01, 0.5, 0.49], hinted(0.6, 0.5)),
        // 15, 16 and the overflow of 9.
        (light(), MARK, FREE),
        (on([0., power(-1074)], [0., 1.]), MARK, FREE),
        (on([0., 1.], [0., 1.7e308]), MARK, FREE),
    ];
    let mut cases = Vec::new();
    for (surface, mark, search) in inputs {
        for surface in flagged(&surface) {
            cases.extend(at_price(&surface, mark, search));
        }
    }
    for mark in [MARK, [0., f64::NAN, 0.]] {
        let faulty = FAULTS.map(|fault| with_faults(&[fault]));
        cases.extend(
            faulty
                .iter()
                .flat_map(|surface| at_price(surface, mark, FREE)),
        );
    }
    for surface in steep() {
        cases.extend(at_price(&surface, MARK, hinted(0., 0.)));
    }
    cases.extend(dense_inversions());
    cases.extend(ends::cases());
    cases
}

/// Counts of distinct knots about the steps of the grid's thinning.
fn dense_inversions() -> Vec<Case> {
    let one_axis = [23, 24, 25, 47, 48, 49, 72, 73, 96, 97].map(|count| dense([count, 2]));
    let both = [dense([2, 48]), dense([24, 24])];
    let mark = [1.5, 0.75, 0.25];
    let at = |surface: &Surface| at_price(surface, mark, FREE);
    let full = at_price(&dense([48, 48]), mark, tolerant(hinted(0.7, 0.2), 0.));
    one_axis
        .iter()
        .chain(&both)
        .flat_map(at)
        .chain(full)
        .collect()
}

/// Traps 13 and 19 to 21.
pub fn calls() -> Vec<Case> {
    let axes = [[0.; 3], [1., 0., 0.], [0., 1., 0.]];
    let huge = [[0.; 3], [f64::MAX; 3], [f64::MAX, -f64::MAX, 0.]];
    let mut cases = vec![
        Case::Plane(axes, MARK, 1),
        Case::Plane(axes, MARK, 0),
        Case::Plane(axes, MARK, u64::MAX),
        Case::Plane(huge, [2.; 3], 1),
        Case::Plane([[-f64::MAX; 3], axes[1], axes[2]], [f64::MAX; 3], 1),
    ];
    let vectors = [[3., 5., 7.], [f64::MAX, -f64::MAX, 0.], [-0., 0., -0.]];
    for surface in [
        Surface::square(),
        Surface::dot(),
        times(Surface::square(), 1., 1e-12),
    ] {
        for vector in vectors {
            for u in [0.25, f64::NAN, 1. + 4. * f64::EPSILON, 2.] {
                cases.push(Case::Derivative(surface.clone(), [u, 0.5], vector, 1));
            }
        }
    }
    let rounding = on([0.3, 0.9], [0.3, 0.9]);
    let wide = times(on([0., 1.7e308], [0., 1.]), 0., 0.);
    for surface in [Surface::square(), Surface::dot(), rounding, wide] {
        for surface in flagged(&surface) {
            let tolerances = [0., -0., 0.5, 0.5_f64.next_down(), 1., -1.];
            cases.extend(tolerances.map(|tolerance| Case::Singular(surface.clone(), tolerance)));
        }
    }
    cases
}

pub fn row() -> Vec<Case> {
    let marks =
        |count: usize| [MARK, [1.25, 0.75, 0.5], [0.5, -0.25, 0.]].concat()[..3 * count].to_vec();
    let inputs = [
        (marks(2), FREE),
        (marks(3), shifted(hinted(2.5, -1.5), [1., 0.5])),
        (
            marks(3),
            shifted(tolerant(hinted(0.5, 0.5), 2.), [power(-1074), 1.]),
        ),
        (marks(0), FREE),
        (marks(0), tolerant(FREE, f64::NAN)),
        ([marks(2), vec![f64::NAN, 0., 0.], marks(1)].concat(), FREE),
        (vec![0.5; 3 * 64], tolerant(FREE, 0.)),
    ];
    let square = Surface::square();
    let at = |(marks, search): &(Vec<f64>, Search)| row_at_price(&square, marks, *search);
    let mut cases: Vec<Case> = inputs.iter().flat_map(at).collect();
    cases.extend(row_orders());
    cases
}

/// A row at its price and with one unit less, on all four pairs of flags.
pub fn row_at_price(surface: &Surface, marks: &[f64], search: Search) -> Vec<Case> {
    let mut cases = Vec::new();
    for surface in flagged(surface) {
        let price = row_price(&surface, marks, &search);
        for budget in [price, price.saturating_sub(1)] {
            cases.push(Case::Row(Row {
                surface: surface.clone(),
                marks: marks.to_vec(),
                search,
                budget,
                answers: vec![7.; marks.len() / 3 * 2 + 1],
                ends: bytes(marks.len() / 3 * 2 + 1),
            }));
        }
    }
    cases
}

/// Faults of the surface, the search, the marks and the buffers, one beside the other.
fn row_orders() -> Vec<Case> {
    let mut cases = Vec::new();
    for surface in [Surface::square(), with_faults(&FAULTS[4..5])] {
        for tolerance in [0.5, f64::INFINITY] {
            // Counts of the marks' numbers, the answers and the bytes.
            let with_enough_bytes = [(3, 2), (3, 1), (4, 4), (0, 0), (5, 1), (6, 3)];
            let with_enough_bytes = with_enough_bytes.map(|(marks, answers)| (marks, answers, 4));
            let others = [
                (3, 2, 1),
                (3, 2, 0),
                (6, 4, 3),
                (4, 4, 1),
                (6, 3, 2),
                (0, 0, 0),
            ];
            for (marks, answers, ends) in [with_enough_bytes, others].concat() {
                cases.push(Case::Row(Row {
                    surface: surface.clone(),
                    marks: vec![0.5; marks],
                    search: tolerant(FREE, tolerance),
                    budget: 1000,
                    answers: vec![7.; answers],
                    ends: bytes(ends),
                }));
            }
        }
    }
    cases
}

/// Bytes that no end and no origin is, each another.
fn bytes(count: usize) -> Vec<u8> {
    (0..count).map(|place| 255 - place as u8).collect()
}

/// Trap 18, and the job of 01.
pub fn job() -> Vec<Case> {
    let job = |count| Job {
        surface: Surface::square(),
        tolerance: 0.5,
        budget: 1000,
        marks: [MARK].repeat(count).concat(),
    };
    let file = job(2).write();
    let mut files: Vec<Vec<u8>> = (0..file.len())
        .step_by(3)
        .map(|n| file[..n].to_vec())
        .collect();
    files.extend(
        (0..MOST_BYTES / 26)
            .step_by(400)
            .map(|count| job(count).write()),
    );
    files.push(full());
    files.extend([0, 1].map(|more| [full(), vec![0; more + 1]].concat()));
    let mut high = file.clone();
    high[2] = 255;
    high.splice(9..9, [0; 8 * 254]);
    files.extend([file, high]);
    files.into_iter().map(Case::Job).collect()
}

/// A well-formed file of 32,767 bytes, the most there can be.
fn full() -> Vec<u8> {
    let sizes = (1..16).map(|degree| {
        let mut job = Job {
            surface: saddle([degree, 1]),
            tolerance: 0.5,
            budget: 0,
            marks: Vec::new(),
        };
        let room = MOST_BYTES - 1 - job.write().len();
        job.marks = vec![0.5; room / 26 * 3];
        job.write()
    });
    sizes
        .max_by_key(Vec::len)
        .expect("there are fifteen degrees")
}
