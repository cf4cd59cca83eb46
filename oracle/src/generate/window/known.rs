//! Windows by hand: accepted ones, those that are refused for each cause, ends of either zero, and
//! breaks about the steps of the thinning.
use crate::calls::{Point, Surface, Window};
use crate::generate::arguments::Ground;
use crate::generate::traps::{
    FAULTS, FREE, at_price, dense, hinted, parabola, row_at_price, tolerant, with_faults,
};
use crate::generate::{Case, Row};
use crate::job::Job;

const MARK: Point = [0.25, 0.5, 0.75];
const UNIT: [f64; 2] = [0., 1.];
/// Of the square, left and right of it there is more.
const STRIP: Window = [[0.25, 0.75], UNIT];

/// The square in each window that is refused there, for u and for v.
fn refused() -> Vec<Surface> {
    let beyond = [[0_f64.next_down(), 1.], [0., 1_f64.next_up()], [-1., 2.]];
    let flat = [[0.5; 2], [0., -0.], [-0., 0.], [0.75, 0.25], [1., 0.]];
    let lost = [f64::NAN, f64::INFINITY, f64::NEG_INFINITY];
    let lost = lost.into_iter().flat_map(|x| [[x, 1.], [0., x], [x; 2]]);
    let narrower = [[0.25, 0.75], [0_f64.next_up(), 1.], [0., 1_f64.next_down()]];
    let open = beyond.into_iter().chain(flat).chain(lost);
    let all = open.map(|ends| (ends, false));
    let all = all.chain(narrower.map(|ends| (ends, true)));
    let on_axes = |(ends, periodic)| {
        let u = Surface {
            periodic: [periodic, false],
            ..Surface::square().within([ends, UNIT])
        };
        let v = Surface {
            periodic: [false, periodic],
            ..Surface::square().within([UNIT, ends])
        };
        [u, v]
    };
    let mut surfaces: Vec<Surface> = all.flat_map(on_axes).collect();
    surfaces.push(Surface::square().within([[0.75, 0.25], [f64::NAN; 2]]));
    surfaces
}

/// The square in windows that are accepted.
fn accepted() -> Vec<Surface> {
    let open = [
        [UNIT, UNIT],
        [[-0., 1.], UNIT],
        [UNIT, [-0., 1.]],
        STRIP,
        [UNIT, [0.25, 0.75]],
        [[0.5, 0.5_f64.next_up()], [0., 0_f64.next_up()]],
        [[0_f64.next_up(), 1_f64.next_down()], UNIT],
    ];
    let open = open.map(|window| Surface::square().within(window));
    let with_flags = open[..3].iter().flat_map(|surface| {
        [[true, false], [false, true], [true; 2]].map(|periodic| Surface {
            periodic,
            ..surface.clone()
        })
    });
    let beside = Surface {
        periodic: [false, true],
        ..open[3].clone()
    };
    let with_flags: Vec<Surface> = with_flags.chain([beside]).collect();
    [open.to_vec(), with_flags].concat()
}

/// Each other fault of a surface beside a window that is refused.
fn at_two_faults() -> Vec<Surface> {
    let window = [[0.75, 0.25], UNIT];
    FAULTS
        .map(|fault| with_faults(&[fault]).within(window))
        .to_vec()
}

pub fn evaluations() -> Vec<Case> {
    let all = [refused(), accepted(), at_two_faults()].concat();
    // The second pair lies outside of most windows.
    let pairs = |surface: &Surface| match Ground::new(surface.clone()).shell {
        Some(_) => vec![[0.5, 0.5], [0.125, 0.875], [1. + 1e-16, -0.]],
        None => Vec::new(),
    };
    let case = |surface: Surface| Case::Evaluate(surface.clone(), pairs(&surface));
    all.into_iter().map(case).collect()
}

pub fn inversions() -> Vec<Case> {
    let mut cases = Vec::new();
    let searches = [
        FREE,
        hinted(0., 0.5),
        tolerant(hinted(-1., 0.5), 1.),
        tolerant(hinted(0.5, 2.), 1.),
        tolerant(hinted(-0., -0.), 0.25),
    ];
    let marks = [[0., 0.5, 0.], [1., 1., 0.5], [-1., 0.5, 0.]];
    for surface in &accepted() {
        for mark in marks {
            for search in searches {
                let [at, _] = at_price(surface, mark, search);
                cases.push(at);
            }
        }
    }
    let faults = [
        ([0., f64::NAN, 0.], FREE),
        (MARK, tolerant(FREE, -1.)),
        (MARK, hinted(f64::NAN, 0.)),
    ];
    for surface in at_two_faults().iter().chain(refused().iter().step_by(5)) {
        cases.push(at_price(surface, MARK, FREE)[0].clone());
        let beside = faults.iter();
        cases.extend(beside.map(|&(mark, search)| at_price(surface, mark, search)[0].clone()));
    }
    for surface in zero_ends() {
        for mark in AT_ZERO {
            let searches = [FREE, tolerant(hinted(3., 0.5), f64::MAX)];
            cases.extend(searches.map(|search| at_price(&surface, mark, search)[0].clone()));
        }
    }
    cases.extend(dense_inversions());
    // Centre and span are the window's.
    for window in [STRIP, [[0.25, 0.25_f64.next_up()], UNIT]] {
        cases.extend(at_price(&Surface::dot().within(window), MARK, FREE));
        cases.extend(at_price(
            &parabola().within(window),
            [0.01, 0.5, 0.47],
            FREE,
        ));
    }
    cases
}

/// Marks whose nearest points are at the upper end of the windows below.
const AT_ZERO: [Point; 4] = [
    [1., 0., 0.],
    [1., 0.25, 0.],
    [2., 0.5, 0.25],
    [1.125, 0.7, 1.],
];

/// Surfaces on which the point at (u, v) is (u + 1, v, 0), in windows that end with a zero in u: the
/// domain's end or a knot inside, of the other sign or of the same.
fn zero_ends() -> Vec<Surface> {
    let mut surfaces = Vec::new();
    for zero in [0., -0.] {
        for end in [0., -0.] {
            let mut at_end = Surface::square().within([[-1., end], UNIT]);
            at_end.knots[0] = vec![-1., -1., zero, zero];
            let row = |x| [[x, 0., 0.], [x, 1., 0.]];
            let inside = Surface {
                shape: [3, 2],
                knots: [vec![-1., -1., zero, 1., 1.], vec![0., 0., 1., 1.]],
                controls: [row(0.), row(1.), row(2.)].concat().concat(),
                weights: vec![1.; 6],
                ..Surface::square().within([[-1., end], UNIT])
            };
            surfaces.extend([at_end, inside]);
        }
    }
    surfaces
}

/// Windows of so many breaks on axes of 50 and 97 knots, about the steps of the thinning.
fn dense_inversions() -> Vec<Case> {
    let mut cases = Vec::new();
    for breaks in [2, 3, 23, 24, 25, 26, 47, 48, 49] {
        cases.push(dense_inversion([50, 2], breaks, 1., [0., 0.]));
        cases.push(dense_inversion([50, 2], breaks, 0., [0.25, -0.5]));
    }
    for breaks in [24, 25, 49] {
        cases.push(dense_inversion([2, 50], breaks, 1., [0.25, 0.]));
    }
    for breaks in [48, 49, 72, 73] {
        cases.push(dense_inversion([97, 2], breaks, 5., [0., -0.25]));
    }
    cases
}

/// The window's ends on the longer axis are the knots of these places, moved by parts of a span.
fn dense_inversion(shape: [usize; 2], breaks: usize, first: f64, moved: [f64; 2]) -> Case {
    let long = usize::from(shape[0] < shape[1]);
    let spans = shape[long] as f64 - 1.;
    let last = first + breaks as f64 - 1.;
    let mut window = [UNIT; 2];
    window[long] = [first + moved[0], last + moved[1]].map(|at| at / spans);
    let mut mark = [0.5, 0.5, 0.75];
    mark[long] = first + 0.6 * (last - first);
    let [at, _] = at_price(&dense(shape).within(window), mark, FREE);
    at
}

pub fn calls() -> Vec<Case> {
    let mut cases = Vec::new();
    let outside = [0.125, 0.5];
    for surface in [refused(), accepted(), at_two_faults()].concat() {
        for vector in [[3., 5., 7.], [f64::NAN, 0., 0.]] {
            cases.push(Case::Derivative(surface.clone(), outside, vector, 1));
        }
        cases.extend([0.5, -1.].map(|tolerance| Case::Singular(surface.clone(), tolerance)));
    }
    cases
}

pub fn rows() -> Vec<Case> {
    let marks = [MARK, [0., 0.5, 0.], [1.25, 0.75, 0.5]].concat();
    let strip = Surface::square().within(STRIP);
    let searches = [FREE, tolerant(hinted(0., 0.), 1.)];
    let mut cases: Vec<Case> = searches
        .iter()
        .flat_map(|&search| row_at_price(&strip, &marks, search))
        .collect();
    for surface in zero_ends() {
        let marks = AT_ZERO.as_flattened();
        cases.push(row_at_price(&surface, marks, FREE)[0].clone());
    }
    // Counts of the marks' numbers, the answers and the bytes.
    let counts = [(6, 4, 4), (6, 3, 4), (6, 4, 3), (4, 4, 4), (0, 0, 0)];
    for surface in refused().into_iter().step_by(7) {
        for (count, answers, ends) in counts {
            for tolerance in [0.5, f64::NAN] {
                cases.push(Case::Row(Row {
                    surface: surface.clone(),
                    marks: vec![0.5; count],
                    search: tolerant(FREE, tolerance),
                    budget: 1000,
                    answers: vec![7.; answers],
                    ends: vec![7; ends],
                }));
            }
        }
    }
    cases
}

/// Windows in files: with each pair of flags, refused, cut off, and flags of 8 and more.
pub fn jobs() -> Vec<Case> {
    let marks = [MARK, MARK, AT_ZERO[1]].concat();
    let job = |surface: &Surface, tolerance| {
        let job = Job {
            surface: surface.clone(),
            tolerance,
            budget: 1000,
            marks: marks.clone(),
        };
        job.write()
    };
    let surfaces = [refused(), accepted(), zero_ends()].concat();
    let mut files: Vec<Vec<u8>> = surfaces.iter().map(|surface| job(surface, 0.5)).collect();
    files.extend(refused().iter().map(|surface| job(surface, -1.)));
    let file = job(&Surface::square().within(STRIP), 0.5);
    files.extend((195..file.len()).step_by(9).map(|n| file[..n].to_vec()));
    for flags in [0, 3, 5, 6, 7, 8, 12, 132, 255] {
        let mut other = file.clone();
        other[8] = flags;
        files.push(other);
    }
    files.into_iter().map(Case::Job).collect()
}
