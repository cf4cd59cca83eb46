//! The figures of document 01 and of TRAPS.md that the source can answer, and figures of windows,
//! worked out by hand.
use crate::calls::{
    Pair, Placed, Point, Search, Surface, Window, derivative, evaluate, invert, nurbs_singular,
    price,
};
use crate::generate::ends::{Known, known};
use crate::generate::lead;
use crate::job::{Job, print};
use crate::refusals::Refusal;
use crate::row::{row, walk};
use crate::small::{Axis, KnotSide, basis, knots, nearest, snap, span, weights, wrap};
use std::fmt::Debug;

/// One figure: what the paper says of an input, and what the source gives.
pub struct Figure {
    pub what: &'static str,
    pub expected: String,
    pub found: String,
}
impl Figure {
    pub fn confirmed(&self) -> bool {
        self.expected == self.found
    }
}

/// Floats are compared as they print, which tells -0 from 0.
fn figure<T: Debug>(what: &'static str, found: T, expected: T) -> Figure {
    Figure {
        what,
        expected: format!("{expected:?}"),
        found: format!("{found:?}"),
    }
}

pub fn all() -> Vec<Figure> {
    let parts = [
        splines(),
        surfaces(),
        checks(),
        inversions(),
        grids(),
        derivatives(),
        edges(),
        shifts(),
        rows_and_jobs(),
        traps(),
        ends(),
        rows(),
        windows(),
        window_checks(),
        window_zeros(),
    ];
    parts.into_iter().flatten().collect()
}

const LEAST: f64 = f64::from_bits(1);
const BELOW_HALF: f64 = 0.499_999_999_999_999_94;
const MARK: Point = [0.25, 0.5, 0.75];
const FREE: Search = Search {
    hint: None,
    tolerance: 0.5,
    periods: [None; 2],
};

fn hinted(hint: Pair, tolerance: f64) -> Search {
    Search {
        hint: Some(hint),
        tolerance,
        ..FREE
    }
}

fn axis(degree: usize, controls: usize, knots: &[f64]) -> Axis {
    Axis {
        degree,
        controls,
        knots: knots.to_vec(),
    }
}

/// A knot vector of one Bezier span.
fn bezier(degree: usize) -> Axis {
    let knots = [vec![0.; degree + 1], vec![1.; degree + 1]].concat();
    axis(degree, degree + 1, &knots)
}

fn splines() -> Vec<Figure> {
    let quadratic = bezier(2);
    let rows = basis(&quadratic, 0.5, KnotSide::Right).map(|basis| basis.rows);
    let [low, high] = [0.5, 1.].map(|u| span(&bezier(2), u, KnotSide::Right));
    vec![
        figure("no weights", weights(&[]), Err(Refusal::Weights)),
        figure("weights 2^-1074 and 1", weights(&[LEAST, 1.]), Ok(1.)),
        figure(
            "weights 2^-1074 and 2",
            weights(&[LEAST, 2.]),
            Err(Refusal::Weights),
        ),
        figure("degree 16", knots(&bezier(16)), Ok([0., 1.])),
        figure("degree 0", knots(&bezier(0)), Err(Refusal::Degree)),
        figure("degree 17", knots(&bezier(17)), Err(Refusal::Degree)),
        figure(
            "degree 1, an inner knot twice",
            knots(&axis(1, 4, &[0., 0., 0.5, 0.5, 1., 1.])),
            Ok([0., 1.]),
        ),
        figure(
            "degree 1, an inner knot three times",
            knots(&axis(1, 5, &[0., 0., 0.5, 0.5, 0.5, 1., 1.])),
            Err(Refusal::Knots),
        ),
        figure(
            "degree 2, knots 0 0 0 1 1 1, u = 0.5",
            rows,
            Ok([vec![0.25, 0.5, 0.25], vec![-1., 0., 1.], vec![2., -4., 2.]]),
        ),
        figure("snap at the upper end", snap(&quadratic, 1.), Ok(1.)),
        figure("span inside and at the upper end", [low, high], [Ok(2); 2]),
    ]
}

fn surfaces() -> Vec<Figure> {
    let wrapped = [1.25, -0.25, 1., -1e-20, 2.].map(|t| wrap([0., 1.], t));
    let [divided_twice, expected] = weight_divisions();
    vec![
        figure(
            "periodic, domain 0 to 1: 1.25, -0.25, 1, -1e-20, 2",
            wrapped,
            [0.25, 0.75, 1., 1., 0.].map(Ok),
        ),
        figure(
            "a weight is divided by the largest of all, then by the largest in its patch",
            divided_twice,
            expected,
        ),
        figure(
            "an overflow in a second derivative alone refuses the evaluation",
            evaluate(&narrow(2), [0., 0.]),
            Err(Refusal::Evaluation),
        ),
        figure(
            "the same domain without a second derivative",
            evaluate(&narrow(1), [0., 0.]).map(|jet| jet.point),
            Ok([0.; 3]),
        ),
    ]
}

/// The x of a rational point, by the source and by two divisions of each weight. One
/// division would give another x.
fn weight_divisions() -> [f64; 2] {
    let column = [0.1, 0.3, 2.1];
    let surface = Surface {
        shape: [3, 2],
        knots: [vec![0., 0., 1., 2., 2.], vec![0., 0., 1., 1.]],
        controls: [0., 0., 1., 1., 0., 0.]
            .iter()
            .flat_map(|&x| [x, 0., 0.])
            .collect(),
        weights: column.iter().flat_map(|&w| [w; 2]).collect(),
        ..Surface::square()
    };
    let x = |first: f64, second: f64| 0.5 * second / (0.5 * first + 0.5 * second);
    let twice = |w: f64| w / column[2] / (column[1] / column[2]);
    let once = |w: f64| w / column[1];
    let expected = x(twice(column[0]), twice(column[1]));
    assert_ne!(expected, x(once(column[0]), once(column[1])));
    let found = evaluate(&surface, [0.5, 0.]).map_or(f64::NAN, |jet| jet.point[0]);
    [found, expected]
}

/// A dot whose u axis has a domain of 1e-160.
fn narrow(degree: usize) -> Surface {
    let knots = bezier(degree).knots.iter().map(|k| k * 1e-160).collect();
    Surface {
        degrees: [degree, 1],
        shape: [degree + 1, 2],
        knots: [knots, vec![0., 0., 1., 1.]],
        controls: vec![0.; 6 * (degree + 1)],
        weights: vec![1.; 2 * (degree + 1)],
        ..Surface::square()
    }
}

fn checks() -> Vec<Figure> {
    let refusal = |surface: &Surface| evaluate(surface, [0.5; 2]).err();
    let square = Surface::square;
    let shaped = |shape| Surface { shape, ..square() };
    let empty = |shape| Surface {
        controls: Vec::new(),
        weights: Vec::new(),
        ..shaped(shape)
    };
    let many_knots = |count| Surface {
        knots: [vec![0.; count], vec![0.; 4]],
        ..square()
    };
    let unweighted = Surface {
        weights: Vec::new(),
        ..square()
    };
    let mut infinite = square();
    infinite.controls[7] = f64::INFINITY;
    infinite.weights[0] = -1.;
    let mut sparse = square();
    sparse.controls.pop();
    vec![
        figure(
            "shape (200000, 0), nothing lent",
            refusal(&empty([200_000, 0])),
            Some(Refusal::Weights),
        ),
        figure(
            "shape (100001, 1)",
            refusal(&shaped([100_001, 1])),
            Some(Refusal::Counts),
        ),
        figure(
            "shape (100000, 1)",
            refusal(&shaped([100_000, 1])),
            Some(Refusal::Controls),
        ),
        figure(
            "shape (2^32, 2^32)",
            refusal(&shaped([1 << 32; 2])),
            Some(Refusal::Counts),
        ),
        figure(
            "100,035 knots in both axes",
            refusal(&many_knots(100_031)),
            Some(Refusal::Counts),
        ),
        figure(
            "100,034 knots in both axes",
            refusal(&many_knots(100_030)),
            Some(Refusal::Knots),
        ),
        figure(
            "controls and no weights",
            refusal(&unweighted),
            Some(Refusal::Controls),
        ),
        figure(
            "eleven coordinates for four controls",
            refusal(&sparse),
            Some(Refusal::Controls),
        ),
        figure(
            "an infinite coordinate and a weight below 0",
            refusal(&infinite),
            Some(Refusal::Coordinate),
        ),
    ]
}

/// Outcome and price.
fn priced(surface: &Surface, mark: Point, search: &Search) -> (Result<Pair, Refusal>, u64) {
    let answer = invert(surface, mark, search, u64::MAX).answer;
    (
        answer.map(|placed| placed.pair),
        price(surface, mark, search),
    )
}

fn inversions() -> Vec<Figure> {
    let square = Surface::square();
    let here = [0.25, 0.5];
    let short = invert(&square, MARK, &FREE, 91);
    let enough = invert(&square, MARK, &FREE, 92);
    vec![
        figure(
            "square, no hint",
            priced(&square, MARK, &FREE),
            (Ok(here), 92),
        ),
        figure(
            "square, no hint, budget 91",
            (short.answer, short.left),
            (Err(Refusal::Units), 0),
        ),
        figure(
            "square, no hint, budget 92",
            (enough.answer.map(|placed| placed.pair), enough.left),
            (Ok(here), 0),
        ),
        figure(
            "square, hint (0.25, 0.5), tolerance 0.75",
            priced(&square, MARK, &hinted(here, 0.75)),
            (Ok(here), 1),
        ),
        figure(
            "square, hint (0.25, 0.5), tolerance 0.5",
            priced(&square, MARK, &hinted(here, 0.5)),
            (Ok(here), 94),
        ),
        figure(
            "square, hint (0.5, 0.5), tolerance 0.75",
            priced(&square, MARK, &hinted([0.5; 2], 0.75)),
            (Ok(here), 2),
        ),
        figure(
            "dot, mark (3, 4, 0), no hint",
            priced(&Surface::dot(), [3., 4., 0.], &FREE),
            (Ok([0.000_000_5; 2]), 83),
        ),
        figure(
            "knots 0 0 1.7e308 1.7e308 in v",
            priced(&knots_in_v([0., 1.7e308]), MARK, &FREE),
            (Err(Refusal::Evaluation), 3),
        ),
        figure(
            "roots of 2^-1074, 0 and infinity",
            [LEAST, 0., f64::INFINITY].map(f64::sqrt),
            [f64::from_bits((1023 - 537) << 52), 0., f64::INFINITY],
        ),
    ]
}

fn knots_in_v([lo, hi]: [f64; 2]) -> Surface {
    let [u, _] = Surface::square().knots;
    Surface {
        knots: [u, vec![lo, lo, hi, hi]],
        ..Surface::square()
    }
}

/// A dot with the given counts of distinct knots: one start, whose run takes two units.
fn dense_dot(distinct: [usize; 2]) -> Surface {
    let knots = distinct.map(|count| {
        let inner = (0..count).map(|i| i as f64);
        let last = count as f64 - 1.;
        [0.].into_iter().chain(inner).chain([last]).collect()
    });
    Surface {
        shape: distinct,
        knots,
        controls: vec![0.; 3 * distinct[0] * distinct[1]],
        weights: vec![1.; distinct[0] * distinct[1]],
        ..Surface::square()
    }
}

fn grids() -> Vec<Figure> {
    let points = |distinct| price(&dense_dot(distinct), [3., 4., 0.], &FREE) - 2;
    vec![
        figure("grid points for 2 by 2", points([2; 2]), 81),
        figure(
            "grid values for 24, 25, 47, 48 distinct knots",
            [24, 25, 47, 48].map(|count| points([count, 2]) / 9),
            [185, 97, 185, 193],
        ),
        figure("grid points for 48 by 48", points([48; 2]), 37_249),
    ]
}

fn derivatives() -> Vec<Figure> {
    let at = |surface, uv, budget| {
        let spent = derivative(surface, uv, [3., 5., 7.], budget);
        (spent.answer, spent.left)
    };
    let (square, dot, nan) = (&Surface::square(), &Surface::dot(), f64::NAN);
    vec![
        figure(
            "derivative on the square",
            at(square, [0.25, 0.5], 1),
            (Ok([3., 5.]), 0),
        ),
        figure(
            "derivative on the dot",
            at(dot, [0.25, 0.5], 5),
            (Err(Refusal::Singular), 4),
        ),
        figure(
            "derivative, no unit",
            at(dot, [0.25, 0.5], 0),
            (Err(Refusal::Units), 0),
        ),
        figure(
            "derivative at a NaN pair",
            at(square, [nan; 2], 5),
            (Err(Refusal::Evaluation), 4),
        ),
    ]
}

fn edges() -> Vec<Figure> {
    let count = |surface, tolerance| nurbs_singular(surface, tolerance).map(|edges| edges.len());
    vec![
        figure(
            "edges of the square at 0.5",
            count(&Surface::square(), 0.5),
            Ok(4),
        ),
        figure(
            "edges of the square just below",
            count(&Surface::square(), BELOW_HALF),
            Ok(0),
        ),
        figure("edges of the dot at 0", count(&Surface::dot(), 0.), Ok(4)),
        figure("edges of the dot at -0", count(&Surface::dot(), -0.), Ok(4)),
        figure(
            "edges at a tolerance below 0",
            count(&Surface::dot(), -1.),
            Err(Refusal::Argument),
        ),
    ]
}

fn shifts() -> Vec<Figure> {
    let near = |value, hints: [f64; 3]| hints.map(|hint| nearest(value, hint, 1.));
    vec![
        figure(
            "nearest, period 1: value 0 for hints 0.5, just below, -0.5",
            near(0., [0.5, BELOW_HALF, -0.5]),
            [1., 0., -1.],
        ),
        figure(
            "nearest, period 1: value -0 for hints -0.3, 0.3, 0.5",
            near(-0., [-0.3, 0.3, 0.5]),
            [-0., 0., 1.],
        ),
    ]
}

fn rows_and_jobs() -> Vec<Figure> {
    let job = Job {
        surface: Surface::square(),
        tolerance: 0.5,
        budget: 1000,
        marks: [MARK; 2].as_flattened().to_vec(),
    };
    let place = |search: &Search, answers: &mut [f64], ends: &mut [u8]| {
        row(&job.surface, &job.marks, search, 1000, answers, ends)
    };
    let (mut answers, mut ends) = ([7.; 5], [7; 5]);
    let ended = place(&FREE, &mut answers, &mut ends);
    let far = Search {
        periods: [Some(LEAST); 2],
        ..hinted([0.5; 2], 1.)
    };
    let (mut short, mut short_ends) = ([7.; 3], [7; 3]);
    let refused = [
        place(&FREE, &mut short, &mut [7; 4]).refused,
        place(&FREE, &mut [7.; 4], &mut short_ends).refused,
    ];
    let printout = "marks 2\n3fd0000000000000 3fe0000000000000 908 0\n\
                    3fd0000000000000 3fe0000000000000 816 0\n";
    vec![
        figure("the job of 01", print(&job.write()), printout.to_string()),
        figure(
            "a job cut off",
            print(&job.write()[1..]),
            "refused 12 at 0\n".to_string(),
        ),
        figure(
            "the same marks as a row, one number and one byte to spare",
            (answers, ends, ended.refused, ended.left),
            ([0.25, 0.5, 0.25, 0.5, 7.], [0, 1, 0, 1, 7], None, 816),
        ),
        figure(
            "a period of 2^-1074 shifts the first answer to infinity",
            place(&far, &mut [7.; 4], &mut [7; 4]).refused,
            Some((Refusal::Argument, 1)),
        ),
        figure(
            "a buffer of three numbers, or of three bytes",
            (short, short_ends, refused),
            ([7.; 3], [7; 3], [Some((Refusal::Row, 0)); 2]),
        ),
    ]
}

fn traps() -> Vec<Figure> {
    let mut tenfold = Surface::square();
    tenfold.controls.iter_mut().for_each(|x| *x *= 10.);
    let mut light = Surface::square();
    light.weights[0] = LEAST;
    let mut periodic = tenfold.clone();
    periodic.periodic = [true, false];
    let mut flagged_square = Surface::square();
    flagged_square.periodic = [true; 2];
    let turned = Search {
        periods: [Some(1.); 2],
        ..hinted([5.25, -3.5], 1.)
    };
    let least_domain = knots_in_v([0., LEAST]);
    let [open, flagged] = [false, true].map(|flag| {
        let mut surface = knots_in_v([0.3, 0.9]);
        surface.periodic = [false, flag];
        evaluate(&surface, [0., 0.3 + (0.9 - 0.3)]).map(|jet| jet.point[1])
    });
    vec![
        figure(
            "the square times 10, mark (1e308, 0, 0)",
            priced(&tenfold, [1e308, 0., 0.], &FREE),
            (Err(Refusal::Evaluation), 83),
        ),
        figure(
            "the square times 10, mark (1e306, 0, 0): an infinite step, clamped",
            priced(&tenfold, [1e306, 0., 0.], &FREE).0,
            Ok([1., 0.]),
        ),
        figure(
            "the same with the flag in u",
            priced(&periodic, [1e306, 0., 0.], &FREE).0,
            Err(Refusal::Evaluation),
        ),
        figure(
            "square with both flags, hint (1.25, 0.5) above its mark: not wrapped",
            priced(&flagged_square, MARK, &hinted([1.25, 0.5], 0.75)),
            (Ok([1.25, 0.5]), 1),
        ),
        figure(
            "square without flags, hint (5.25, -3.5), periods 1: shifted to the hint's turn",
            priced(&Surface::square(), MARK, &turned).0,
            Ok([5.25, -3.5]),
        ),
        figure(
            "weights 2^-1074, 1, 1, 1 on the square, no hint",
            priced(&light, MARK, &FREE),
            (Err(Refusal::Evaluation), 1),
        ),
        figure(
            "a domain of 2^-1074",
            priced(&least_domain, MARK, &FREE),
            (Err(Refusal::Evaluation), 1),
        ),
        figure(
            "a sample that rounds above the upper end: snapped, and with the flag wrapped",
            [open, flagged],
            [Ok(1.), Ok(0.)],
        ),
    ]
}

/// Price, end and origin.
fn ends() -> Vec<Figure> {
    let figure_of = |known: Known| {
        let Known {
            surface,
            mark,
            search,
            ..
        } = &known;
        let placed = invert(surface, *mark, search, u64::MAX).answer;
        let found = placed.map(|placed| (price(surface, *mark, search), placed.end, placed.origin));
        figure(
            known.what,
            found,
            Ok((known.price, known.end, known.origin)),
        )
    };
    known().into_iter().map(figure_of).collect()
}

/// Pairs written, price and refusal.
fn rows() -> Vec<Figure> {
    let figure_of = |known: lead::Known| {
        let mut pairs = Vec::new();
        let marks = known.marks.as_flattened();
        let placed = |placed: Placed, _| pairs.push(placed.pair);
        let ended = walk(&known.surface, marks, &known.search, u64::MAX, placed);
        figure(
            known.what,
            (pairs, u64::MAX - ended.left, ended.refused),
            (known.pairs, known.price, known.refused),
        )
    };
    lead::known().into_iter().map(figure_of).collect()
}

const UNIT: Pair = [0., 1.];
/// A strip of the square.
const STRIP: Window = [[0.25, 0.75], UNIT];

fn windows() -> Vec<Figure> {
    let strip = &Surface::square().within(STRIP);
    let far = [3., 4., 0.];
    let values = |distinct, low, high| {
        let window = [[low, high], UNIT];
        (price(&dense_dot([distinct, 2]).within(window), far, &FREE) - 2) / 9
    };
    let whole = |surface: &Surface| priced(&surface.within([UNIT; 2]), MARK, &FREE);
    vec![
        figure(
            "the strip u from 1/4 to 3/4 of the square: a mark left of it, on its edge",
            priced(strip, [0., 0.5, 0.], &FREE),
            // 81 points of the grid, a run of one point and five of two.
            (Ok([0.25, 0.5]), 92),
        ),
        figure(
            "the same with a hint left of it, within the tolerance",
            priced(strip, [0., 0.5, 0.], &hinted([0., 0.5], 0.25)),
            (Ok([0.25, 0.5]), 1),
        ),
        figure(
            "evaluate and derivative outside of the strip",
            (
                evaluate(strip, [0.125, 0.5]).map(|jet| jet.point),
                derivative(strip, [0.125, 0.5], [3., 5., 7.], 1).answer,
            ),
            (Ok([0.125, 0.5, 0.]), Ok([3., 5.])),
        ),
        figure(
            "edges of the strip: those of the square",
            nurbs_singular(strip, 0.5).map(|edges| edges.iter().map(|edge| edge.value).collect()),
            Ok(vec![0., 1., 0., 1.]),
        ),
        figure(
            "the strip of the dot: a step from its corner toward its centre",
            priced(&Surface::dot().within(STRIP), far, &FREE),
            (Ok([0.25 + 1e-6 * 0.25, 1e-6 * 0.5]), 83),
        ),
        figure(
            "a window inside one span of 25 distinct knots, from knot to knot, over three knots",
            [(3.25, 3.5), (3., 4.), (2.5, 5.5)].map(|(low, high)| values(25, low, high)),
            [9, 9, 33],
        ),
        figure(
            "24, 25 and 26 breaks of 48 distinct knots, all, and the last 25 knots",
            [(0.5, 22.5), (0.5, 23.5), (0.5, 24.5), (0., 47.), (23., 47.)]
                .map(|(low, high)| values(48, low, high)),
            [185, 97, 105, 193, 97],
        ),
        figure(
            "the whole square as a window, and the dot",
            [whole(&Surface::square()), whole(&Surface::dot())],
            [
                priced(&Surface::square(), MARK, &FREE),
                priced(&Surface::dot(), MARK, &FREE),
            ],
        ),
    ]
}

fn window_checks() -> Vec<Figure> {
    let number = |surface: &Surface| evaluate(surface, [0.5; 2]).err();
    let in_u = |ends: Pair| number(&Surface::square().within([ends, UNIT]));
    let in_v = |ends: Pair| number(&Surface::square().within([UNIT, ends]));
    let flagged = |ends: Pair| {
        number(&Surface {
            periodic: [true, false],
            ..Surface::square().within([ends, UNIT])
        })
    };
    let (nan, infinity) = (f64::NAN, f64::INFINITY);
    let lost = [[nan, 1.], [0., nan], [-infinity, 1.], [0., infinity]];
    let flat = [[0.5, 0.5], [0.75, 0.25], [-0., 0.]];
    let beyond = [[-LEAST, 1.], [0., 1.0_f64.next_up()]];
    let narrower = [[LEAST, 1.], [0., 1.0_f64.next_down()], [0.25, 0.75]];
    let upside_down = &Surface::square().within([[1., 0.], UNIT]);
    let mut weightless = upside_down.clone();
    weightless.weights[0] = 0.;
    let mut reversed = upside_down.clone();
    reversed.knots[1].reverse();
    let row_at = |answers: &mut [f64]| {
        let ended = row(upside_down, &MARK, &FREE, 9, answers, &mut [7; 2]);
        (ended.refused, ended.left)
    };
    let job = Job {
        surface: upside_down.clone(),
        tolerance: -1.,
        budget: 9,
        marks: MARK.to_vec(),
    };
    let refused = Some(Refusal::Window);
    let lost_mark = invert(upside_down, [nan; 3], &FREE, 9);
    vec![
        figure("a window not finite", lost.map(in_u), [refused; 4]),
        figure("a window not finite, in v", lost.map(in_v), [refused; 4]),
        figure("a window not rising", flat.map(in_u), [refused; 3]),
        figure("a window not rising, in v", flat.map(in_v), [refused; 3]),
        figure(
            "a window a float beyond the domain",
            beyond.map(in_u),
            [refused; 2],
        ),
        figure(
            "a window a float beyond the domain, in v",
            beyond.map(in_v),
            [refused; 2],
        ),
        figure(
            "a window narrower than a periodic axis",
            narrower.map(flagged),
            [refused; 3],
        ),
        figure("the same without the flag", narrower.map(in_u), [None; 3]),
        figure(
            "a window from -0, and on a periodic axis",
            [in_u([-0., 1.]), flagged([-0., 1.])],
            [None; 2],
        ),
        figure(
            "4 and 6 before 24",
            [number(&weightless), number(&reversed)],
            [Some(Refusal::Weights), Some(Refusal::Knots)],
        ),
        figure(
            "24 before the 7 of a mark, of a vector and of a tolerance",
            (
                (lost_mark.answer.err(), lost_mark.left),
                derivative(upside_down, [0.5; 2], [nan; 3], 9).answer.err(),
                nurbs_singular(upside_down, -1.).err(),
            ),
            ((refused, 9), refused, refused),
        ),
        figure(
            "24 in a row, after 11",
            (row_at(&mut [7.; 2]), row_at(&mut [7.; 1])),
            (
                (Some((Refusal::Window, 0)), 9),
                (Some((Refusal::Row, 0)), 9),
            ),
        ),
        figure(
            "24 in a job whose tolerance is below 0",
            print(&job.write()),
            "marks 1\nrefused 24 at 0\n".to_string(),
        ),
    ]
}

/// Traps 27 and 28.
fn window_zeros() -> Vec<Figure> {
    let far = &hinted([-1., 0.5], 1.);
    let left = [-1., 0.5, 0.];
    let flagged = Surface {
        periodic: [true, false],
        ..Surface::square().within([[-0., 1.], UNIT])
    };
    // The point at (u, v) is (u + 1, v, 0).
    let up_to = |zero: f64, end: f64| {
        let mut surface = Surface::square().within([[-1., end], UNIT]);
        surface.knots[0] = vec![-1., -1., zero, zero];
        surface
    };
    let (right, beyond) = ([2., 0.5, 0.], &hinted([1., 0.5], 1.));
    let pair = |surface: &Surface, mark, search| priced(surface, mark, search).0;
    vec![
        figure(
            "the square from -0: a run clamped at its edge",
            pair(&Surface::square().within([[-0., 1.], UNIT]), left, far),
            Ok([-0., 0.5]),
        ),
        figure(
            "the square from 0: the same",
            pair(&Surface::square().within([UNIT; 2]), left, far),
            Ok([0., 0.5]),
        ),
        figure(
            "the square from -0 with the flag: as without a window",
            pair(&flagged, MARK, &FREE),
            Ok([0.25, 0.5]),
        ),
        figure(
            "a domain up to 0, a window up to -0: the grid has the domain's end, a run the window's",
            [
                pair(&up_to(0., -0.), right, &FREE),
                pair(&up_to(0., -0.), right, beyond),
            ],
            [Ok([0., 0.5]), Ok([-0., 0.5])],
        ),
        figure(
            "a domain up to -0, a window up to 0",
            [
                pair(&up_to(-0., 0.), right, &FREE),
                pair(&up_to(-0., 0.), right, beyond),
            ],
            [Ok([-0., 0.5]), Ok([0., 0.5])],
        ),
    ]
}
