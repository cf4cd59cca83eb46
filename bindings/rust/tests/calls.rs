//! Every function, its refusals, and what it leaves of what is lent.
use placing::{
    Edge, End, Frame, Hint, Jet, Origin, Period, Placed, Quote, Refusal, RowRefusal, Search,
    Surface, Window, job, plane,
};
use std::thread;

const KNOTS: [f64; 4] = [0., 0., 1., 1.];
const NET: [f64; 12] = [0., 0., 0., 0., 1., 0., 1., 0., 0., 1., 1., 0.];
/// Off the square by 0.75, and the same point of it.
const MARK: [f64; 3] = [0.25, 0.5, 0.75];
const ON: [f64; 3] = [0.25, 0.5, 0.];
/// The number before 0.75.
const BELOW: f64 = f64::from_bits(0.75_f64.to_bits() - 1);

/// The point at (u, v) is (u, v, 0).
fn square() -> Surface<'static> {
    Surface {
        degrees: [1, 1],
        shape: [2, 2],
        periodic: [false; 2],
        knots: [&KNOTS, &KNOTS],
        controls: &NET,
        weights: &[1.; 4],
        window: Window::Whole,
    }
}

/// The square in a window.
fn seen(u: [f64; 2], v: [f64; 2]) -> Surface<'static> {
    Surface {
        window: Window::Within { u, v },
        ..square()
    }
}

fn dot() -> Surface<'static> {
    Surface {
        controls: &[0.; 12],
        ..square()
    }
}

/// Flat but for its middle, which is drawn up.
fn dome() -> Surface<'static> {
    Surface {
        degrees: [2, 2],
        shape: [3, 3],
        periodic: [false; 2],
        knots: [&[0., 0., 0., 1., 1., 1.]; 2],
        controls: &[
            0., 0., 0., 0., 1., 0., 0., 2., 0., 1., 0., 0., 1., 1., 2., 1., 2., 0., 2., 0., 0., 2.,
            1., 0., 2., 2., 0.,
        ],
        weights: &[1.; 9],
        window: Window::Whole,
    }
}

/// A sheet that is bent double: it goes out along x at height 0, for u from 0 to 1, and comes back at
/// height 0.5, for u from 2 to 3.
fn fold() -> Surface<'static> {
    Surface {
        shape: [4, 2],
        knots: [&[0., 0., 1., 2., 3., 3.], &KNOTS],
        controls: &[
            0., 0., 0., 0., 1., 0., 1., 0., 0., 1., 1., 0., 1., 0., 0.5, 1., 1., 0.5, 0., 0., 0.5,
            0., 1., 0.5,
        ],
        weights: &[1.; 8],
        ..square()
    }
}

fn free(tolerance: f64) -> Search {
    Search {
        tolerance,
        ..Search::default()
    }
}

fn settled(pair: [f64; 2], origin: Origin) -> Placed {
    Placed {
        pair,
        end: End::Unchanged,
        origin,
    }
}

fn refused(refusal: Refusal, mark: Option<usize>) -> Result<(), RowRefusal> {
    Err(RowRefusal { refusal, mark })
}

fn hinted(u: f64, v: f64, tolerance: f64) -> Search {
    Search {
        hint: Hint::At([u, v]),
        ..free(tolerance)
    }
}

#[test]
fn evaluates() {
    let jet = Jet {
        point: [0.25, 0.5, 0.],
        du: [1., 0., 0.],
        dv: [0., 1., 0.],
    };
    assert_eq!(square().evaluate([0.25, 0.5]), Ok(jet));
    let round = Surface {
        periodic: [true, false],
        ..square()
    };
    assert_eq!(round.evaluate([1.25, 0.5]), Ok(jet));
    assert_eq!(round.evaluate([0.25, 1.5]), Err(Refusal::Evaluation));
    let round = Surface {
        periodic: [false, true],
        ..square()
    };
    assert_eq!(round.evaluate([0.25, -0.5]), Ok(jet));
    assert_eq!(round.evaluate([1.25, 0.5]), Err(Refusal::Evaluation));
}

#[test]
fn refuses_surfaces() {
    let cases = [
        (
            Surface {
                shape: [usize::MAX, 2],
                ..square()
            },
            Refusal::Counts,
        ),
        (
            Surface {
                weights: &[1.; 3],
                ..square()
            },
            Refusal::Controls,
        ),
        (
            Surface {
                controls: &[f64::INFINITY; 12],
                ..square()
            },
            Refusal::Coordinate,
        ),
        (
            Surface {
                weights: &[1., 1., 0., 1.],
                ..square()
            },
            Refusal::Weights,
        ),
        (
            Surface {
                degrees: [1, 17],
                ..square()
            },
            Refusal::Degree,
        ),
        (
            Surface {
                knots: [&KNOTS, &[0., 1., 0., 1.]],
                ..square()
            },
            Refusal::Knots,
        ),
    ];
    for (surface, refusal) in cases {
        is_refused(&surface, refusal);
    }
}

/// By every function that takes a surface, with nothing written; but a quote knows nothing of the
/// square's controls and weights.
fn is_refused(surface: &Surface, refusal: Refusal) {
    let mut budget = 5;
    let (mut pairs, mut ends) = ([[7.; 2]], [[7; 2]]);
    assert_eq!(surface.evaluate([0.; 2]), Err(refusal));
    assert_eq!(surface.invert(MARK, &free(0.5), &mut budget), Err(refusal));
    assert_eq!(surface.derivative([0.; 2], MARK, &mut budget), Err(refusal));
    assert_eq!(surface.nurbs_singular(0.5), Err(refusal));
    match refusal {
        Refusal::Controls | Refusal::Coordinate | Refusal::Weights => is_quoted(surface, 81),
        _ => is_unquoted(surface, refusal),
    }
    let marks: [&[_]; 3] = [&[], &[MARK], &[[f64::NAN; 3]]];
    for marks in marks {
        let ended = surface.row(marks, &free(0.5), &mut budget, &mut pairs, &mut ends);
        assert_eq!(ended, refused(refusal, None));
    }
    assert_eq!((budget, pairs, ends), (5, [[7.; 2]], [[7; 2]]));
}

#[test]
fn refuses_windows() {
    let (inf, nan) = (f64::INFINITY, f64::NAN);
    let whole = [0., 1.];
    let faults = [
        [nan, 1.],
        [0., nan],
        [-inf, 1.],
        [0., inf],
        [0.75, 0.25],
        [0.5, 0.5],
        [-0.5, 0.5],
        [0.5, 1.5],
        [0., 1. + f64::EPSILON],
        [2., 3.],
    ];
    for fault in faults {
        is_refused(&seen(fault, whole), Refusal::Window);
        is_refused(&seen(whole, fault), Refusal::Window);
    }
    for narrow in [[0., 0.5], [0.5, 1.]] {
        let round = |periodic, u, v| Surface {
            periodic,
            ..seen(u, v)
        };
        is_refused(&round([true, false], narrow, whole), Refusal::Window);
        is_refused(&round([false, true], whole, narrow), Refusal::Window);
    }
}

#[test]
fn tests_a_window_after_the_knots_and_before_the_search() {
    let turned = seen([1., 0.], [0., 1.]);
    let disordered = Surface {
        knots: [&KNOTS, &[0., 1., 0., 1.]],
        ..turned
    };
    is_refused(&disordered, Refusal::Knots);
    let search = free(-1.);
    assert_eq!(
        turned.invert([f64::NAN; 3], &search, &mut 0),
        Err(Refusal::Window)
    );
    assert_eq!(
        turned.row(&[MARK], &search, &mut 0, &mut [[0.; 2]], &mut [[0; 2]]),
        refused(Refusal::Window, None)
    );
    assert_eq!(
        turned.row(&[MARK], &search, &mut 0, &mut [], &mut []),
        refused(Refusal::Row, None)
    );
    assert_eq!(turned.evaluate([9.; 2]), Err(Refusal::Window));
    assert_eq!(turned.nurbs_singular(-1.), Err(Refusal::Window));
    assert_eq!(
        turned.derivative([9.; 2], [f64::NAN; 3], &mut 0),
        Err(Refusal::Window)
    );
}

#[test]
fn marks_stay_inside_a_window() {
    let half = seen([0.25, 0.75], [0., 1.]);
    let band = seen([0., 1.], [0.5, 0.75]);
    let round = Surface {
        periodic: [true, false],
        ..band
    };
    let cases = [
        (square(), [0.9, 0.5, 0.75], [0.9, 0.5], 93),
        (half, [0.9, 0.5, 0.75], [0.75, 0.5], 92),
        (half, [0., 0.5, 0.75], [0.25, 0.5], 92),
        (half, [0.375, 0.5, 0.75], [0.375, 0.5], 92),
        (band, [0.25, 0., 0.75], [0.25, 0.5], 92),
        (band, [0.25, 9., 0.75], [0.25, 0.75], 92),
        (round, [0.25, 0., 0.75], [0.25, 0.5], 92),
    ];
    for (surface, mark, pair, price) in cases {
        let placed = settled(pair, Origin::Start(1));
        let mut budget = price;
        assert_eq!(surface.invert(mark, &free(0.5), &mut budget), Ok(placed));
        assert_eq!(budget, 0);
    }
    // A hint outside is taken to the edge, and a pair there leads the next mark.
    let row = [([0.9, 0.5, 0.75], Close), ([0., 0.5, 0.75], Close)];
    assert_eq!(prices(&half, row, hinted(0.9, 0.5, 1.)), [1, 2]);
    let row = [([0.9, 0.5, 0.75], Lost), ([0., 0.5, 0.75], Lost)];
    assert_eq!(prices(&half, row, free(0.5)), [92, 92]);
}

#[test]
fn a_window_keeps_a_mark_on_its_side_of_a_fold() {
    let below = Surface {
        window: Window::Within {
            u: [0., 1.],
            v: [0., 1.],
        },
        ..fold()
    };
    let over = [0.25, 0.5, 2.];
    let place = |surface: &Surface| {
        let mut budget = 1000;
        let placed = surface.invert(over, &free(0.5), &mut budget).unwrap();
        (placed.pair, 1000 - budget)
    };
    // The grid has the eighths of one span of u and not of three.
    assert_eq!(place(&fold()), ([2.75, 0.5], 236));
    assert_eq!(place(&below), ([0.25, 0.5], 92));
}

#[test]
fn a_window_with_the_bits_of_the_domain_changes_nothing() {
    let marks = [[0.3, 0.6, 0.75], [-1., 2., 0.75], [0.1, 0.2, 0.3], ON];
    for (plain, u) in [(square(), [0., 1.]), (dome(), [0., 1.]), (fold(), [0., 3.])] {
        let whole = Surface {
            window: Window::Within { u, v: [0., 1.] },
            ..plain
        };
        let place = |surface: &Surface| {
            let (mut budget, mut pairs, mut ends) = (10_000, [[7.; 2]; 4], [[7; 2]; 4]);
            let search = hinted(0.9, 0.1, 0.5);
            let ended = surface.row(&marks, &search, &mut budget, &mut pairs, &mut ends);
            assert_eq!(ended, Ok(()));
            (budget, pairs.map(|pair| pair.map(f64::to_bits)), ends)
        };
        assert_eq!(place(&whole), place(&plain));
    }
}

#[test]
fn the_other_calls_know_the_whole_domain() {
    let half = seen([0.25, 0.75], [0., 1.]);
    let at = [0.875, 0.5];
    assert_eq!(half.evaluate(at), square().evaluate(at));
    assert_eq!(half.derivative(at, [3., 5., 7.], &mut 1), Ok([3., 5.]));
    assert_eq!(half.nurbs_singular(0.5), square().nurbs_singular(0.5));
}

#[test]
fn a_window_is_whole_by_default() {
    assert_eq!(Window::default(), Window::Whole);
}

#[test]
fn inverts() {
    let cases = [
        (free(0.5), 92, Origin::Start(1)),
        (hinted(0.25, 0.5, 0.75), 1, Origin::Hint),
        (hinted(0.25, 0.5, 0.5), 94, Origin::Hint),
        (hinted(0.5, 0.5, 0.75), 2, Origin::Hint),
    ];
    for (search, price, origin) in cases {
        let placed = settled([0.25, 0.5], origin);
        let mut budget = price + 3;
        assert_eq!(square().invert(MARK, &search, &mut budget), Ok(placed));
        assert_eq!(budget, 3);
        let mut budget = price - 1;
        assert_eq!(
            square().invert(MARK, &search, &mut budget),
            Err(Refusal::Units)
        );
        assert_eq!(budget, 0);
    }
}

#[test]
fn tells_how_a_run_ended() {
    let near = |u, v| hinted(u, v, 9.);
    let cases = [
        (dome(), [0., 0., -4.], near(0., 0.), End::Unchanged, 0),
        (dome(), [0., 0., 0.75], near(0.25, 0.5), End::Further, 0),
        (dome(), [0., 0.75, 0.5], near(0., 0.), End::SmallStep, 0),
        (dot(), [3., 4., 0.], near(0., 0.), End::Singular, 0),
        (dome(), [0., 0., 0.5], near(0.25, 0.5), End::Rounds, 0),
        (dot(), [3., 4., 0.], free(0.), End::Singular, 1),
        (dome(), [0.25, 0., 1.], free(0.), End::Further, 4),
        (dome(), [0., 0.25, 0.5], free(0.), End::Rounds, 2),
    ];
    for (surface, mark, search, end, origin) in cases {
        let placed = surface.invert(mark, &search, &mut 1000).unwrap();
        assert_eq!((placed.end, placed.origin.number()), (end, origin));
    }
}

#[test]
fn keeps_the_nudge_of_a_surface_without_directions() {
    let mut budget = 83;
    let placed = dot().invert([3., 4., 0.], &free(0.), &mut budget).unwrap();
    assert_eq!((placed.pair, budget), ([0.0000005; 2], 0));
}

#[test]
fn shifts_by_each_axis_of_its_own() {
    let turned = |periods| {
        let search = Search {
            periods,
            ..hinted(5.25, -2.5, 0.75)
        };
        square().invert(MARK, &search, &mut 1000).unwrap().pair
    };
    assert_eq!(turned([Period::Every(1.), Period::Free]), [5.25, 0.5]);
    assert_eq!(turned([Period::Free, Period::Every(1.)]), [0.25, -2.5]);
}

#[test]
fn a_search_is_free_by_default() {
    let search = Search {
        hint: Hint::Nothing,
        tolerance: 0.,
        periods: [Period::Free; 2],
    };
    assert_eq!(Search::default(), search);
}

#[test]
fn refuses_searches() {
    let refused = |mark, search: Search| {
        let mut budget = 5;
        let answer = square().invert(mark, &search, &mut budget);
        assert_eq!(budget, 5);
        answer
    };
    let every = |period| Search {
        periods: [Period::Free, Period::Every(period)],
        ..free(0.)
    };
    assert_eq!(
        refused([f64::NAN, 0., 0.], free(0.5)),
        Err(Refusal::Argument)
    );
    assert_eq!(refused(MARK, free(-1.)), Err(Refusal::Argument));
    assert_eq!(
        refused(MARK, hinted(0., f64::INFINITY, 0.)),
        Err(Refusal::Argument)
    );
    assert_eq!(refused(MARK, every(0.)), Err(Refusal::Argument));
}

#[test]
fn places_a_row() {
    let marks = [MARK, MARK];
    let mut budget = 1000;
    let (mut pairs, mut ends) = ([[7.; 2]; 3], [[7; 2]; 3]);
    assert_eq!(
        square().row(&marks, &free(0.5), &mut budget, &mut pairs, &mut ends),
        Ok(())
    );
    assert_eq!((budget, pairs), (816, [[0.25, 0.5], [0.25, 0.5], [7.; 2]]));
    assert_eq!(ends, [[0, 1], [0, 1], [7; 2]]);

    let mut budget = 1000;
    assert_eq!(
        square().row(&marks, &free(1.), &mut budget, &mut pairs, &mut ends),
        Ok(())
    );
    assert_eq!((budget, pairs), (907, [[0.25, 0.5], [0.25, 0.5], [7.; 2]]));
    assert_eq!(ends, [[0, 1], [0, 0], [7; 2]]);

    let mut budget = 100;
    let (mut pairs, mut ends) = ([[7.; 2]; 2], [[7; 2]; 2]);
    let ended = square().row(&marks, &free(0.5), &mut budget, &mut pairs, &mut ends);
    assert_eq!(ended, refused(Refusal::Units, Some(1)));
    assert_eq!((budget, pairs), (0, [[0.25, 0.5], [7.; 2]]));
    assert_eq!(ends, [[0, 1], [7; 2]]);

    assert_eq!(
        square().row(&[], &free(0.5), &mut budget, &mut [], &mut []),
        Ok(())
    );
    assert_eq!(budget, 0);
}

/// Whether a mark of a row leads the next.
#[derive(Clone, Copy, PartialEq)]
enum Led {
    Close,
    Lost,
}
use Led::{Close, Lost};

/// What each mark of a row takes. Each is also placed by a call of its own: the first with the
/// row's hint, a later one with the pair before it for its hint where that one is close, and with
/// none where it is lost. The row has the same bits for the same price, mark by mark.
fn prices<const N: usize>(
    surface: &Surface,
    marks: [([f64; 3], Led); N],
    search: Search,
) -> [u64; N] {
    let points = marks.map(|(mark, _)| mark);
    let (mut pairs, mut ends) = (vec![], vec![]);
    let mut alone = (search, 100_000);
    let mut at = 0;
    marks.map(|(mark, led)| {
        let (own, left) = alone;
        let mut budget = left;
        let placed = surface.invert(mark, &own, &mut budget).unwrap();
        pairs.push(placed.pair.map(f64::to_bits));
        ends.push([placed.end.number(), placed.origin.number()]);
        let hint = match led {
            Close => Hint::At(placed.pair),
            Lost => Hint::Nothing,
        };
        alone = (Search { hint, ..search }, budget);
        at += 1;

        let mut row_budget = 100_000;
        let (mut row_pairs, mut row_ends) = ([[7.; 2]; N], [[7; 2]; N]);
        let ended = surface.row(
            &points[..at],
            &search,
            &mut row_budget,
            &mut row_pairs,
            &mut row_ends,
        );
        assert_eq!((ended, row_budget), (Ok(()), budget));
        let row_pairs = row_pairs.map(|pair| pair.map(f64::to_bits));
        assert_eq!((&row_pairs[..at], &row_ends[..at]), (&pairs[..], &ends[..]));
        left - budget
    })
}

#[test]
fn a_close_mark_leads_the_next() {
    let row = [(MARK, Close), (MARK, Close)];
    assert_eq!(prices(&square(), row, free(1.)), [92, 1]);
    let row = [(ON, Close), (MARK, Close), (ON, Close), (ON, Close)];
    assert_eq!(prices(&square(), row, free(1.)), [92, 1, 1, 1]);
}

#[test]
fn a_mark_at_the_tolerance_is_close() {
    let row = [(MARK, Close), (MARK, Close)];
    assert_eq!(prices(&square(), row, free(0.75)), [92, 1]);
    let row = [(MARK, Lost), (MARK, Lost)];
    assert_eq!(prices(&square(), row, free(BELOW)), [92, 92]);
    // And with a tolerance of 0 a mark on the surface.
    let row = [(ON, Close), (ON, Close), (MARK, Lost), (ON, Close)];
    assert_eq!(prices(&square(), row, free(0.)), [92, 1, 94, 92]);
}

#[test]
fn a_lost_mark_does_not_lead_the_next() {
    let row = [(MARK, Lost), (MARK, Lost), (MARK, Lost)];
    assert_eq!(prices(&square(), row, free(0.5)), [92; 3]);
    let row = [(ON, Close), (MARK, Lost), (ON, Close), (ON, Close)];
    assert_eq!(prices(&square(), row, free(0.5)), [92, 94, 92, 1]);
    // The row's own hint is the first mark's, and comes back for no other.
    let row = [(MARK, Lost), (MARK, Lost)];
    assert_eq!(prices(&square(), row, hinted(0.25, 0.5, 0.5)), [94, 92]);
}

#[test]
fn a_lost_mark_does_not_pull_the_next_to_its_own_patch() {
    let (on, over, near) = ([0.25, 0.5, 0.], [0.25, 0.5, 2.], [0.25, 0.5, 0.125]);
    let (below, above) = ([0.25, 0.5], [2.75, 0.5]);
    let single = |search| fold().invert(near, &search, &mut 1000).unwrap().pair;
    assert_eq!(single(hinted(2.75, 0.5, 0.5)), above);
    assert_eq!(single(free(0.5)), below);

    let pairs = |tolerance| {
        let mut pairs = [[7.; 2]; 3];
        let (marks, mut ends) = ([on, over, near], [[7; 2]; 3]);
        let ended = fold().row(&marks, &free(tolerance), &mut 1000, &mut pairs, &mut ends);
        assert_eq!(ended, Ok(()));
        pairs
    };
    assert_eq!(pairs(0.5), [below, above, below]);
    let row = [(on, Close), (over, Lost), (near, Close)];
    prices(&fold(), row, free(0.5));
    // Within the tolerance it does.
    assert_eq!(pairs(1.5), [below, above, above]);
    let row = [(on, Close), (over, Close), (near, Close)];
    prices(&fold(), row, free(1.5));
}

#[test]
fn refuses_a_row_without_room() {
    let marks = [MARK, MARK];
    for (answers, ends) in [(1, 2), (2, 1), (0, 0)] {
        let mut budget = 1000;
        let (mut pairs, mut bytes) = ([[7.; 2]; 2], [[7; 2]; 2]);
        let ended = square().row(
            &marks,
            &free(0.5),
            &mut budget,
            &mut pairs[..answers],
            &mut bytes[..ends],
        );
        assert_eq!(ended, refused(Refusal::Row, None));
        assert_eq!((budget, pairs, bytes), (1000, [[7.; 2]; 2], [[7; 2]; 2]));
    }
}

#[test]
fn reads_what_a_row_writes() {
    let pair = [0.25, 0.5];
    assert_eq!(
        Placed::read(pair, [0, 1]),
        Some(settled(pair, Origin::Start(1)))
    );
    for ended in [[5, 0], [0, 7], [255; 2]] {
        assert_eq!(Placed::read(pair, ended), None);
    }
}

#[test]
fn places_a_flat_row() {
    let marks = [MARK, MARK].concat();
    let mut budget = 1000;
    let (mut numbers, mut bytes) = ([7.; 5], [7; 5]);
    let ended = square().row_flat(&marks, &free(0.5), &mut budget, &mut numbers, &mut bytes);
    assert_eq!(ended, Ok(()));
    assert_eq!((budget, numbers), (816, [0.25, 0.5, 0.25, 0.5, 7.]));
    assert_eq!(bytes, [0, 1, 0, 1, 7]);
    let mut budget = 1000;
    let ended = square().row_flat(&marks, &free(1.), &mut budget, &mut numbers, &mut bytes);
    assert_eq!(ended, Ok(()));
    assert_eq!((budget, numbers), (907, [0.25, 0.5, 0.25, 0.5, 7.]));
    assert_eq!(bytes, [0, 1, 0, 0, 7]);
    for (coordinates, answers, ends) in [(5, 5, 5), (6, 3, 5), (6, 5, 3)] {
        let ended = square().row_flat(
            &marks[..coordinates],
            &free(0.5),
            &mut budget,
            &mut numbers[..answers],
            &mut bytes[..ends],
        );
        assert_eq!(ended, refused(Refusal::Row, None));
    }
}

#[test]
fn blames_a_mark_only_for_its_own_fault() {
    let unread = [0., f64::NAN, 0.];
    let every = |period| Search {
        periods: [Period::Every(period), Period::Free],
        ..Search::default()
    };
    let unsound = [
        free(-1.),
        free(f64::NAN),
        hinted(f64::INFINITY, 0., 0.),
        every(0.),
        every(f64::INFINITY),
    ];
    let ended = |marks: &[_], search| {
        let mut budget = 1000;
        square().row(
            marks,
            search,
            &mut budget,
            &mut [[0.; 2]; 2],
            &mut [[0; 2]; 2],
        )
    };
    // The search is tested first: its fault is no mark's, whatever the marks are.
    for search in &unsound {
        let rows: [&[_]; 3] = [&[], &[MARK], &[unread, MARK]];
        for marks in rows {
            assert_eq!(ended(marks, search), refused(Refusal::Argument, None));
        }
    }
    let search = &free(0.5);
    assert_eq!(
        ended(&[unread, MARK], search),
        refused(Refusal::Argument, Some(0))
    );
    assert_eq!(
        ended(&[MARK, unread], search),
        refused(Refusal::Argument, Some(1))
    );
    assert_eq!(
        square().row(&[MARK], search, &mut 0, &mut [[0.; 2]], &mut [[0; 2]]),
        refused(Refusal::Units, Some(0))
    );
}

/// Without a hint and with one.
fn is_quoted(surface: &Surface, grid: u64) {
    for (hinted, runs) in [(false, 198), (true, 264)] {
        let most = grid + runs;
        assert_eq!(surface.quote(hinted), Ok(Quote { grid, most }));
    }
}

fn is_unquoted(surface: &Surface, refusal: Refusal) {
    for hinted in [false, true] {
        assert_eq!(surface.quote(hinted), Err(refusal));
    }
}

/// Of degrees 1 and 1, with a knot for each control.
fn even<'a>(u: &'a [f64], v: &'a [f64]) -> Surface<'a> {
    Surface {
        shape: [u.len() - 2, v.len() - 2],
        knots: [u, v],
        ..square()
    }
}

/// From 0 on, so many distinct ones, and both ends twice.
fn even_knots(distinct: usize) -> Vec<f64> {
    let inner = (0..distinct).map(|i| i as f64);
    [0.].into_iter()
        .chain(inner)
        .chain([(distinct - 1) as f64])
        .collect()
}

#[test]
fn quotes() {
    is_quoted(&square(), 81);
    is_quoted(&dot(), 81);
    is_quoted(&dome(), 81);
    is_quoted(&fold(), 25 * 9);
    // Equal knots are one, and those outside the domain none.
    let repeated = Surface {
        degrees: [2, 2],
        shape: [5, 3],
        knots: [&[0., 0., 0., 1., 1., 2., 2., 2.], &[0., 1., 2., 3., 4., 5.]],
        ..square()
    };
    is_quoted(&repeated, 17 * 9);
}

#[test]
fn quotes_count_the_values_of_an_axis() {
    let counts = [
        (2, 9),
        (24, 185),
        (25, 97),
        (47, 185),
        (48, 193),
        (49, 129),
        (70, 185),
        (71, 193),
        (72, 193),
        (73, 145),
        (94, 193),
        (96, 193),
        (97, 161),
    ];
    for (distinct, values) in counts {
        let long = even_knots(distinct);
        is_quoted(&even(&long, &KNOTS), values * 9);
        is_quoted(&even(&KNOTS, &long), 9 * values);
        is_quoted(&even(&long, &long), values * values);
    }
}

#[test]
fn quotes_count_the_knots_of_a_window() {
    let within = |u, v| Surface {
        window: Window::Within { u, v },
        ..even(&[0., 0., 1., 2., 3., 3.], &[0., 0., 1., 2., 2.])
    };
    is_quoted(&within([0., 3.], [0., 2.]), 25 * 17);
    is_quoted(&within([1., 2.], [0., 2.]), 9 * 17);
    is_quoted(&within([0.5, 2.5], [0.25, 0.5]), 25 * 9);
    is_quoted(&within([0.5, 2.], [0., 1.5]), 17 * 17);
    // Fewer knots may be fewer to be left out: 24 of them inside 48.
    let long = even_knots(48);
    let dense = Surface {
        window: Window::Within {
            u: [0.5, 22.5],
            v: [0., 1.],
        },
        ..even(&long, &KNOTS)
    };
    is_quoted(&dense, 185 * 9);
}

#[test]
fn refuses_quotes_in_order() {
    let disordered = [0., 1., 0., 1.];
    let turned = seen([1., 0.], [0., 1.]);
    let knots = |u, v| Surface {
        knots: [u, v],
        ..turned
    };
    is_unquoted(&turned, Refusal::Window);
    is_unquoted(&knots(&KNOTS, &disordered), Refusal::Knots);
    let degrees = |degrees, u| Surface {
        degrees,
        ..knots(u, &disordered)
    };
    is_unquoted(&degrees([1, 0], &KNOTS), Refusal::Degree);
    is_unquoted(&degrees([1, 17], &disordered), Refusal::Knots);
    is_unquoted(&degrees([17, 1], &disordered), Refusal::Degree);
    let many = vec![0.; 100_031];
    let counted = |shape, count| Surface {
        shape,
        ..degrees([0, 0], &many[..count])
    };
    is_unquoted(&counted([50_000, 2], 100_030), Refusal::Degree);
    is_unquoted(&counted([50_001, 2], 100_030), Refusal::Counts);
    is_unquoted(&counted([usize::MAX; 2], 100_030), Refusal::Counts);
    is_unquoted(&counted([50_000, 2], 100_031), Refusal::Counts);
    // A count of 0 is too few for any degree.
    let none = |shape| Surface { shape, ..square() };
    is_unquoted(&none([0, usize::MAX]), Refusal::Knots);
    is_unquoted(&none([2, 0]), Refusal::Knots);
}

#[test]
fn no_mark_takes_more_than_its_quote() {
    let half = seen([0.25, 0.75], [0., 1.]);
    let marks = [MARK, ON, [9., -9., 0.], [0., 0., 0.5], [0.25, 0., 1.]];
    for surface in [square(), dot(), dome(), fold(), half] {
        for search in [
            free(0.),
            free(0.5),
            hinted(0.25, 0.5, 0.),
            hinted(9., 9., 1.),
        ] {
            let most = surface.quote(search.hint != Hint::Nothing).unwrap().most;
            for mark in marks {
                assert!(surface.invert(mark, &search, &mut { most }).is_ok());
            }
            let mut budget = most + 4 * surface.quote(true).unwrap().most;
            let (mut pairs, mut ends) = ([[7.; 2]; 5], [[7; 2]; 5]);
            let ended = surface.row(&marks, &search, &mut budget, &mut pairs, &mut ends);
            assert_eq!(ended, Ok(()));
        }
    }
}

/// With a period of u.
fn turned(u: f64, period: f64, tolerance: f64) -> Search {
    Search {
        periods: [Period::Every(period), Period::Free],
        ..hinted(u, 0.5, tolerance)
    }
}

#[test]
fn a_close_mark_hands_on_its_turn() {
    let pairs = |search| {
        let mut pairs = [[7.; 2]; 2];
        let ended = square().row(&[MARK; 2], &search, &mut 1000, &mut pairs, &mut [[7; 2]; 2]);
        assert_eq!(ended, Ok(()));
        pairs
    };
    assert_eq!(pairs(turned(5.25, 1., 0.75)), [[5.25, 0.5]; 2]);
    assert_eq!(pairs(turned(5.25, 1., BELOW)), [[5.25, 0.5], [0.25, 0.5]]);
    let close = [(MARK, Close), (MARK, Close)];
    assert_eq!(prices(&square(), close, turned(5.25, 1., 0.75)), [2, 2]);
    let lost = [(MARK, Lost), (MARK, Lost)];
    assert_eq!(prices(&square(), lost, turned(5.25, 1., BELOW)), [96, 92]);
}

#[test]
fn a_pair_may_be_infinite_and_where_it_is_close_the_next_mark_is_refused() {
    let search = turned(1e300, 1e-300, 1.);
    let far = [f64::INFINITY, 0.5];
    assert_eq!(
        square().invert(MARK, &search, &mut 1000),
        Ok(settled(far, Origin::Hint))
    );
    let (mut pairs, mut ends) = ([[7.; 2]; 2], [[7; 2]; 2]);
    let ended = square().row(&[MARK, MARK], &search, &mut 1000, &mut pairs, &mut ends);
    assert_eq!(ended, refused(Refusal::Argument, Some(1)));
    assert_eq!((pairs, ends), ([far, [7.; 2]], [[0, 0], [7; 2]]));
}

#[test]
fn a_pair_may_be_infinite_and_where_it_is_lost_the_next_mark_is_placed() {
    let search = turned(1e300, 1e-300, 0.5);
    let (mut pairs, mut ends) = ([[7.; 2]; 2], [[7; 2]; 2]);
    let ended = square().row(&[MARK, MARK], &search, &mut 1000, &mut pairs, &mut ends);
    assert_eq!(ended, Ok(()));
    assert_eq!(pairs, [[f64::INFINITY, 0.5], [0.25, 0.5]]);
    assert_eq!(ends, [[0, 0], [0, 1]]);
    let row = [(MARK, Lost), (MARK, Lost)];
    assert_eq!(prices(&square(), row, search), [96, 92]);
}

#[test]
fn threads_share_nothing() {
    let alone = square().invert(MARK, &free(0.5), &mut 1000);
    thread::scope(|scope| {
        for _ in 0..8 {
            scope.spawn(|| {
                for _ in 0..100 {
                    assert_eq!(square().invert(MARK, &free(0.5), &mut 1000), alone);
                }
            });
        }
    });
}

#[test]
fn derives() {
    let mut budget = 3;
    let vector = [3., 5., 7.];
    assert_eq!(
        square().derivative([0.25, 0.5], vector, &mut budget),
        Ok([3., 5.])
    );
    assert_eq!(
        dot().derivative([0.25, 0.5], vector, &mut budget),
        Err(Refusal::Singular)
    );
    assert_eq!(
        square().derivative([2., 0.5], vector, &mut budget),
        Err(Refusal::Evaluation)
    );
    assert_eq!(budget, 0);
    assert_eq!(
        square().derivative([0.; 2], vector, &mut budget),
        Err(Refusal::Units)
    );
    let vector = [f64::NAN, 0., 0.];
    assert_eq!(
        square().derivative([0.; 2], vector, &mut budget),
        Err(Refusal::Argument)
    );
    // Along u the square is 2 long, and the vector's product with that overflows.
    let long = Surface {
        controls: &NET.map(|x| 2. * x),
        ..square()
    };
    let [u, v] = long
        .derivative([0.; 2], [f64::MAX, 0., 0.], &mut 1)
        .unwrap();
    assert!(u == f64::INFINITY && v.is_nan());
}

#[test]
fn tells_collapsed_edges() {
    let edge = |value, point, side| Edge::Collapsed { value, point, side };
    let all = [
        edge(0., [0.5, 0., 0.], 1.),
        edge(1., [0.5, 1., 0.], -1.),
        edge(0., [0., 0.5, 0.], 1.),
        edge(1., [1., 0.5, 0.], -1.),
    ];
    assert_eq!(square().nurbs_singular(0.5), Ok(all));
    assert_eq!(
        square().nurbs_singular(f64::from_bits(0.5_f64.to_bits() - 1)),
        Ok([Edge::Open; 4])
    );
    assert_eq!(square().nurbs_singular(-1.), Err(Refusal::Argument));
    // The controls of u = 1 drawn together.
    let mut net = NET;
    net[9..].copy_from_slice(&NET[6..9]);
    let drawn = Surface {
        controls: &net,
        ..square()
    };
    let last = edge(1., [1., 0., 0.], -1.);
    assert_eq!(
        drawn.nurbs_singular(0.),
        Ok([Edge::Open, Edge::Open, Edge::Open, last])
    );
}

#[test]
fn locates_in_a_plane() {
    let frame = Frame {
        origin: [1., 2., 3.],
        u: [0., 1., 0.],
        v: [0., 0., 2.],
    };
    let mut budget = 1;
    assert_eq!(plane(&frame, [9., 5., 4.], &mut budget), Ok([3., 2.]));
    assert_eq!(
        plane(&frame, [9., 5., 4.], &mut budget),
        Err(Refusal::Units)
    );
    let tilted = Frame {
        v: [f64::NAN; 3],
        ..frame
    };
    assert_eq!(
        plane(&tilted, [9., 5., 4.], &mut budget),
        Err(Refusal::Argument)
    );
    assert_eq!(budget, 0);
}

/// The square and the mark twice.
fn job_file(tolerance: f64) -> Vec<u8> {
    job_file_in(0, &[], tolerance)
}

fn job_file_in(flags: u8, window: &[f64], tolerance: f64) -> Vec<u8> {
    let mut file = b"SF\x01\x01\x02\x00\x02\x00".to_vec();
    file.push(flags);
    for number in [&KNOTS[..], &KNOTS, &NET, &[1.; 4], window].concat() {
        file.extend(number.to_le_bytes());
    }
    file.extend(b"TL");
    file.extend(tolerance.to_le_bytes());
    file.extend(1000_u64.to_le_bytes());
    for _ in 0..2 {
        file.extend(b"MK");
        file.extend(MARK.map(f64::to_le_bytes).as_flattened());
    }
    file
}

#[test]
fn prints_a_job() {
    for (tolerance, left) in [(0.5, 816), (BELOW, 816), (0.75, 907), (1., 907)] {
        let printout = format!(
            "marks 2\n\
             3fd0000000000000 3fe0000000000000 908 0\n\
             3fd0000000000000 3fe0000000000000 {left} 0\n"
        );
        assert_eq!(job(&job_file(tolerance)), printout.as_bytes());
    }
    let file = job_file(0.5);
    for malformed in [&[], &file[..file.len() - 1], &[0; 32_769]] {
        assert_eq!(job(malformed), b"refused 12 at 0\n");
    }
}

#[test]
fn prints_a_job_with_a_window() {
    let print = |flags, window: &[f64]| String::from_utf8(job(&job_file_in(flags, window, 0.5)));
    let at = |u: f64| {
        let u = u.to_bits();
        Ok(format!(
            "marks 2\n{u:016x} 3fe0000000000000 908 0\n{u:016x} 3fe0000000000000 816 0\n"
        ))
    };
    assert_eq!(print(4, &[0., 1., 0., 1.]), at(0.25));
    assert_eq!(print(4, &[0.5, 1., 0., 1.]), at(0.5));
    assert_eq!(print(6, &[0.5, 1., 0., 1.]), at(0.5));
    assert_eq!(print(7, &[0., 1., 0., 1.]), at(0.25));
    let refused = "marks 2\nrefused 24 at 0\n";
    for (flags, window) in [(4, [1., 0.5, 0., 1.]), (5, [0.5, 1., 0., 1.])] {
        assert_eq!(print(flags, &window).as_deref(), Ok(refused));
    }
    let malformed = "refused 12 at 0\n";
    let four = [0., 1., 0., 1.];
    for (flags, window) in [(4, &four[..0]), (4, &four[..3]), (0, &four), (8, &four)] {
        assert_eq!(print(flags, window).as_deref(), Ok(malformed));
    }
}

#[test]
fn refusals_have_words() {
    let error = |mark| RowRefusal {
        refusal: Refusal::Units,
        mark,
    };
    let words = "no unit of the budget was left for an evaluation";
    assert_eq!(error(None).to_string(), words);
    assert_eq!(error(Some(3)).to_string(), format!("mark 3: {words}"));
    let error: &dyn std::error::Error = &error(None);
    assert_eq!(error.source().unwrap().to_string(), words);
    assert_eq!((Refusal::Row.number(), Refusal::Misfit.number()), (11, 99));
    assert_eq!(Refusal::from_number(24), Some(Refusal::Window));
    assert_eq!(Refusal::from_number(8), Some(Refusal::Units));
    assert_eq!(Refusal::from_number(13), None);
}

#[test]
fn ends_and_origins_have_numbers_and_words() {
    let ends: Vec<End> = (0..=u8::MAX).filter_map(End::from_number).collect();
    let words = [
        "unchanged",
        "next point further",
        "small step",
        "second singular point",
        "32 rounds",
    ];
    assert_eq!(ends.len(), words.len());
    for (number, (end, words)) in (0..).zip(ends.into_iter().zip(words)) {
        assert_eq!((end.number(), end.to_string()), (number, words.to_string()));
    }
    for number in 0..=6 {
        assert_eq!(Origin::from_number(number).unwrap().number(), number);
    }
    assert_eq!(Origin::from_number(7), None);
    assert_eq!(Origin::Hint.to_string(), "the hint");
    assert_eq!(Origin::Start(6).to_string(), "start 6");
}
