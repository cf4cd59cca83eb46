//! Inversions of known end and origin: traps 22 to 25.
use super::Case;
use super::traps::{FREE, at_price, bezier, hinted, parabola, tolerant};
use crate::calls::{Point, Search, Surface};

/// An inversion, its price, and the end and the origin of the run that it takes.
pub struct Known {
    pub what: &'static str,
    pub surface: Surface,
    pub mark: Point,
    pub search: Search,
    pub price: u64,
    pub end: u8,
    pub origin: u8,
}

pub fn known() -> Vec<Known> {
    let all = [last_rounds(), nudges(), ties()];
    all.into_iter().flatten().collect()
}

pub fn cases() -> Vec<Case> {
    let at = |known: Known| at_price(&known.surface, known.mark, known.search);
    known().into_iter().flat_map(at).collect()
}

/// A hint whose run is accepted wherever it ends: its price is its evaluations.
fn accepted(u: f64, v: f64) -> Search {
    tolerant(hinted(u, v), f64::MAX)
}

/// Runs that use all rounds, however they end.
fn last_rounds() -> Vec<Known> {
    let run = |what, surface, mark, hint, price, end| Known {
        what,
        surface,
        mark,
        search: accepted(hint, 0.5),
        price,
        end,
        origin: 0,
    };
    let above = |z| [0., 0.5, z];
    let rim = above(0.);
    vec![
        run(
            "unchanged in round 32",
            far_parabola(),
            above(0.16),
            8.,
            32,
            0,
        ),
        run(
            "further in round 32",
            parabola(),
            above(0.2075),
            0.25,
            33,
            1,
        ),
        run("small in round 32", parabola(), above(0.165), 1., 33, 2),
        run("a step in round 32", parabola(), above(0.17), 1., 33, 4),
        run(
            "nudged in round 31, singular in 32",
            flattening(),
            rim,
            0.5,
            32,
            3,
        ),
        run("nudged in round 32", flattening(), rim, 0.6, 33, 4),
    ]
}

/// The parabola on a domain where a step that isn't small is at least an ulp.
fn far_parabola() -> Surface {
    let [_, v] = parabola().knots;
    Surface {
        knots: [vec![8., 8., 8., 9., 9., 9.], v],
        ..parabola()
    }
}

/// The point at (u, v) is (u^5, v, 0): each step toward u = 0 leaves 4/5 of u, until the
/// determinant is too small.
fn flattening() -> Surface {
    let point = |n: usize| [f64::from(u8::from(n / 2 == 5)), (n % 2) as f64, 0.];
    let [_, v] = Surface::square().knots;
    Surface {
        degrees: [5, 1],
        shape: [6, 2],
        knots: [bezier(5).knots, v],
        controls: (0..12).flat_map(point).collect(),
        weights: vec![1.; 12],
        ..Surface::square()
    }
}

/// Runs whose first round is a nudge. It may stay where it is, hardly move, or lead away from
/// the mark: what ends the run is a later round.
fn nudges() -> Vec<Known> {
    let run = |what, surface, mark, hint: [f64; 2], price, end| Known {
        what,
        surface,
        mark,
        search: accepted(hint[0], hint[1]),
        price,
        end,
        origin: 0,
    };
    let (dot, far) = (Surface::dot, [3., 4., 0.]);
    let near = 0.500_000_000_1;
    let nudged = [0.000_000_5, 0.000_000_25, 0.];
    vec![
        run("nudged, then unchanged", fan(), nudged, [0., 0.5], 2, 0),
        run(
            "nudged, in the end further",
            fan(),
            [0.3, 0.1, 0.],
            [0., 0.5],
            5,
            1,
        ),
        run(
            "nudged, in the end small",
            fan(),
            [0.5, 0.25, 0.],
            [0., 0.],
            5,
            2,
        ),
        run(
            "nudged away, singular at the mark",
            fan(),
            [0.; 3],
            [0., 0.25],
            3,
            3,
        ),
        run("nudged on the spot", dot(), far, [0.5, 0.5], 2, 3),
        run(
            "nudged by less than a small step",
            dot(),
            far,
            [near, 0.5],
            2,
            3,
        ),
    ]
}

/// The square with its edge at u = 0 collapsed: the point at (u, v) is (u, uv, 0).
fn fan() -> Surface {
    let mut surface = Surface::square();
    surface.controls[4] = 0.;
    surface
}

/// A net and a mark for which some starts' runs end at the same distance, in different ways.
struct Tie {
    heights: [f64; 9],
    mark: Point,
    /// Price and end without a hint.
    free: (u64, u8),
    /// A later start of these.
    hint: [f64; 2],
    /// Price and end with that hint.
    hinted: (u64, u8),
}

const TIES: [Tie; 5] = [
    Tie {
        heights: [1., 2., 1., 0., 0., 4., 0., 3., 0.],
        mark: [0., 1., 2.],
        free: (221, 0),
        hint: [0.125, 0.75],
        hinted: (287, 4),
    },
    Tie {
        heights: [0., 3., 3., 0., 3., 2., 0., 1., 0.],
        mark: [1.5, 1., 0.],
        free: (225, 4),
        hint: [1., 0.25],
        hinted: (281, 1),
    },
    Tie {
        heights: [0., 0., 2., 4., 2., 1., 4., 1., 4.],
        mark: [1., 0., 1.],
        free: (170, 2),
        hint: [0.25, 0.25],
        hinted: (194, 1),
    },
    Tie {
        heights: [0., 3., 1., 2., 1., 0., 2., 4., 4.],
        mark: [1.5, 0.5, 3.5],
        free: (272, 1),
        hint: [0.875, 0.625],
        hinted: (338, 4),
    },
    Tie {
        heights: [0., 2., 4., 4., 2., 0., 0., 3., 1.],
        mark: [0.5, 1.5, 1.5],
        free: (269, 4),
        hint: [0.375, 1.],
        hinted: (335, 1),
    },
];

/// Of runs that end at the same distance the first start's is taken, here that of start 1 to
/// 5 by the net's place, and before it the hint's.
fn ties() -> Vec<Known> {
    let starts = TIES.iter().zip(1..);
    starts
        .flat_map(|(tie, start)| known_ties(tie, start))
        .collect()
}

fn known_ties(tie: &Tie, start: u8) -> [Known; 2] {
    let known = |what, search, (price, end), origin| Known {
        what,
        surface: hills(tie.heights),
        mark: tie.mark,
        search,
        price,
        end,
        origin,
    };
    let hint = tolerant(hinted(tie.hint[0], tie.hint[1]), 0.);
    [
        known("a start, and later ones as near", FREE, tie.free, start),
        known("a hint that is such a later start", hint, tie.hinted, 0),
    ]
}

/// A net of three by three heights a unit apart.
fn hills(heights: [f64; 9]) -> Surface {
    let point = |n: usize| [(n / 3) as f64, (n % 3) as f64, heights[n]];
    Surface {
        degrees: [2; 2],
        shape: [3; 2],
        knots: [bezier(2).knots, bezier(2).knots],
        controls: (0..9).flat_map(point).collect(),
        weights: vec![1.; 9],
        ..Surface::square()
    }
}
