//! Inputs of every kind, fixed by a seed.
mod arguments;
mod brink;
mod cases;
pub(crate) mod ends;
mod jobs;
pub(crate) mod lead;
mod random;
mod surfaces;
mod traps;
mod window;

use crate::calls::{Pair, Point, Search, Surface};
use crate::small::{Axis, KnotSide};

pub use brink::brinks;
pub use cases::{derivative, evaluate, inversion, plane, row, singular, small_inversion};
pub use jobs::job;
pub use lead::leads;
pub use random::Random;
pub use window::windows;

/// An input of one call.
#[derive(Clone, Debug)]
pub enum Case {
    Weights(Vec<f64>),
    Knots(Axis),
    Snap(Axis, f64),
    Span(Axis, f64, KnotSide),
    Basis(Axis, f64, KnotSide),
    /// Knot domain of a flagged axis, parameter.
    Wrap([f64; 2], f64),
    /// Surface, pairs; without a pair the checks alone.
    Evaluate(Surface, Vec<Pair>),
    /// Value, hint, period.
    Nearest([f64; 3]),
    Invert(Inversion),
    /// Frame (origin, x, y), mark, budget.
    Plane([Point; 3], Point, u64),
    /// Surface, pair, vector, budget.
    Derivative(Surface, Pair, Point, u64),
    /// Surface, tolerance.
    Singular(Surface, f64),
    Row(Row),
    Job(Vec<u8>),
}

#[derive(Clone, Debug)]
pub struct Inversion {
    pub surface: Surface,
    pub mark: Point,
    pub search: Search,
    pub budget: u64,
}

/// What is lent to a row.
#[derive(Clone, Debug)]
pub struct Row {
    pub surface: Surface,
    pub marks: Vec<f64>,
    pub search: Search,
    pub budget: u64,
    pub answers: Vec<f64>,
    pub ends: Vec<u8>,
}

/// A set of stored answers: its name and its cases.
pub struct Set {
    pub name: &'static str,
    pub cases: fn(&mut Random) -> Vec<Case>,
}

/// The sets; the cases that TRAPS.md lists come first in each. Those at the brink of a limit,
/// those of marks that lead and those of windows come last, each from a stream of its own, so that
/// what is drawn after them stays as it is.
pub const SETS: [Set; 6] = [
    Set {
        name: "spline",
        cases: |r| [traps::spline(), cases::splines(r)].concat(),
    },
    Set {
        name: "surface",
        cases: |r| {
            [
                traps::surface(),
                cases::surfaces(r),
                window::evaluations(&mut r.beside()),
            ]
            .concat()
        },
    },
    Set {
        name: "inversion",
        cases: |r| {
            [
                traps::inversion(),
                cases::inversions(r),
                brink::inversions(&mut r.apart()),
                window::inversions(&mut r.beside()),
            ]
            .concat()
        },
    },
    Set {
        name: "calls",
        cases: |r| {
            [
                traps::calls(),
                cases::calls(r),
                brink::calls(&mut r.apart()),
                window::calls(&mut r.beside()),
            ]
            .concat()
        },
    },
    Set {
        name: "row",
        cases: |r| {
            [
                traps::row(),
                cases::rows(r),
                brink::rows(&mut r.apart()),
                lead::rows(&mut r.aside()),
                window::rows(&mut r.beside()),
            ]
            .concat()
        },
    },
    Set {
        name: "job",
        cases: |r| {
            [
                traps::job(),
                jobs::jobs(r),
                lead::jobs(&mut r.aside()),
                window::jobs(&mut r.beside()),
            ]
            .concat()
        },
    },
];
