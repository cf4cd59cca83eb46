//! What the second copy of `pcurve.rs` reads in place of the knot domain: the window.
//! `inserted/pcurve.txt` says where.
use crate::calls::Window;
use std::cell::Cell;
use tessstep_curves::spline::KnotVector;
use tessstep_math::ModelSpace;
use tessstep_surfaces::NurbsSurface;

thread_local! {
    static WINDOW: Cell<Option<Window>> = const { Cell::new(None) };
}

/// What an inversion by the second copy answers with this window. On a periodic axis it is the
/// knot domain.
pub(crate) fn within<T>(window: Window, invert: impl FnOnce() -> T) -> T {
    WINDOW.set(Some(window));
    let answer = invert();
    WINDOW.set(None);
    answer
}

fn window() -> Window {
    WINDOW.get().expect("the copy has a window")
}

/// Instead of the domain to which runs are clamped, and which has their centre and span.
pub(crate) fn run(_domain: Window) -> Window {
    window()
}

/// Instead of the surface whose axes the grid divides.
pub(crate) fn grid(nurbs: &NurbsSurface<ModelSpace>) -> Axes {
    let [u, v] = nurbs.knot_vectors();
    let [within_u, within_v] = window();
    Axes([cut(u, within_u), cut(v, within_v)])
}

pub(crate) struct Axes([Axis; 2]);

impl Axes {
    pub(crate) fn knot_vectors(&self) -> [&Axis; 2] {
        self.0.each_ref()
    }
}

/// As much of an axis as the grid reads.
pub(crate) struct Axis {
    knots: Vec<f64>,
    ends: [f64; 2],
}

impl Axis {
    pub(crate) fn knots(&self) -> &[f64] {
        &self.knots
    }

    pub(crate) fn domain(&self) -> [f64; 2] {
        self.ends
    }
}

/// The knots strictly inside the window, between its ends. In place of an end that equals the
/// domain's stand the knots that equal it, and the domain's own bits.
fn cut(axis: &KnotVector, [low, high]: [f64; 2]) -> Axis {
    let [lowest, highest] = axis.domain();
    let (from_start, to_end) = (low == lowest, high == highest);
    let inside = |t: &f64| {
        let above = *t > low || (from_start && *t == low);
        let below = *t < high || (to_end && *t == high);
        above && below
    };
    let mut knots: Vec<f64> = axis.knots().iter().copied().filter(inside).collect();
    if !from_start {
        knots.insert(0, low);
    }
    if !to_end {
        knots.push(high);
    }
    let ends = [
        if from_start { lowest } else { low },
        if to_end { highest } else { high },
    ];
    Axis { knots, ends }
}
