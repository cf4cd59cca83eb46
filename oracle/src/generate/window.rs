//! Windows on the shell, those that check 24 refuses included, and calls on them: traps 27 to 29.
mod known;

use super::arguments::{Ground, inside, off};
use super::cases::{budget_on, row_of, times};
use super::jobs::{damaged, fault, job_of};
use super::random::Random;
use super::surfaces::{dense_surface, misfit, singular_edges, small, sound, spoil};
use super::{Case, Inversion};
use crate::calls::{Pair, Point, Search, Surface, Window};

pub fn evaluations(r: &mut Random) -> Vec<Case> {
    [known::evaluations(), times(r, 150, evaluation)].concat()
}

pub fn inversions(r: &mut Random) -> Vec<Case> {
    [known::inversions(), times(r, 900, inversion)].concat()
}

pub fn calls(r: &mut Random) -> Vec<Case> {
    let drawn = [times(r, 120, derivative), times(r, 100, singular)];
    [known::calls(), drawn.concat()].concat()
}

pub fn rows(r: &mut Random) -> Vec<Case> {
    [known::rows(), times(r, 300, row)].concat()
}

pub fn jobs(r: &mut Random) -> Vec<Case> {
    [known::jobs(), times(r, 200, job)].concat()
}

/// Five inversions, and a case of each other call.
pub fn windows(r: &mut Random) -> Vec<Case> {
    let others = [evaluation, derivative, singular, row, job];
    [times(r, 5, inversion), others.map(|case| case(r)).to_vec()].concat()
}

fn evaluation(r: &mut Random) -> Case {
    let Lent { ground, surface } = Lent::new(r).at_fault(r);
    let pair = |r: &mut Random| match r.below(3) {
        0 => within(r, ground.window()),
        _ => ground.pair(r),
    };
    let pairs = (0..4).map(|_| pair(r)).collect();
    Case::Evaluate(surface, pairs)
}

fn derivative(r: &mut Random) -> Case {
    let Lent { ground, surface } = Lent::new(r).at_fault(r);
    let uv = ground.inside(r);
    let vector = ground.mark(r);
    let budget = r.pick(&[1, 1, 1, 0, 7, u64::MAX]);
    Case::Derivative(surface, uv, vector, budget)
}

fn singular(r: &mut Random) -> Case {
    let Lent { surface, .. } = Lent::new(r).at_fault(r);
    let tolerance = r.pick(&[0., 0., -0., 0.5, 1., 1e-9, f64::MAX, -1., f64::NAN]);
    Case::Singular(singular_edges(r, surface), tolerance)
}

fn inversion(r: &mut Random) -> Case {
    let Lent { ground, surface } = Lent::new(r).at_fault(r);
    let mark = mark(r, &ground);
    let search = search(r, &ground, mark);
    Case::Invert(Inversion {
        budget: budget_on(r, &surface, mark, &search),
        surface,
        mark,
        search,
    })
}

fn row(r: &mut Random) -> Case {
    let Lent { ground, surface } = Lent::new(r).at_fault(r);
    let first = mark(r, &ground);
    let search = row_search(r, &ground, first);
    let mut marks = marks(r, &ground, first);
    if r.percent(3) {
        marks.pop();
    }
    Case::Row(row_of(r, surface, marks, search))
}

fn job(r: &mut Random) -> Case {
    let Lent {
        ground,
        mut surface,
    } = Lent::new(r);
    if r.percent(6) {
        fault(r, &mut surface);
    }
    let first = mark(r, &ground);
    let tolerance = row_search(r, &ground, first).tolerance;
    let marks = marks(r, &ground, first);
    let file = job_of(r, surface, marks, tolerance).write();
    Case::Job(if r.percent(15) {
        damaged(r, file)
    } else {
        file
    })
}

/// A surface in a sound window, and the same as it is lent, at times in one that is refused.
struct Lent {
    ground: Ground,
    surface: Surface,
}

impl Lent {
    fn new(r: &mut Random) -> Self {
        let bare = Ground::new(surface(r));
        let window = [0, 1].map(|k| Axis::new(&bare, k).window(r));
        let domain = bare.domain();
        let ground = Ground::new(bare.surface.within(window));
        let mut surface = ground.surface.clone();
        if r.percent(14) {
            refuse(r, &mut surface, window, domain);
        }
        Self { ground, surface }
    }

    /// At times with a fault of the surface beside.
    fn at_fault(mut self, r: &mut Random) -> Self {
        if r.percent(5) {
            let fault = r.pick(&[spoil, misfit]);
            fault(r, &mut self.surface);
        }
        self
    }
}

/// A surface whose flags are mostly clear. 0 is an end of its domains, or a knot in them, of either
/// sign.
fn surface(r: &mut Random) -> Surface {
    let mut surface = match r.below(100) {
        0..42 => small(r),
        42..94 => sound(r),
        _ => dense_surface(r),
    };
    if r.percent(65) {
        surface.periodic = [false; 2];
    }
    for knots in &mut surface.knots {
        if r.percent(40) {
            let zero = r.pick(knots);
            knots.iter_mut().for_each(|knot| *knot -= zero);
        }
        if r.percent(40) {
            for knot in knots.iter_mut().filter(|knot| **knot == 0.) {
                *knot = r.pick(&[0., -0.]);
            }
        }
    }
    surface
}

/// An axis that a window is drawn for.
struct Axis {
    domain: [f64; 2],
    /// Distinct, from one end of the domain to the other.
    knots: Vec<f64>,
    periodic: bool,
}

impl Axis {
    fn new(ground: &Ground, k: usize) -> Self {
        let domain = ground.domain()[k];
        let lent = ground.surface.knots[k].iter().copied();
        let mut knots: Vec<f64> = lent.filter(|&t| domain[0] <= t && t <= domain[1]).collect();
        knots.dedup();
        if knots.len() < 2 {
            knots = domain.to_vec();
        }
        Self {
            domain,
            knots,
            periodic: ground.surface.periodic[k],
        }
    }

    /// A sound window. It is the domain where what is drawn is none.
    fn window(&self, r: &mut Random) -> [f64; 2] {
        let [lowest, highest] = self.domain;
        if self.periodic {
            return self.domain.map(|end| either_zero(r, end));
        }
        let [low, high] = match r.below(100) {
            0..6 => self.domain,
            6..16 => self.domain.map(|end| either_zero(r, end)),
            16..28 => [either_zero(r, lowest), self.end(r)],
            28..40 => [self.end(r), either_zero(r, highest)],
            40..55 => sorted([self.end(r), self.end(r)]),
            55..65 => self.narrow(r),
            65..80 => self.spans(r, 2),
            _ => {
                let breaks = r.pick(&[2, 3, 23, 24, 25, 26, 47, 48, 49, 50, 72, 73]);
                self.spans(r, breaks)
            }
        };
        if lowest <= low && low < high && high <= highest {
            [low, high]
        } else {
            self.domain
        }
    }

    /// Anywhere, at a knot, or next to one.
    fn end(&self, r: &mut Random) -> f64 {
        let knot = r.pick(&self.knots);
        match r.below(10) {
            0..4 => inside(r, self.domain),
            4..8 => either_zero(r, knot),
            8 => knot.next_up(),
            _ => knot.next_down(),
        }
    }

    /// One to four floats wide.
    fn narrow(&self, r: &mut Random) -> [f64; 2] {
        let low = self.end(r);
        let high = (0..=r.below(4)).fold(low, |at, _| at.next_up());
        if high <= self.domain[1] {
            [low, high]
        } else {
            [low.next_down(), low]
        }
    }

    /// So many breaks, or fewer where there are not as many; either end may lie inside the span
    /// that it bounds.
    fn spans(&self, r: &mut Random, breaks: usize) -> [f64; 2] {
        let breaks = breaks.min(self.knots.len());
        let first = r.below(self.knots.len() - breaks + 1);
        let last = first + breaks - 1;
        let bounds = [[first, first + 1], [last, last - 1]];
        let ends = bounds.map(|[end, next]| {
            let [end, next] = [end, next].map(|at| self.knots[at]);
            if r.percent(50) {
                either_zero(r, end)
            } else {
                inside(r, [end, next])
            }
        });
        sorted(ends)
    }
}

fn sorted([a, b]: [f64; 2]) -> [f64; 2] {
    if b < a { [b, a] } else { [a, b] }
}

/// A zero of either sign for a zero.
fn either_zero(r: &mut Random, end: f64) -> f64 {
    if end == 0. && r.percent(60) {
        -end
    } else {
        end
    }
}

/// Puts the surface in a window that is refused: not finite, not rising, beyond the domain, or
/// other than it on a periodic axis.
fn refuse(r: &mut Random, surface: &mut Surface, mut window: Window, domain: Window) {
    let (k, end) = (r.below(2), r.below(2));
    let (ends, [lowest, highest]) = (&mut window[k], domain[k]);
    match r.below(10) {
        0 => ends[end] = f64::NAN,
        1 => ends[end] = r.pick(&[f64::INFINITY, f64::NEG_INFINITY]),
        2 => *ends = [ends[end]; 2],
        3 => ends.reverse(),
        4 => ends[0] = lowest.next_down(),
        5 => ends[1] = highest.next_up(),
        6 => ends[end] = r.special(),
        7 => *ends = [lowest - (highest - lowest), highest + (highest - lowest)],
        _ => {
            surface.periodic[k] = true;
            *ends = domain[k];
            ends[end] = match (r.percent(30), end) {
                (true, 0) => lowest.next_up(),
                (true, _) => highest.next_down(),
                (false, _) => inside(r, domain[k]),
            };
        }
    }
    surface.window = Some(window);
}

/// A pair of the window, often on its rim.
fn within(r: &mut Random, window: Window) -> Pair {
    window.map(|ends| {
        if r.percent(25) {
            r.pick(&ends)
        } else {
            inside(r, ends)
        }
    })
}

/// On the window, near it, elsewhere on the surface, or anywhere.
fn mark(r: &mut Random, ground: &Ground) -> Point {
    let uv = match r.below(100) {
        0..45 => within(r, ground.window()),
        45..70 => ground.inside(r),
        _ => return ground.mark(r),
    };
    let point = ground.point(uv).unwrap_or([0.25, 0.5, 0.75]);
    off(r, point)
}

/// One to eight marks that are finite.
fn marks(r: &mut Random, ground: &Ground, first: Point) -> Vec<f64> {
    let mut marks = vec![first];
    for _ in 0..r.below(8) {
        let next = mark(r, ground);
        marks.push(if next.iter().all(|x| x.is_finite()) {
            next
        } else {
            first
        });
    }
    marks.concat()
}

/// Hints lie in the window, on its rim, elsewhere in the domain, or anywhere.
fn search(r: &mut Random, ground: &Ground, mark: Point) -> Search {
    let mut search = ground.search(r, mark);
    if r.percent(60) {
        let hint = match r.below(3) {
            0 | 1 => within(r, ground.window()),
            _ => ground.inside(r),
        };
        search.hint = Some(hint);
        if r.percent(40) {
            let reached = ground.reached(r, mark, search.hint);
            search.tolerance = reached.unwrap_or(search.tolerance);
        }
    }
    search
}

fn row_search(r: &mut Random, ground: &Ground, mark: Point) -> Search {
    let mut search = search(r, ground, mark);
    if r.percent(60) {
        search.tolerance = r.pick(&[0., 1e-9, 0.01, 0.3, 1., f64::MAX]);
    }
    search
}
