//! Rows and jobs of marks that lead the next, their runs' ends being within the tolerance, and of
//! marks that are lost, after which the next has no hint: trap 26.
use super::Case;
use super::arguments::Ground;
use super::cases::{row_of, times};
use super::jobs::job_of;
use super::random::{Random, power};
use super::surfaces::{small, sound};
use super::traps::{FREE, hinted, row_at_price, shifted, tolerant};
use crate::calls::{Pair, Point, Search, Surface};
use crate::refusals::Refusal;
use crate::row::walk;

/// A row, what it writes, its price and its refusal.
pub struct Known {
    pub what: &'static str,
    pub surface: Surface,
    pub marks: Vec<Point>,
    pub search: Search,
    pub pairs: Vec<Pair>,
    pub price: u64,
    pub refused: Option<(Refusal, usize)>,
}

pub fn rows(r: &mut Random) -> Vec<Case> {
    let at = |known: Known| row_at_price(&known.surface, known.marks.as_flattened(), known.search);
    let known = known().into_iter().flat_map(at);
    known.chain(times(r, 400, row)).collect()
}

pub fn jobs(r: &mut Random) -> Vec<Case> {
    times(r, 100, job)
}

/// A case of each call.
pub fn leads(r: &mut Random) -> Vec<Case> {
    [row, job].map(|case| case(r)).to_vec()
}

fn row(r: &mut Random) -> Case {
    let ground = ground(r);
    let marks = marks(r, &ground);
    let mut search = search(r, &ground);
    search.tolerance = tolerance(r, &ground.surface, &marks, search);
    Case::Row(row_of(r, ground.surface, marks, search))
}

fn job(r: &mut Random) -> Case {
    let ground = ground(r);
    let marks = marks(r, &ground);
    let tolerance = tolerance(r, &ground.surface, &marks, FREE);
    Case::Job(job_of(r, ground.surface, marks, tolerance).write())
}

fn ground(r: &mut Random) -> Ground {
    Ground::new(if r.percent(75) { small(r) } else { sound(r) })
}

/// Two to eight marks, some of them twice: points of the surface, and others off it.
fn marks(r: &mut Random, ground: &Ground) -> Vec<f64> {
    let mut marks = Vec::new();
    for _ in 0..2 + r.below(7) {
        let again = !marks.is_empty() && r.percent(25);
        let mark = if again {
            r.pick(&marks)
        } else {
            mark(r, ground)
        };
        marks.push(mark);
    }
    marks.concat()
}

fn mark(r: &mut Random, ground: &Ground) -> Point {
    let uv = ground.inside(r);
    let point = ground.point(uv).unwrap_or([0.25, 0.5, 0.75]);
    let size = point.iter().fold(0.125, |size: f64, x| size.max(x.abs()));
    let by = r.pick(&[0., 0., 0., 0.03, 0.3, 3.]);
    point.map(|x| (x + by * size * r.signed()).clamp(-f64::MAX, f64::MAX))
}

/// A hint or none, and periods that may carry an answer turns away from its run's end, or to
/// infinity.
fn search(r: &mut Random, ground: &Ground) -> Search {
    let inside = ground.inside(r);
    if r.percent(35) {
        return Search {
            hint: r.percent(40).then_some(inside),
            ..FREE
        };
    }
    let domain = ground.domain();
    let periods = domain.map(|[lo, hi]| period(r, hi - lo));
    let turn = |k: usize, r: &mut Random| match periods[k] {
        Some(period) if period > 1e-200 => inside[k] + period * r.pick(&[0., 1., -1., 3., -40.]),
        Some(_) => r.pick(&[inside[k], 1e300, -1e300]),
        None => inside[k],
    };
    let hint = [turn(0, r), turn(1, r)];
    Search {
        hint: (r.percent(80) && hint.iter().all(|x| x.is_finite())).then_some(hint),
        periods,
        ..FREE
    }
}

fn period(r: &mut Random, length: f64) -> Option<f64> {
    let period = match r.below(100) {
        0..30 => return None,
        30..55 => length,
        55..85 => length * (0.1 + r.unit()),
        85..93 => 1e-300,
        _ => power(-1074),
    };
    (period > 0. && period.is_finite()).then_some(period)
}

/// Mostly the distance at which a mark before the last is placed, or its neighbour on either side.
fn tolerance(r: &mut Random, surface: &Surface, marks: &[f64], search: Search) -> f64 {
    let any = r.pick(&[0., -0., 1e-9, 1e-3, 0.125, 0.5, 1., f64::MAX]);
    if r.percent(35) {
        return any;
    }
    let at = r.below(marks.len() / 3 - 1);
    let Some(met) = met(surface, marks, tolerant(search, any), at) else {
        return any;
    };
    let near = r.pick(&[met, met, met.next_down(), met.next_up()]);
    if near.is_finite() && near >= 0. {
        near
    } else {
        any
    }
}

/// A mark's distance in a row whose tolerance is that distance, where four tries find it, and else
/// the last one tried: the tolerance decides on hints, and so on distances.
fn met(surface: &Surface, marks: &[f64], mut search: Search, at: usize) -> Option<f64> {
    for _ in 0..4 {
        let mut distances = Vec::new();
        walk(surface, marks, &search, u64::MAX, |placed, _| {
            distances.push(placed.distance);
        });
        let distance = distances.get(at).copied()?;
        if distance == search.tolerance || !distance.is_finite() {
            break;
        }
        search.tolerance = distance;
    }
    Some(search.tolerance)
}

const MARK: Point = [0.25, 0.5, 0.75];
/// Its pair on the square, 0.75 away.
const BELOW: Pair = [0.25, 0.5];

/// Rows on the square.
pub fn known() -> Vec<Known> {
    [at_the_tolerance(), far_and_near(), turned()]
        .into_iter()
        .flatten()
        .collect()
}

/// The mark twice.
fn twice(what: &'static str, search: Search, pairs: [Pair; 2], price: u64) -> Known {
    Known {
        what,
        surface: Surface::square(),
        marks: vec![MARK; 2],
        search,
        pairs: pairs.to_vec(),
        price,
        refused: None,
    }
}

fn at_the_tolerance() -> Vec<Known> {
    let row = |what, tolerance, price| twice(what, tolerant(FREE, tolerance), [BELOW; 2], price);
    let (within, beyond) = (0.75_f64.next_up(), 0.75_f64.next_down());
    let on = Known {
        marks: vec![[0.25, 0.5, 0.]; 2],
        ..row("a mark on the surface leads at tolerance -0", -0., 93)
    };
    vec![
        row("a mark at the tolerance leads the next", 0.75, 93),
        row("a mark a float within it leads the next", within, 93),
        row("a mark a float beyond it leads none", beyond, 184),
        on,
    ]
}

fn far_and_near() -> Vec<Known> {
    let lost = [0.5, 0.5, 9.];
    let [here, there] = [[0.25, 0.5, 0.], [0.75, 0.5, 0.]];
    let what = "after a lost mark the next has no hint, and leads again";
    let between = Known {
        marks: vec![here, lost, there, there],
        pairs: vec![BELOW, [0.5; 2], [0.75, 0.5], [0.75, 0.5]],
        ..twice(what, FREE, [BELOW; 2], 92 + 96 + 92 + 1)
    };
    let what = "a mark infinitely far leads none at the largest tolerance";
    let largest = tolerant(FREE, f64::MAX);
    let infinite = Known {
        marks: vec![[1e200, 0., 0.], here],
        ..twice(what, largest, [[1., 0.], BELOW], 83 + 92)
    };
    let what = "after a lost mark the caller's hint is gone too";
    let caller = twice(what, hinted(0.5, 0.5), [BELOW; 2], 96 + 92);
    vec![between, infinite, caller]
}

/// Rows whose first answer is shifted.
fn turned() -> Vec<Known> {
    let turns = shifted(hinted(5.25, -3.5), [1.; 2]);
    let away = Search {
        periods: [Some(1e-300), None],
        ..hinted(1e300, 0.5)
    };
    let near = |search| tolerant(search, 0.75);
    let (turned, gone) = ([5.25, -3.5], [f64::INFINITY, 0.5]);
    let what = "an answer within the tolerance shifted to infinity: 7 for the next";
    let refused = Known {
        pairs: vec![gone],
        refused: Some((Refusal::Argument, 1)),
        ..twice(what, near(away), [gone; 2], 2)
    };
    let lost = |what, search, first| twice(what, search, [first, BELOW], 96 + 92);
    vec![
        twice(
            "an answer shifted by turns leads",
            near(turns),
            [turned; 2],
            2 + 2,
        ),
        lost(
            "a lost answer shifted by turns shifts no other",
            turns,
            turned,
        ),
        refused,
        lost(
            "a lost answer shifted to infinity: the next is placed",
            away,
            gone,
        ),
    ]
}
