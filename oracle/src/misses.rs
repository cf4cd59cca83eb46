//! How often an inversion's pair misses the point nearest to its mark, by the end and by the
//! origin of the run that found it.
mod descent;
mod reference;
mod shells;
mod table;

use crate::calls::{Placed, Point, Search};
use crate::generate::Random;
use descent::{area, dot};
use reference::Reference;
pub use shells::{Kind, kinds};
pub use table::Table;

/// How far a mark is from a point of the shell at most, as a share of the shell's size.
const NEAR: f64 = 0.01;
const OFF: f64 = 0.3;
/// The percentage of the marks near the shell that are its points.
const ON: usize = 25;
/// In mm. Without a hint no inversion reads it.
const TOLERANCE: f64 = 0.01;

/// What one distance may exceed another by: a share of the other, or of the shell's size.
struct Bound {
    share: f64,
    floor: f64,
}
const MISSED: Bound = Bound {
    share: 1e-6,
    floor: 1e-9,
};
/// For the reference beside what the source finds.
const FURTHER: Bound = Bound {
    share: 1e-9,
    floor: 1e-12,
};

/// A mark's answer and the distances found for the mark.
pub struct Measured {
    pub placed: Placed,
    /// Whether the mark is one of those off the shell.
    pub off: bool,
    /// The shell's.
    pub size: f64,
    /// Of the pair.
    pub distance: f64,
    /// By descents from the grid's minima: no run of the source has a part in it.
    pub reference: f64,
    /// By runs of the source from the grid's minima.
    pub runs: f64,
    /// By a way downhill from the pair.
    pub descended: f64,
}

impl Measured {
    pub fn least(&self) -> f64 {
        let source = self.distance.min(self.runs);
        source.min(self.reference).min(self.descended)
    }

    pub fn missed(&self) -> bool {
        self.exceeds(self.distance, self.least(), MISSED)
    }

    /// Missed, and no way downhill from the pair leads to it.
    pub fn elsewhere(&self) -> bool {
        self.missed() && self.exceeds(self.descended, self.least(), MISSED)
    }

    /// Missed by more than the tolerance.
    pub fn over(&self) -> bool {
        self.missed() && self.distance - self.least() > TOLERANCE
    }

    /// The pair is as near as anything found.
    pub fn nearest(&self) -> bool {
        !self.exceeds(self.distance, self.least(), FURTHER)
    }

    /// The reference is further than the pair.
    pub fn beaten(&self) -> bool {
        self.exceeds(self.reference, self.distance, FURTHER)
    }

    /// The reference is further than anything else found.
    pub fn weak(&self) -> bool {
        self.exceeds(self.reference, self.least(), FURTHER)
    }

    fn exceeds(&self, distance: f64, other: f64, bound: Bound) -> bool {
        distance - other > (bound.share * other).max(bound.floor * self.size)
    }
}

/// So many marks of a kind, placed without hints; every second one is off the shell.
pub fn measure(kind: &Kind, count: usize, seed: u64) -> Vec<Measured> {
    let reference = Reference::new(&kind.surface);
    let size = reference.size();
    let mut random = Random::new(seed);
    let mut marks = Vec::new();
    for index in 0..count {
        let off = index % 2 == 1;
        let share = if off { OFF } else { NEAR } * random.unit();
        let on = !off && random.percent(ON);
        let apart = if on { 0. } else { share * size };
        marks.push((off, mark(&mut random, &reference, apart)));
    }
    let measured = |(off, mark)| measured(&reference, size, off, mark);
    marks.into_iter().map(measured).collect()
}

/// A point of the shell, moved so far in any direction.
fn mark(random: &mut Random, reference: &Reference, apart: f64) -> Point {
    let from = point(random, reference);
    let direction = direction(random);
    [0, 1, 2].map(|axis| from[axis] + apart * direction[axis])
}

/// A point of the shell, equal areas being equally likely.
fn point(random: &mut Random, reference: &Reference) -> Point {
    let domain = reference.shell.domain();
    loop {
        let pair = domain.map(|[low, high]| low + (high - low) * random.unit());
        let jet = reference.shell.evaluate(pair);
        let jet = jet.expect("a shell has all its points");
        if random.unit() * reference.density < area(jet.du, jet.dv) {
            return jet.point;
        }
    }
}

/// A vector of length 1, each direction as likely as any other.
fn direction(random: &mut Random) -> Point {
    loop {
        let vector = [0; 3].map(|_| random.signed());
        let length = dot(vector, vector).sqrt();
        if length > 0.1 && length <= 1. {
            return vector.map(|part| part / length);
        }
    }
}

fn measured(reference: &Reference, size: f64, off: bool, mark: Point) -> Measured {
    let search = Search {
        hint: None,
        tolerance: TOLERANCE,
        periods: [None; 2],
    };
    let placed = reference.shell.invert(mark, &search, u64::MAX).answer;
    let placed = placed.expect("a shell has all its points");
    let starts = reference.starts(mark);
    let descent = reference.descent(mark);
    Measured {
        placed,
        off,
        size,
        distance: descent.distance(placed.pair),
        reference: reference.descended(mark, &starts),
        runs: reference.run(mark, &starts),
        descended: descent.least_below(placed.pair),
    }
}
