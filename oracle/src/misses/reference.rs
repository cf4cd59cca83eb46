//! The least distance of a mark from a whole shell: a grid, then descents from its minima.
use super::descent::{Descent, area, difference, dot};
use crate::calls::{Jet, Pair, Point, Search, Shell, Surface};

/// Cells of the grid along each axis.
const CELLS: usize = 600;
/// The most minima of the grid that are descended from.
const STARTS: usize = 30;
/// Two of them are so many cells apart on one axis at least.
const APART: usize = 12;

/// A shell, its flags, and its points on the grid, u slowest.
pub struct Reference {
    pub shell: Shell,
    periodic: [bool; 2],
    points: Vec<Point>,
    /// The largest area that the derivatives at a point of the grid span.
    pub density: f64,
}

type Place = [usize; 2];

impl Reference {
    pub fn new(surface: &Surface) -> Self {
        let shell = Shell::new(surface).expect("a shell passes all checks");
        let jet = |place| shell.evaluate(pair_at(&shell, place));
        let jets: Result<Vec<Jet>, _> = places().map(jet).collect();
        let jets = jets.expect("a shell has all its points");
        let densities = jets.iter().map(|jet| area(jet.du, jet.dv));
        Self {
            density: densities.fold(0., f64::max),
            points: jets.iter().map(|jet| jet.point).collect(),
            periodic: surface.periodic,
            shell,
        }
    }

    pub fn descent(&self, mark: Point) -> Descent<'_> {
        Descent {
            shell: &self.shell,
            periodic: self.periodic,
            mark,
        }
    }

    /// The diagonal of the box around the grid's points.
    pub fn size(&self) -> f64 {
        let sides = [0, 1, 2].map(|axis| {
            let along = || self.points.iter().map(|point| point[axis]);
            along().fold(f64::MIN, f64::max) - along().fold(f64::MAX, f64::min)
        });
        dot(sides, sides).sqrt()
    }

    /// Minima of the distance over the grid, nearest first, each apart from those before it.
    pub fn starts(&self, mark: Point) -> Vec<Pair> {
        let apart = self.points.iter().map(|&point| difference(point, mark));
        let squares: Vec<f64> = apart.map(|apart| dot(apart, apart)).collect();
        let at = |[i, j]: Place| squares[i * (CELLS + 1) + j];
        let mut minima: Vec<Place> = places().filter(|&place| is_least(place, at)).collect();
        minima.sort_by(|&a, &b| at(a).total_cmp(&at(b)));
        let mut starts: Vec<Place> = Vec::new();
        for place in minima {
            if starts.len() < STARTS && starts.iter().all(|&other| are_apart(place, other)) {
                starts.push(place);
            }
        }
        let pairs = starts.into_iter().map(|place| pair_at(&self.shell, place));
        pairs.collect()
    }

    /// The least distance that descents from these starts find.
    pub fn descended(&self, mark: Point, starts: &[Pair]) -> f64 {
        let descent = self.descent(mark);
        least(starts.iter().map(|&start| descent.least_from(start)))
    }

    /// The least distance that runs of the source from these starts find.
    pub fn run(&self, mark: Point, starts: &[Pair]) -> f64 {
        let descent = self.descent(mark);
        least(starts.iter().map(|&start| {
            let search = Search {
                hint: Some(start),
                tolerance: f64::MAX,
                periods: [None; 2],
            };
            let pair = self.shell.pair(mark, &search, u64::MAX).answer;
            descent.distance(pair.expect("a shell has all its points"))
        }))
    }
}

fn places() -> impl Iterator<Item = Place> {
    (0..=CELLS).flat_map(|i| (0..=CELLS).map(move |j| [i, j]))
}

fn least(distances: impl Iterator<Item = f64>) -> f64 {
    distances.fold(f64::INFINITY, f64::min)
}

fn pair_at(shell: &Shell, place: Place) -> Pair {
    let domain = shell.domain();
    [0, 1].map(|axis| {
        let [low, high] = domain[axis];
        (low + (high - low) * place[axis] as f64 / CELLS as f64).min(high)
    })
}

fn are_apart(a: Place, b: Place) -> bool {
    (0..2).any(|axis| a[axis].abs_diff(b[axis]) >= APART)
}

/// Whether none of a place's neighbours is less.
fn is_least([i, j]: Place, at: impl Fn(Place) -> f64) -> bool {
    let here = at([i, j]);
    let near = |place: usize| place.saturating_sub(1)..=(place + 1).min(CELLS);
    near(i).all(|i| near(j).all(|j| at([i, j]) >= here))
}
