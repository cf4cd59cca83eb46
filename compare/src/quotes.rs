//! Quotes, held to what the source takes of a budget and to the grid that it walks.
use crate::calls::{Compared, Watched, lent};
use oracle::calls::{Grid, Placed, Shell, Spent, Surface, check_axes};
use oracle::generate::{Inversion, Random, Row};
use oracle::job::Job;
use oracle::refusals::Refusal;
use oracle::row::Ended;
use placing::raw;
use std::collections::HashSet;
use std::hash::{DefaultHasher, Hash, Hasher};

/// What the runs of an inversion take at most, without a hint and with one.
const RUNS: [u64; 2] = [198, 264];

/// What the source did on a surface.
pub struct Work<'a> {
    surface: &'a Surface,
    /// Whether the first mark has a hint. Each later one may have one.
    hinted: bool,
    marks: u64,
    /// What all of them took.
    units: u64,
    /// The grid of an inversion, and whether its budget was enough.
    grid: Grid,
    enough: bool,
}

impl<'a> Work<'a> {
    pub fn inversion(case: &'a Inversion, spent: Spent<Placed>, grid: Grid) -> Self {
        Self {
            surface: &case.surface,
            hinted: case.search.hint.is_some(),
            marks: 1,
            units: case.budget - spent.left,
            grid,
            enough: spent.answer.err() != Some(Refusal::Units),
        }
    }

    /// Of the marks up to the refused one.
    pub fn row(case: &'a Row, ended: Ended) -> Self {
        let placed = |(_, at): (Refusal, usize)| at + 1;
        Self {
            surface: &case.surface,
            hinted: case.search.hint.is_some(),
            marks: ended.refused.map_or(case.marks.len() / 3, placed) as u64,
            units: case.budget - ended.left,
            grid: None,
            enough: false,
        }
    }

    /// Of the marks that a printout has.
    pub fn job(job: &'a Job, printout: &str) -> Self {
        let left = |line: &str| line.split(' ').nth(2)?.parse::<u64>().ok();
        let left: Vec<u64> = printout.lines().filter_map(left).collect();
        Self {
            surface: &job.surface,
            hinted: false,
            marks: left.len() as u64,
            units: left.last().map_or(0, |left| job.budget - left),
            grid: None,
            enough: false,
        }
    }

    /// The quotes of all marks together; nothing is taken on a surface that has none.
    fn most(&self, number: u64, [free, hinted]: [u64; 2]) -> u64 {
        match self.marks.checked_sub(1) {
            Some(later) if number == 0 => {
                let first = if self.hinted { hinted } else { free };
                first.saturating_add(later.saturating_mul(hinted))
            }
            _ => 0,
        }
    }
}

/// The number that a quote is refused with, and the buffer after it.
type Quote = (u64, Vec<u64>);

/// Compares the quotes without a hint and with one, and sees that no more than they tell was taken.
/// Where it is not told that the source walked the grid, the size in the first of them is believed.
pub fn compare(
    r: &mut Random,
    work: &Work,
    walked: &mut Walked,
    told: &mut impl FnMut(&'static str, Compared),
) {
    let number = refusal(work.surface).map_or(0, Refusal::number);
    let buffer: Vec<u64> = (0..2 + r.below(3)).map(|_| r.word()).collect();
    let watched = Watched::new(work.surface, &[]);
    let found = [0, 1].map(|hinted| quote(work.surface, hinted, &buffer));
    let grid = work.grid.map_or(found[0].1[0], |points| points as u64);
    let most = RUNS.map(|runs| grid.wrapping_add(runs));
    let sound = watched.same(work.surface, &[]) && work.units <= work.most(number, most);
    let same = [0, 1].map(|k| sound && found[k] == laid(number, [grid, most[k]], &buffer));
    if same == [true; 2] && work.grid.is_some() && work.enough {
        walked.add(work.surface);
    }
    for same in same {
        told("quote", Compared { number, same });
    }
}

/// What the source refuses of a surface whose controls and weights it does not see.
fn refusal(surface: &Surface) -> Option<Refusal> {
    match Shell::new(surface).err() {
        Some(Refusal::Controls | Refusal::Coordinate | Refusal::Weights) => {
            check_axes(surface).err()
        }
        refusal => refusal,
    }
}

fn quote(surface: &Surface, hinted: u64, buffer: &[u64]) -> Quote {
    let mut quote = buffer.to_vec();
    let number = raw::quote(&lent(surface), hinted, &mut quote);
    (number, quote)
}

/// Two numbers at the front of a buffer; a refusal leaves all of it.
fn laid(number: u64, front: [u64; 2], buffer: &[u64]) -> Quote {
    let mut laid = buffer.to_vec();
    if number == 0 {
        laid[..2].copy_from_slice(&front);
    }
    (number, laid)
}

/// Surfaces on which the grid that was walked has the size quoted, told apart by what a quote sees.
#[derive(Default)]
pub struct Walked(HashSet<u64>);

impl Walked {
    pub fn add(&mut self, surface: &Surface) {
        let mut hasher = DefaultHasher::new();
        let numbers = [&surface.knots[0], &surface.knots[1], surface.window()];
        let bits = numbers.map(|numbers| numbers.iter().map(|x| x.to_bits()).collect::<Vec<_>>());
        let counts = (surface.degrees, surface.shape, surface.periodic);
        (counts, bits).hash(&mut hasher);
        self.0.insert(hasher.finish());
    }

    pub fn count(&self) -> usize {
        self.0.len()
    }
}
