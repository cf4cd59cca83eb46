//! What the lines inserted into the second copy of `pcurve.rs` record: how a run of `newton`
//! ended, which run `invert_nurbs` took, at what distance, and how many points of the grid it
//! walked. `inserted/pcurve.txt` says where each line stands.
use std::cell::Cell;

/// The end of a run whose rounds are all gone; the lines hold the other ends.
const ROUNDS: u8 = 4;
const HINT: u8 = 0;

/// What is recorded of an inversion.
#[derive(Clone, Copy)]
pub(crate) struct Runs {
    /// Runs made since the first of the starts.
    made: u8,
    /// The end of the last run so far.
    end: u8,
    /// The last run taken.
    pub taken: Option<Taken>,
    /// How many points the grid has, once all of them are walked.
    pub points: Option<usize>,
}

/// The run whose pair stands as the answer.
#[derive(Clone, Copy)]
pub(crate) struct Taken {
    pub end: u8,
    pub origin: u8,
    pub distance: f64,
}

const NONE: Runs = Runs {
    made: 0,
    end: ROUNDS,
    taken: None,
    points: None,
};

thread_local! {
    static RUNS: Cell<Runs> = const { Cell::new(NONE) };
}

/// What an inversion by the second copy answers, and what it records.
pub(crate) fn recorded<T>(invert: impl FnOnce() -> T) -> (T, Runs) {
    RUNS.set(NONE);
    let answer = invert();
    (answer, RUNS.get())
}

fn change(change: impl FnOnce(&mut Runs)) {
    let mut runs = RUNS.get();
    change(&mut runs);
    RUNS.set(runs);
}

/// Before the rounds of a run.
pub(crate) fn run() {
    change(|runs| {
        runs.made += 1;
        runs.end = ROUNDS;
    });
}

/// Before a way out of the rounds.
pub(crate) fn end(end: u8) {
    change(|runs| runs.end = end);
}

/// After the last point of the grid.
pub(crate) fn grid(points: usize) {
    change(|runs| runs.points = Some(points));
}

/// Before the first start.
pub(crate) fn starts() {
    change(|runs| runs.made = 0);
}

/// Where the run of a start is the best so far.
pub(crate) fn start(distance: f64) {
    change(|runs| take(runs, runs.made, distance));
}

/// Where the run of the hint is accepted, or is the best of all.
pub(crate) fn hint(distance: f64) {
    change(|runs| take(runs, HINT, distance));
}

fn take(runs: &mut Runs, origin: u8, distance: f64) {
    runs.taken = Some(Taken {
        end: runs.end,
        origin,
        distance,
    });
}
