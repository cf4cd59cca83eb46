//! How the time of an evaluation grows with the degree, and that of a first placing with the grid
//! and with the controls beside it; and how long a job can take.
use bench::cases::{
    BEYOND, along, built, bumpy, full_job, lent, on, placed, room_for_marks, scaled, search,
};
use bench::{REPEATS, median, timed};
use oracle::calls::{Point, Surface};
use placing::raw;
use std::time::Instant;

fn main() {
    println!("{:<44} {:>12}", "an evaluation, tests included", "ns");
    for degree in [1, 2, 3, 4, 6, 8, 12, 16] {
        evaluation(degree, degree + 1);
    }
    for controls in [10, 30, 100, 300] {
        evaluation(3, controls);
    }
    println!();
    println!("{:<44} {:>12} {:>12}", "a first placing", "us", "plain, us");
    for controls in [4, 7, 12, 26, 50, 100, 300] {
        placing(3, controls);
    }
    for degree in [1, 2, 4, 8, 16] {
        placing(degree, degree + 9);
    }
    placing(16, 63);
    println!();
    println!(
        "{:<44} {:>12} {:>12}",
        "the longest job of a degree", "s", "plain, s"
    );
    for degree in [1, 2, 4, 8, 12, 16] {
        job(degree);
    }
}

fn evaluation(degree: usize, controls: usize) {
    let surface = bumpy(degree, controls);
    let lent = lent(&surface);
    let pairs: Vec<[f64; 2]> = along(100).collect();
    let call = |at: &[f64; 2]| {
        let mut jet = [0.; 9];
        assert_eq!(raw::evaluate(&lent, at[0], at[1], &mut jet), 0);
        jet[0]
    };
    let name = format!("degree {degree}, {controls} by {controls} controls");
    println!("{name:<44} {:>12.0}", repeated(&pairs, call));
}

/// On the surface, and on one beyond the bound on coordinates, which is evaluated the plain way.
fn placing(degree: usize, controls: usize) {
    let surface = bumpy(degree, controls);
    let name = format!(
        "degree {degree}, {controls} by {controls} controls, {0} by {0} grid",
        values(&surface)
    );
    let [quick, plain] = [1., BEYOND].map(|factor| first(&scaled(&surface, factor)) / 1000.);
    println!("{name:<44} {quick:>12.0} {plain:>12.0}");
}

fn first(surface: &Surface) -> f64 {
    let shell = built(surface);
    let marks: Vec<Point> = along(2).map(|at| on(&shell, at)).collect();
    let (lent, none) = (lent(surface), search(None));
    repeated(&marks, |mark: &Point| placed(&lent, *mark, &none)[0])
}

/// Every mark off the surface by more than the tolerance, so that none leads the next: the whole
/// grid is evaluated for each. The more controls, the finer the grid and the fewer marks fit.
fn job(degree: usize) {
    let work = |n: &usize| {
        let surface = bumpy(degree, *n);
        values(&surface).pow(2) * room_for_marks(&surface)
    };
    let controls = (degree + 1..=31).max_by_key(work).expect("some fit");
    let surface = bumpy(degree, controls);
    let marks = room_for_marks(&surface);
    let name = format!("degree {degree}, {controls} by {controls} controls, {marks} marks");
    let [quick, plain] = [1., BEYOND].map(|factor| {
        let file = full_job(&scaled(&surface, factor), factor);
        let start = Instant::now();
        let printout = placing::job(&file);
        let took = start.elapsed().as_secs_f64();
        let lines = printout.iter().filter(|&&byte| byte == b'\n').count();
        assert_eq!(lines, marks + 1, "every mark is placed");
        took
    });
    println!("{name:<44} {quick:>12.2} {plain:>12.2}");
}

/// How many values the grid has on an axis, by document 01.
fn values(surface: &Surface) -> usize {
    let mut knots = surface.knots[0].clone();
    knots.dedup();
    let stride = knots.len().div_ceil(24).max(1);
    8 * (knots.len() - 1).div_ceil(stride) + 1
}

fn repeated<T>(inputs: &[T], call: impl Fn(&T) -> f64) -> f64 {
    median((0..REPEATS).map(|_| timed(inputs, &call)).collect())
}
