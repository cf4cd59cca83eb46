//! Job files, well-formed and damaged.
use super::Case;
use super::arguments::{Ground, budget};
use super::cases::{marks, row_price};
use super::random::Random;
use super::surfaces::{small, sound};
use crate::calls::{Search, Surface};
use crate::job::{Job, MOST_BYTES};

pub fn jobs(r: &mut Random) -> Vec<Case> {
    (0..520).map(|_| Case::Job(job(r))).collect()
}

/// A job file, damaged in about a third of the cases.
pub fn job(r: &mut Random) -> Vec<u8> {
    let file = well_formed(r).write();
    if r.percent(35) {
        damaged(r, file)
    } else {
        file
    }
}

fn well_formed(r: &mut Random) -> Job {
    let mut surface = if r.percent(70) { small(r) } else { sound(r) };
    if r.percent(12) {
        fault(r, &mut surface);
    }
    job_on(r, surface)
}

pub fn job_on(r: &mut Random, surface: Surface) -> Job {
    let ground = Ground::new(surface);
    let mut marks = marks(r, &ground);
    marks.truncate(marks.len() / 3 * 3);
    let tolerance = if r.percent(5) {
        r.special()
    } else {
        r.pick(&[0., -0., 1e-9, 0.01, 0.3, 0.5, 1., f64::MAX])
    };
    job_of(r, ground.surface, marks, tolerance)
}

/// With a budget.
pub fn job_of(r: &mut Random, surface: Surface, marks: Vec<f64>, tolerance: f64) -> Job {
    let search = Search {
        hint: None,
        tolerance,
        periods: [None; 2],
    };
    let price = row_price(&surface, &marks, &search);
    Job {
        surface,
        tolerance,
        budget: budget(r, price),
        marks,
    }
}

/// A fault that leaves the file well-formed.
pub fn fault(r: &mut Random, surface: &mut Surface) {
    let k = r.below(2);
    let knots = &mut surface.knots[k];
    match r.below(5) {
        0 => {
            surface.degrees[k] = r.pick(&[0, 17, 255]);
            knots.resize(surface.shape[k] + surface.degrees[k] + 1, 1.);
        }
        1 => knots[0] = r.special(),
        2 => surface.controls[k] = r.special(),
        3 => surface.weights[k] = r.special(),
        _ => {
            surface.shape[k] = 0;
            knots.truncate(surface.degrees[k] + 1);
            surface.controls.clear();
            surface.weights.clear();
        }
    }
}

pub fn damaged(r: &mut Random, mut file: Vec<u8>) -> Vec<u8> {
    let place = r.below(file.len());
    let early = r.below(file.len().min(12));
    match r.below(10) {
        0 => file.truncate(place),
        1 => drop(file.pop()),
        2 => file.push(r.word() as u8),
        3 => file.extend(b"MK"),
        4 => drop(file.remove(place)),
        5 => file.insert(place, r.word() as u8),
        6 => file[early] = r.word() as u8,
        7 => file[early] ^= 1 << r.below(8),
        8 => file[place] ^= 1 << r.below(8),
        _ => file.resize(MOST_BYTES - r.below(3), 0),
    }
    file
}
