//! Surfaces, marks on them, and the port's call that places a mark.
use crate::clamped;
use oracle::calls::{Point, Search, Shell, Surface};
use oracle::job::{Job, MOST_BYTES};
use placing::raw::{self, Lent};

pub const TOLERANCE: f64 = 1e-6;

/// 2^101: beyond the bound on coordinates under which second derivatives may be left out.
pub const BEYOND: f64 = 2535301200456458802993406410752.;

pub fn placed(lent: &Lent, mark: Point, search: &Search) -> [f64; 2] {
    let (mut budget, mut pair) = ([u64::MAX], [0.; 2]);
    let hint = search.hint.as_ref().map_or(&[][..], |hint| &hint[..]);
    let number = raw::invert(
        lent,
        mark,
        hint,
        search.tolerance,
        &[],
        &[],
        &mut budget,
        &mut pair,
        &mut [0; 2],
    );
    assert_eq!(number, 0, "a mark on the surface is placed");
    pair
}

/// Pairs on a line across the domain.
pub fn along(count: usize) -> impl Iterator<Item = [f64; 2]> {
    (0..count).map(move |i| {
        let t = (i as f64 + 0.5) / count as f64;
        [0.05 + 0.9 * t, 0.3 + 0.4 * t]
    })
}

pub fn built(surface: &Surface) -> Shell {
    Shell::new(surface).expect("accepted")
}

/// A surface point.
pub fn on(shell: &Shell, at: [f64; 2]) -> Point {
    shell.evaluate(at).expect("inside").point
}

pub fn search(hint: Option<[f64; 2]>) -> Search {
    Search {
        hint,
        tolerance: TOLERANCE,
        periods: [None; 2],
    }
}

/// A height field over the unit square, with weights that differ.
pub fn bumpy(degree: usize, controls: usize) -> Surface {
    let place = |i: usize| i as f64 / (controls - 1) as f64;
    let net = (0..controls * controls).map(|k| [k / controls, k % controls]);
    let height = |[i, j]: [usize; 2]| 0.05 * ((i * 7 + j * 13) % 11) as f64;
    Surface {
        degrees: [degree; 2],
        shape: [controls; 2],
        periodic: [false; 2],
        knots: [clamped(degree, controls), clamped(degree, controls)],
        controls: net
            .clone()
            .flat_map(|at| [place(at[0]), place(at[1]), height(at)])
            .collect(),
        weights: net.map(|[i, j]| 1. + 0.25 * ((i + j) % 5) as f64).collect(),
        window: None,
    }
}

/// The surface with its coordinates multiplied.
pub fn scaled(surface: &Surface, factor: f64) -> Surface {
    Surface {
        controls: surface.controls.iter().map(|x| x * factor).collect(),
        ..surface.clone()
    }
}

pub fn lent(surface: &Surface) -> Lent<'_> {
    Lent {
        degrees: surface.degrees,
        shape: surface.shape,
        flags: 0,
        knots: [&surface.knots[0], &surface.knots[1]],
        controls: &surface.controls,
        weights: &surface.weights,
        window: &[],
    }
}

/// How many marks the file of a job on this surface has room for.
pub fn room_for_marks(surface: &Surface) -> usize {
    MOST_BYTES.saturating_sub(job(surface, Vec::new()).write().len()) / 26
}

/// The file of a job with as many marks as fit, lifted off the surface.
pub fn full_job(surface: &Surface, lift: f64) -> Vec<u8> {
    let shell = built(surface);
    let lifted = |at| {
        let [x, y, z] = on(&shell, at);
        [x, y, z + lift]
    };
    let marks = along(room_for_marks(surface)).flat_map(lifted);
    job(surface, marks.collect()).write()
}

fn job(surface: &Surface, marks: Vec<f64>) -> Job {
    Job {
        surface: surface.clone(),
        tolerance: TOLERANCE,
        budget: u64::MAX,
        marks,
    }
}
