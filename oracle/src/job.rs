//! The job file and its printout, added by document 01.
use crate::calls::{Placed, Search, Surface};
use crate::refusals::Refusal;
use crate::row;
use std::fmt::Write;

pub const MOST_BYTES: usize = 32_768;

/// A job file's content.
#[derive(Clone, Debug)]
pub struct Job {
    pub surface: Surface,
    pub tolerance: f64,
    pub budget: u64,
    pub marks: Vec<f64>,
}

/// The printout of a job file.
pub fn print(bytes: &[u8]) -> String {
    let Some(job) = read(bytes) else {
        return format!("refused {} at 0\n", Refusal::Job.number());
    };
    let mut out = format!("marks {}\n", job.marks.len() / 3);
    let search = Search {
        hint: None,
        tolerance: job.tolerance,
        periods: [None; 2],
    };
    let line = |placed: Placed, left| {
        let ([u, v], end) = (placed.pair.map(f64::to_bits), placed.end);
        writeln!(out, "{u:016x} {v:016x} {left} {end}").expect("a string takes every line");
    };
    let ended = row::walk(&job.surface, &job.marks, &search, job.budget, line);
    if let Some((refusal, index)) = ended.refused {
        out += &format!("refused {} at {index}\n", refusal.number());
    }
    out
}

/// The job in a file, unless the file is malformed.
pub fn read(bytes: &[u8]) -> Option<Job> {
    if bytes.len() > MOST_BYTES {
        return None;
    }
    let mut rest = bytes;
    let surface = read_surface(&mut rest)?;
    mark(&mut rest, b"TL")?;
    let tolerance = number(&mut rest)?;
    let budget = u64::from_le_bytes(take(&mut rest)?);
    let mut marks = Vec::new();
    while !rest.is_empty() {
        mark(&mut rest, b"MK")?;
        marks.extend(numbers(&mut rest, 3)?);
    }
    Some(Job {
        surface,
        tolerance,
        budget,
        marks,
    })
}

fn read_surface(rest: &mut &[u8]) -> Option<Surface> {
    mark(rest, b"SF")?;
    let degrees = take::<2>(rest)?.map(usize::from);
    let mut count = || Some(usize::from(u16::from_le_bytes(take(rest)?)));
    let shape = [count()?, count()?];
    let [flags] = take::<1>(rest)?;
    if flags > 7 {
        return None;
    }
    let [u, v] = [0, 1].map(|k| shape[k] + degrees[k] + 1);
    let total = shape[0] * shape[1];
    let mut surface = Surface {
        degrees,
        shape,
        periodic: [flags & 1 != 0, flags & 2 != 0],
        knots: [numbers(rest, u)?, numbers(rest, v)?],
        controls: numbers(rest, 3 * total)?,
        weights: numbers(rest, total)?,
        window: None,
    };
    if flags & 4 != 0 {
        surface.window = Some([pair(rest)?, pair(rest)?]);
    }
    Some(surface)
}

fn take<const N: usize>(rest: &mut &[u8]) -> Option<[u8; N]> {
    let (taken, left) = rest.split_first_chunk()?;
    *rest = left;
    Some(*taken)
}

fn mark(rest: &mut &[u8], expected: &[u8; 2]) -> Option<()> {
    (take(rest)? == *expected).then_some(())
}

fn number(rest: &mut &[u8]) -> Option<f64> {
    Some(f64::from_le_bytes(take(rest)?))
}

fn pair(rest: &mut &[u8]) -> Option<[f64; 2]> {
    Some([number(rest)?, number(rest)?])
}

fn numbers(rest: &mut &[u8], count: usize) -> Option<Vec<f64>> {
    // No room is made for a count that the file can't hold.
    (count <= rest.len() / 8).then(|| (0..count).map_while(|_| number(rest)).collect())
}

impl Job {
    /// The job's file, if its counts fit the format.
    pub fn write(&self) -> Vec<u8> {
        let surface = &self.surface;
        let mut out = b"SF".to_vec();
        out.extend(surface.degrees.map(|degree| degree as u8));
        out.extend(
            surface
                .shape
                .map(|count| (count as u16).to_le_bytes())
                .as_flattened(),
        );
        let [u, v] = surface.periodic.map(u8::from);
        out.push(u + 2 * v + 4 * u8::from(surface.window.is_some()));
        let [u, v] = &surface.knots;
        for numbers in [u, v, &surface.controls, &surface.weights] {
            extend(&mut out, numbers);
        }
        extend(&mut out, surface.window());
        out.extend(b"TL");
        extend(&mut out, &[self.tolerance]);
        out.extend(self.budget.to_le_bytes());
        for mark in self.marks.chunks(3) {
            out.extend(b"MK");
            extend(&mut out, mark);
        }
        out
    }
}

fn extend(out: &mut Vec<u8>, numbers: &[f64]) {
    out.extend(numbers.iter().flat_map(|x| x.to_le_bytes()));
}
