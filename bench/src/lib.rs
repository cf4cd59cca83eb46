//! Times two sides on the same inputs, in turns, so that the machine's noise falls on both.
pub mod cases;

use std::hint::black_box;
use std::time::Instant;

/// Repeats of a case, each of which times both sides once.
pub const REPEATS: usize = 41;

/// Clamped knots over 0 to 1, evenly spaced.
pub fn clamped(degree: usize, controls: usize) -> Vec<f64> {
    let spans = controls - degree;
    let inner = (1..spans).map(|i| i as f64 / spans as f64);
    std::iter::repeat_n(0., degree + 1)
        .chain(inner)
        .chain(std::iter::repeat_n(1., degree + 1))
        .collect()
}

pub fn heading(other: &str) {
    println!(
        "{:<44} {:>12} {:>12} {:>7}",
        "case",
        "port ns",
        format!("{other} ns"),
        "ratio"
    );
}

/// Compares a number of each answer by bits, so that both sides do the same work, and times them.
pub fn compare<T>(name: &str, inputs: &[T], port: impl Fn(&T) -> f64, rust: impl Fn(&T) -> f64) {
    for input in inputs {
        assert_eq!(port(input).to_bits(), rust(input).to_bits(), "{name}");
    }
    race(name, inputs, port, rust);
}

/// Prints the median time of a call of each side, and the median of the repeats' ratios.
pub fn race<T>(name: &str, inputs: &[T], port: impl Fn(&T) -> f64, other: impl Fn(&T) -> f64) {
    let (mut ports, mut others, mut ratios) = (Vec::new(), Vec::new(), Vec::new());
    for _ in 0..REPEATS {
        let times = [timed(inputs, &port), timed(inputs, &other)];
        ports.push(times[0]);
        others.push(times[1]);
        ratios.push(times[0] / times[1]);
    }
    println!(
        "{name:<44} {:>12.1} {:>12.1} {:>7.2}",
        median(ports),
        median(others),
        median(ratios)
    );
}

/// The time of a call, the mean of one pass over the inputs.
pub fn timed<T>(inputs: &[T], call: impl Fn(&T) -> f64) -> f64 {
    let start = Instant::now();
    for input in inputs {
        black_box(call(black_box(input)));
    }
    start.elapsed().as_nanos() as f64 / inputs.len() as f64
}

pub fn median(mut times: Vec<f64>) -> f64 {
    times.sort_by(f64::total_cmp);
    times[times.len() / 2]
}
