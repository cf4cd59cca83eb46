//! Feeds the port and the Rust source the same inputs and compares results, budgets, buffers and
//! the bits of what is lent.
//!
//!     compare SEED NAME=COUNT...
//!
//! where NAME is a kind of cases and COUNT how many of them. It prints, for each call, how many
//! were made, how many the source refused, and how many differ, and fails where any does. The
//! quotes of each surface on which marks are placed are compared too: they differ where a mark took
//! more, or where the grid that the source walked has another size.
mod calls;
mod quotes;

use oracle::generate::{self, Case, Random, SETS};
use quotes::Walked;
use std::collections::BTreeMap;
use std::env;
use std::process::ExitCode;

/// A kind of cases.
struct Kind {
    name: &'static str,
    draw: fn(&mut Random) -> Vec<Case>,
}

const KINDS: [Kind; 12] = [
    Kind {
        name: "sets",
        draw: |r| SETS.iter().flat_map(|set| (set.cases)(r)).collect(),
    },
    Kind {
        name: "surfaces",
        draw: |r| vec![generate::evaluate(r)],
    },
    Kind {
        name: "small",
        draw: |r| vec![Case::Invert(generate::small_inversion(r))],
    },
    Kind {
        name: "inversions",
        draw: |r| vec![Case::Invert(generate::inversion(r))],
    },
    Kind {
        name: "derivatives",
        draw: |r| vec![generate::derivative(r)],
    },
    Kind {
        name: "planes",
        draw: |r| vec![generate::plane(r)],
    },
    Kind {
        name: "edges",
        draw: |r| vec![generate::singular(r)],
    },
    Kind {
        name: "rows",
        draw: |r| vec![Case::Row(generate::row(r))],
    },
    Kind {
        name: "jobs",
        draw: |r| vec![Case::Job(generate::job(r))],
    },
    Kind {
        name: "brinks",
        draw: generate::brinks,
    },
    Kind {
        name: "leads",
        draw: generate::leads,
    },
    Kind {
        name: "windows",
        draw: generate::windows,
    },
];

#[derive(Default)]
struct Tally {
    calls: u64,
    refused: BTreeMap<u64, u64>,
    differ: u64,
}

fn main() -> ExitCode {
    let arguments: Vec<String> = env::args().skip(1).collect();
    let Some((seed, counts)) = parsed(&arguments) else {
        let names = KINDS.map(|kind| kind.name).join(", ");
        eprintln!("compare SEED NAME=COUNT... where NAME is one of {names}");
        return ExitCode::FAILURE;
    };
    println!("seed {seed}");
    let (mut differ, mut walked) = (0, Walked::default());
    for (kind, count) in counts {
        differ += compare(&KINDS[kind], seed + kind as u64, count, &mut walked);
    }
    println!(
        "the source walked a grid of the size quoted on {} surfaces, different in what a quote sees",
        walked.count()
    );
    println!("{differ} differ");
    if differ == 0 {
        ExitCode::SUCCESS
    } else {
        ExitCode::FAILURE
    }
}

/// The seed, and the number of each kind with its count.
fn parsed(arguments: &[String]) -> Option<(u64, Vec<(usize, u64)>)> {
    let (seed, counts) = arguments.split_first()?;
    let count = |argument: &String| {
        let (name, count) = argument.split_once('=')?;
        let kind = KINDS.iter().position(|kind| kind.name == name)?;
        Some((kind, count.parse().ok()?))
    };
    Some((
        seed.parse().ok()?,
        counts.iter().map(count).collect::<Option<_>>()?,
    ))
}

/// Compares so many cases of a kind, prints the tally of each call, and answers how many differ.
fn compare(kind: &Kind, seed: u64, count: u64, walked: &mut Walked) -> u64 {
    let mut tallies: BTreeMap<&str, Tally> = BTreeMap::new();
    let mut r = Random::new(seed);
    let mut buffers = Random::new(!seed);
    for _ in 0..count {
        for case in (kind.draw)(&mut r) {
            calls::compare(&case, &mut buffers, walked, |call, compared| {
                let tally = tallies.entry(call).or_default();
                tally.calls += 1;
                if compared.number != 0 {
                    *tally.refused.entry(compared.number).or_default() += 1;
                }
                if !compared.same {
                    tally.differ += 1;
                    if tally.differ <= 3 {
                        println!("DIFFERS: {call} of {case:?}");
                    }
                }
            });
        }
    }
    for (call, tally) in &tallies {
        let refused: u64 = tally.refused.values().sum();
        let by_number = tally
            .refused
            .iter()
            .map(|(number, count)| format!(" {number}: {count}"));
        let by_number: Vec<String> = by_number.collect();
        println!(
            "{} cases of {}: {call} {} calls, {refused} refused ({}), {} differ",
            count,
            kind.name,
            tally.calls,
            by_number.join(",").trim_start(),
            tally.differ
        );
    }
    tallies.values().map(|tally| tally.differ).sum()
}
