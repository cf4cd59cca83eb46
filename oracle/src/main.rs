//! The oracle's commands; README.md lists them.
use oracle::answers::records;
use oracle::figures;
use oracle::generate::SETS;
use oracle::job;
use oracle::misses::Table;
use oracle::replay::differing;
use std::collections::BTreeMap;
use std::env;
use std::io::{self, BufWriter, Read, Write};
use std::process::ExitCode;

const SEED: u64 = 20_261_115;
const USAGE: &str = "oracle figures | answers SET [SEED] | replay < FILE | digest [SEED] | \
                     job < FILE | ends [SEED]";

fn main() -> ExitCode {
    let arguments: Vec<String> = env::args().skip(1).collect();
    let words: Vec<&str> = arguments.iter().map(String::as_str).collect();
    let done = match words[..] {
        ["figures"] => print_figures(),
        ["answers", set] => store(set, SEED),
        ["answers", set, seed] => seed.parse().is_ok_and(|seed| store(set, seed)),
        ["replay"] => replay(),
        ["job"] => print_job(),
        ["digest"] => digest(SEED),
        ["digest", seed] => seed.parse().is_ok_and(digest),
        ["ends"] => print_ends(SEED),
        ["ends", seed] => seed.parse().is_ok_and(print_ends),
        _ => {
            eprintln!("{USAGE}");
            false
        }
    };
    if done {
        ExitCode::SUCCESS
    } else {
        ExitCode::FAILURE
    }
}

/// Prints every figure; done if all are confirmed.
fn print_figures() -> bool {
    let figures = figures::all();
    for figure in &figures {
        let (what, found) = (figure.what, &figure.found);
        if figure.confirmed() {
            println!("confirmed      {what}: {found}");
        } else {
            println!("NOT CONFIRMED  {what}: {found} and not {}", figure.expected);
        }
    }
    let confirmed = figures.iter().filter(|figure| figure.confirmed()).count();
    println!("{confirmed} of {} confirmed", figures.len());
    confirmed == figures.len()
}

/// Answers the inputs of a stored set on the standard input again and prints, for each
/// kind, how many answers are others now.
fn replay() -> bool {
    let mut bytes = Vec::new();
    let read = io::stdin().lock().read_to_end(&mut bytes);
    let words: Vec<u64> = bytes
        .as_chunks()
        .0
        .iter()
        .map(|word| u64::from_le_bytes(*word))
        .collect();
    for (kind, count) in differing(&words) {
        println!("{kind} {count}");
    }
    read.is_ok()
}

/// Prints what a job file on the standard input asks for.
fn print_job() -> bool {
    let mut bytes = Vec::new();
    let read = io::stdin().lock().read_to_end(&mut bytes);
    print!("{}", job::print(&bytes));
    read.is_ok()
}

/// Prints how often pairs miss the point nearest to their marks, by end and by origin; done if
/// the distances they are held to are the least found.
fn print_ends(seed: u64) -> bool {
    let table = Table::new(seed);
    print!("{table}");
    table.is_sound()
}

/// Writes a set's records to the standard output, and how many to the other.
fn store(name: &str, seed: u64) -> bool {
    let Some(set) = SETS.iter().find(|set| set.name == name) else {
        let names = SETS.map(|set| set.name);
        eprintln!("there is no set {name}; the sets are {}", names.join(", "));
        return false;
    };
    let mut out = BufWriter::new(io::stdout().lock());
    let (fitting, long): (Vec<_>, Vec<_>) = records(set, seed).partition(|record| record.fits());
    let mut answers = BTreeMap::<&str, usize>::new();
    for record in &fitting {
        *answers.entry(record.kind()).or_default() += record.answers;
        for word in &record.words {
            if out.write_all(&word.to_le_bytes()).is_err() {
                return false;
            }
        }
    }
    for (kind, count) in &answers {
        eprintln!("{kind}: {count} answers");
    }
    let (stored, long) = (fitting.len(), long.len());
    eprintln!("{stored} records, {long} more are too long to be stored");
    out.flush().is_ok()
}

/// Prints, for each kind, a hash of its records in all sets, and another one of those
/// that are too long to be stored.
fn digest(seed: u64) -> bool {
    let mut hashes = BTreeMap::<String, u64>::new();
    for record in SETS.iter().flat_map(|set| records(set, seed)) {
        let place = if record.fits() { "" } else { "-unstored" };
        let hash = hashes.entry(record.kind().to_string() + place).or_default();
        *hash = record.words.iter().fold(*hash, mix);
    }
    for (kind, hash) in hashes {
        println!("{kind} {hash:016x}");
    }
    true
}

/// One step of a hash. The turn spreads a difference of signs, which a product alone
/// would keep in the highest bit, where a second one undoes it.
fn mix(hash: u64, word: &u64) -> u64 {
    (hash.rotate_left(29) ^ word).wrapping_mul(0x9e37_79b9_7f4a_7c15)
}
