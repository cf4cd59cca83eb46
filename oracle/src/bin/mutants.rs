//! Builds the oracle against one-place changes of the source, each in a copy below the
//! target folder, and lets it answer the inputs of the stored sets, which the original
//! wrote, again: those that it answers otherwise tell it from the original.
use oracle::generate::SETS;
use std::collections::BTreeMap;
use std::fs::{self, File};
use std::path::{Path, PathBuf};
use std::process::{Command, ExitCode, Stdio};
use std::thread::sleep;
use std::time::{Duration, Instant};

const ORACLE: &str = env!("CARGO_MANIFEST_DIR");
const LIST: &str = include_str!("../../mutants/list.txt");
/// A mutant that runs longer never ends.
const PATIENCE: Duration = Duration::from_secs(120);

struct Mutant<'a> {
    /// The crate's short name and the file below its `src`.
    file: &'a str,
    occurrence: usize,
    fragment: &'a str,
    replacement: &'a str,
}

/// What a build of the oracle answers otherwise: how many records of each kind, or none
/// where it broke down or did not end.
type Differing = Option<BTreeMap<String, usize>>;

fn main() -> ExitCode {
    let source = copy_source();
    assert!(build(&source), "the original builds");
    let stored = work_folder().join("answers");
    store(&stored);
    let (mut told, mut count) = (0, 0);
    for mutant in LIST
        .lines()
        .filter(|line| !line.starts_with('#'))
        .map(parse)
    {
        let verdict = with_mutant(&source, &mutant, || {
            if build(&source) {
                verdict(replay(&stored))
            } else {
                "does not build".into()
            }
        });
        count += 1;
        told += usize::from(verdict.starts_with("told"));
        println!("{} {verdict} |", row(&mutant));
    }
    println!("\n{told} of {count} told apart");
    ExitCode::SUCCESS
}

/// The first cells of a mutant's row in the table.
fn row(mutant: &Mutant) -> String {
    let code = |text: &str| format!("`{}`", text.replace('|', "\\|"));
    let (fragment, replacement) = (code(mutant.fragment), code(mutant.replacement));
    let place = match mutant.occurrence {
        1 => String::new(),
        later => format!(", occurrence {later}"),
    };
    format!("| {} | {fragment}{place} | {replacement} |", mutant.file)
}

fn work_folder() -> PathBuf {
    Path::new(ORACLE).join("target/mutants")
}

fn parse(line: &str) -> Mutant<'_> {
    let parts: Vec<&str> = line.split(" ~ ").collect();
    let [file, occurrence, fragment, replacement] = parts[..] else {
        panic!("a mutant has four parts: {line}");
    };
    Mutant {
        file,
        occurrence: occurrence.parse().expect("an occurrence is a number"),
        fragment,
        replacement,
    }
}

/// A copy of the source that may be changed.
fn copy_source() -> PathBuf {
    let from = std::env::var_os("TESSSTEP_SRC").map_or_else(
        || Path::new(ORACLE).join("../../shared/docs/src"),
        PathBuf::from,
    );
    let to = work_folder().join("src");
    copy(&from.join("crates"), &to.join("crates"));
    to
}

fn copy(from: &Path, to: &Path) {
    fs::create_dir_all(to).expect("the target folder is ours");
    for entry in fs::read_dir(from).expect("the source lies beside the repository") {
        let path = entry.expect("a folder can be read").path();
        let target = to.join(path.file_name().expect("an entry has a name"));
        if path.is_dir() {
            copy(&path, &target);
        } else {
            let text = fs::read(&path).expect("a source file can be read");
            fs::write(&target, text).expect("the target folder is ours");
        }
    }
}

/// Runs with the mutant's file changed, and puts the file back.
fn with_mutant<T>(source: &Path, mutant: &Mutant, run: impl FnOnce() -> T) -> T {
    let (name, rest) = mutant.file.split_once('/').expect("a crate and a file");
    let path = source.join(format!("crates/tessstep-{name}/src/{rest}"));
    let text = fs::read_to_string(&path).expect("a mutant names a source file");
    let mut places = text.match_indices(mutant.fragment);
    let (start, _) = places
        .nth(mutant.occurrence - 1)
        .unwrap_or_else(|| panic!("{} has no {}", mutant.file, mutant.fragment));
    let mut changed = text.clone();
    changed.replace_range(start..start + mutant.fragment.len(), mutant.replacement);
    fs::write(&path, changed).expect("the copy can be written");
    let done = run();
    fs::write(&path, text).expect("the copy can be written");
    done
}

/// Builds the oracle against the copy of the source.
fn build(source: &Path) -> bool {
    let built = Command::new("cargo")
        .args([
            "build",
            "--profile",
            "mutants",
            "--quiet",
            "--bin",
            "oracle",
        ])
        .arg("--target-dir")
        .arg(work_folder().join("build"))
        .current_dir(ORACLE)
        .env("TESSSTEP_SRC", source)
        .stderr(Stdio::null())
        .status();
    built.is_ok_and(|status| status.success())
}

fn oracle() -> Command {
    Command::new(work_folder().join("build/mutants/oracle"))
}

/// Lets the original write all sets into one file.
fn store(file: &Path) {
    let mut answers = Vec::new();
    for set in &SETS {
        let output = oracle().args(["answers", set.name]).output();
        answers.extend(output.expect("the oracle was built").stdout);
    }
    fs::write(file, answers).expect("the target folder is ours");
}

/// Lets the build of the day answer the stored inputs again.
fn replay(stored: &Path) -> Differing {
    let mut run = oracle()
        .arg("replay")
        .stdin(File::open(stored).expect("the answers were stored"))
        .stdout(Stdio::piped())
        .stderr(Stdio::null())
        .spawn()
        .expect("the oracle was built");
    let start = Instant::now();
    while run.try_wait().expect("a child can be watched").is_none() {
        if start.elapsed() > PATIENCE {
            run.kill().expect("a child can be ended");
        }
        sleep(Duration::from_millis(20));
    }
    let output = run
        .wait_with_output()
        .expect("a child's output can be read");
    if !output.status.success() {
        return None;
    }
    let text = String::from_utf8(output.stdout).expect("a replay prints text");
    let lines = text.lines().filter_map(|line| line.split_once(' '));
    let count = |count: &str| count.parse().expect("a replay prints counts");
    Some(lines.map(|(kind, n)| (kind.into(), count(n))).collect())
}

fn verdict(differing: Differing) -> String {
    let Some(differing) = differing else {
        return "told: breaks down".into();
    };
    if differing.is_empty() {
        return "survived".into();
    }
    let kinds: Vec<String> = differing
        .iter()
        .map(|(kind, count)| format!("{kind} {count}"))
        .collect();
    format!("told: {}", kinds.join(", "))
}
