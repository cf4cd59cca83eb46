//! The header of the library for C says what this crate says: numbers, words, room and functions.
use placing::{End, Origin, Refusal, raw};
use std::fs;

/// A file of the repository, by its path from this crate, with a space for each break of a line.
fn file(path: &str) -> String {
    let path = format!("{}/{path}", env!("CARGO_MANIFEST_DIR"));
    let text = fs::read_to_string(path).expect("the repository has it");
    let words: Vec<&str> = text.split_whitespace().collect();
    words.join(" ")
}

/// The header, with the parts of a text in one.
fn header() -> String {
    file("../c/placing.h").replace("\" \"", "")
}

fn has(header: &str, text: &str) {
    assert!(header.contains(text), "the header has no {text}");
}

fn refusal_cases(header: &str) -> usize {
    header.matches("case PLACING_").count() - header.matches("case PLACING_END_").count()
}

/// A variant's name as C has it.
fn in_capitals(name: &str) -> String {
    let mut capitals = String::new();
    for letter in name.chars() {
        if letter.is_uppercase() && !capitals.is_empty() {
            capitals.push('_');
        }
        capitals.extend(letter.to_uppercase());
    }
    capitals
}

#[test]
fn refusals_are_the_same() {
    let header = header();
    let all: Vec<Refusal> = (0..1000).filter_map(Refusal::from_number).collect();
    assert_eq!(all.len(), refusal_cases(&header));
    for refusal in all {
        let name = format!("PLACING_{refusal:?}").to_uppercase();
        has(&header, &format!("{name} = {}", refusal.number()));
        has(&header, &format!("case {name}: return \"{refusal}\";"));
    }
}

#[test]
fn ends_are_the_same() {
    let header = header();
    let all: Vec<End> = (0..=u8::MAX).filter_map(End::from_number).collect();
    assert_eq!(all.len(), header.matches("case PLACING_END_").count());
    for end in all {
        let name = format!("PLACING_END_{}", in_capitals(&format!("{end:?}")));
        has(&header, &format!("{name} = {}", end.number()));
        has(&header, &format!("case {name}: return \"{end}\";"));
    }
    let hint = Origin::Hint.number();
    has(&header, &format!("PLACING_ORIGIN_HINT = {hint} }};"));
}

#[test]
fn room_is_the_same() {
    let room = format!("#define PLACING_PRINTOUT_ROOM {} ", raw::PRINTOUT_ROOM);
    assert!(header().contains(&room));
}

/// What stands between each start and the next end after it.
fn between<'a>(text: &'a str, start: &str, end: &str) -> Vec<&'a str> {
    let parts = text.split(start).skip(1);
    parts
        .map(|part| part.split(end).next().expect("a part has a front"))
        .collect()
}

/// A function's name and arguments, as Rust declares them, from what C has between `uint64_t` and
/// the end.
fn in_rust(header: &str, declared: &str) -> String {
    let (name, arguments) = declared.split_once('(').expect("a function has arguments");
    let mut arguments = arguments.to_string();
    for lent in ["PLACING_SURFACE_ARGUMENTS", "PLACING_AXES_ARGUMENTS"] {
        let defined = between(header, &format!("#define {lent} "), " /*");
        let defined = defined[0].split(" #").next().expect("a part has a front");
        arguments = arguments.replace(lent, defined.trim_start_matches("\\ "));
    }
    let arguments = arguments.replace("\\ ", "");
    let arguments: Vec<String> = arguments.split(", ").map(argument).collect();
    format!("{name}({})", arguments.join(", "))
}

fn argument(in_c: &str) -> String {
    let (kind, name) = in_c.rsplit_once(' ').expect("a type and a name");
    let (constant, kind) = match kind.strip_prefix("const ") {
        Some(kind) => ("*const ", kind),
        None => ("*mut ", kind),
    };
    let kind = match kind {
        "double" => "f64",
        "size_t" => "usize",
        "uint8_t" => "u8",
        "uint64_t" => "u64",
        other => panic!("no argument is a {other}"),
    };
    match name.strip_prefix('*') {
        Some(name) => format!("{name}: {constant}{kind}"),
        None => format!("{name}: {kind}"),
    }
}

#[test]
fn functions_are_the_same() {
    let header = header();
    let in_c: Vec<String> = between(&header, "uint64_t placing_", ");")
        .into_iter()
        .map(|declared| in_rust(&header, declared))
        .collect();
    let raw = file("src/raw.rs").replace("( ", "(").replace(", )", ")");
    let in_raw: Vec<String> = between(&raw, "fn placing_", " -> u64;")
        .into_iter()
        .map(str::to_string)
        .collect();
    assert_eq!(in_c, in_raw);
    assert_eq!(in_c.len(), 8);
}
