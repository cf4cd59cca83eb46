//! Lines inserted into a text at named places, and taken out again.

/// A line more in a function, before the line that begins with a fragment.
#[derive(Clone, Copy, Debug, PartialEq)]
pub struct Place<'a> {
    /// What the place is, for a message.
    pub name: &'a str,
    /// How the function's head begins. It ends with the first line that is a brace alone.
    pub function: &'a str,
    pub fragment: &'a str,
    /// Which of the fragment's occurrences in the function, from 1, and how many there are.
    pub occurrence: usize,
    pub of: usize,
    /// The line, without blanks about it.
    pub line: &'a str,
}

/// The places of a list, one a line: name ~ function ~ fragment ~ occurrence of how many ~ line.
pub fn places(list: &str) -> Vec<Place<'_>> {
    let lines = list.lines().filter(|line| !line.starts_with('#'));
    lines.map(parse).collect()
}

fn parse(text: &str) -> Place<'_> {
    let parts: Vec<&str> = text.split(" ~ ").collect();
    let [name, function, fragment, which, line] = parts[..] else {
        panic!("a place has five parts: {text}");
    };
    let (occurrence, of) = which.split_once(" of ").expect("one occurrence of some");
    let number = |text: &str| text.parse().expect("an occurrence is a number");
    Place {
        name,
        function,
        fragment,
        occurrence: number(occurrence),
        of: number(of),
        line,
    }
}

/// The text with the line of each place, or what it lacks.
pub(crate) fn inserted(text: &str, places: &[Place]) -> Result<String, String> {
    let mut lines = Vec::new();
    for place in places {
        lines.push((find(text, place)?, place.line));
    }
    lines.sort_by_key(|&(start, _)| start);
    let mut patched = String::new();
    let mut from = 0;
    for (start, line) in lines {
        patched += &text[from..start];
        patched += line;
        patched.push('\n');
        from = start;
    }
    Ok(patched + &text[from..])
}

/// The text without the lines of the places.
pub(crate) fn removed(text: &str, places: &[Place]) -> String {
    let is_inserted = |line: &str| places.iter().any(|place| line.trim_end() == place.line);
    let lines = text.split_inclusive('\n');
    lines.filter(|line| !is_inserted(line)).collect()
}

/// Where the line that begins with the place's fragment starts.
fn find(text: &str, place: &Place) -> Result<usize, String> {
    let (head, body) = function(text, place)?;
    let found: Vec<usize> = body
        .match_indices(place.fragment)
        .map(|(at, _)| at)
        .collect();
    if found.len() != place.of {
        return Err(lacks(
            place,
            &format!("{} and not {}", found.len(), place.of),
        ));
    }
    let before = &text[..head + found[place.occurrence - 1]];
    let start = before.rfind('\n').map_or(0, |end| end + 1);
    if !before[start..].trim().is_empty() {
        return Err(lacks(place, "one that does not begin its line"));
    }
    Ok(start)
}

/// Where the place's function starts, and its text.
fn function<'a>(text: &'a str, place: &Place) -> Result<(usize, &'a str), String> {
    let heads: Vec<usize> = text
        .match_indices(place.function)
        .map(|(at, _)| at)
        .collect();
    let [head] = heads[..] else {
        let count = heads.len();
        return Err(format!(
            "has `{}` {count} times and not once",
            place.function
        ));
    };
    let end = text[head..].find("\n}\n");
    let end = end.ok_or_else(|| format!("has no end of `{}`", place.function))?;
    Ok((head, &text[head..head + end]))
}

fn lacks(place: &Place, found: &str) -> String {
    let Place {
        name,
        function,
        fragment,
        occurrence,
        of,
        ..
    } = place;
    format!(
        "does not have the place of {name}, before `{fragment}` number {occurrence} of {of} \
         in `{function}`: it has {found}"
    )
}

#[cfg(test)]
mod tests {
    use super::*;

    const TEXT: &str = "fn one() {\n    go;\n}\nfn two() {\n    if a {\n        go;\n    }\n    \
                        b; go;\n}\n";

    /// As a list has it.
    const LIST: &str = "# A list.\nthe first ~ fn two( ~ go; ~ 1 of 2 ~ note();\n";

    const PLACE: Place = Place {
        name: "the first",
        function: "fn two(",
        fragment: "go;",
        occurrence: 1,
        of: 2,
        line: "note();",
    };

    fn missing(place: Place) -> String {
        inserted(TEXT, &[place]).expect_err("there is no such place")
    }

    #[test]
    fn a_list_names_its_places() {
        assert_eq!(places(LIST), [PLACE]);
    }

    #[test]
    fn a_line_goes_before_its_place_and_out_again() {
        let head = Place {
            fragment: "if a",
            of: 1,
            line: "head();",
            ..PLACE
        };
        let patched = inserted(TEXT, &[PLACE, head]).expect("both are there");
        assert_eq!(
            patched,
            TEXT.replace("    if a", "head();\n    if a")
                .replace("        go;", "note();\n        go;")
        );
        assert_eq!(removed(&patched, &[PLACE, head]), TEXT);
    }

    #[test]
    fn a_place_that_is_not_as_named_is_missing() {
        let wrong = [
            (Place { of: 1, ..PLACE }, "2 and not 1"),
            (Place { of: 3, ..PLACE }, "2 and not 3"),
            (
                Place {
                    occurrence: 2,
                    ..PLACE
                },
                "begin its line",
            ),
            (
                Place {
                    function: "fn ",
                    ..PLACE
                },
                "2 times",
            ),
            (
                Place {
                    function: "fn three(",
                    ..PLACE
                },
                "0 times",
            ),
        ];
        for (place, message) in wrong {
            assert!(missing(place).contains(message), "{}", missing(place));
        }
    }
}
