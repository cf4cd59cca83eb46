//! One case, answered by the source and by the port: numbers, budgets and whole buffers.
use crate::quotes::{self, Walked, Work};
use oracle::calls::{self, Grid, Jet, Pair, Placed, Point, Search, Shell, Spent, Surface};
use oracle::generate::{Case, Inversion, Random, Row};
use oracle::job;
use oracle::refusals::Refusal;
use oracle::row::{self, Ended};
use placing::raw::{self, Lent};

/// What a call answered and left, in words.
type Words = Vec<u64>;

/// How a call's answers compare.
pub struct Compared {
    /// The number of the source's refusal, or 0.
    pub number: u64,
    /// Whether the port answered and left the same, and wrote to nothing that it was lent to read.
    pub same: bool,
}

/// Compares a case, call by call, and the quotes of a surface on which marks are placed. Other kinds
/// have no function of the library.
pub fn compare(
    case: &Case,
    r: &mut Random,
    walked: &mut Walked,
    mut told: impl FnMut(&'static str, Compared),
) {
    match case {
        Case::Evaluate(surface, pairs) => {
            let shell = Shell::new(surface);
            let any = [[0.; 2]];
            let pairs = if pairs.is_empty() { &any } else { &pairs[..] };
            for &uv in pairs {
                told("evaluate", evaluate(r, surface, shell.as_ref(), uv));
            }
        }
        Case::Invert(inversion) => {
            let (spent, grid) = answered(inversion);
            told("invert", invert(r, inversion, spent));
            let work = Work::inversion(inversion, spent, grid);
            quotes::compare(r, &work, walked, &mut told);
        }
        Case::Plane(frame, mark, budget) => told("plane", plane(r, *frame, *mark, *budget)),
        Case::Derivative(surface, uv, vector, budget) => {
            told("derivative", derivative(r, surface, *uv, *vector, *budget));
        }
        Case::Singular(surface, tolerance) => {
            told("nurbs_singular", nurbs_singular(r, surface, *tolerance));
        }
        Case::Row(row) => {
            let (compared, ended) = place_row(r, row);
            told("row", compared);
            let work = Work::row(row, ended);
            quotes::compare(r, &work, walked, &mut told);
        }
        Case::Job(file) => {
            let text = job::print(file);
            told("job", print(r, file, &text));
            if let Some(job) = job::read(file) {
                quotes::compare(r, &Work::job(&job, &text), walked, &mut told);
            }
        }
        _ => {}
    }
}

fn print(r: &mut Random, file: &[u8], text: &str) -> Compared {
    let mut printout = vec![r.word() as u8; raw::PRINTOUT_ROOM + r.below(3)];
    let mut expected = printout.clone();
    expected[..text.len()].copy_from_slice(text.as_bytes());
    let mut written = [r.word(), r.word()];
    let counts = [text.len() as u64, written[1]];
    let lent = file.to_vec();
    let number = raw::job(&lent, &mut printout, &mut written);
    let last = text.lines().last().unwrap_or_default();
    let refused = last
        .strip_prefix("refused ")
        .and_then(|line| line.split(' ').next());
    Compared {
        number: refused.map_or(0, |number| number.parse().expect("a number")),
        same: (number, printout, written, &lent[..]) == (0, expected, counts, file),
    }
}

fn evaluate(
    r: &mut Random,
    surface: &Surface,
    shell: Result<&Shell, &Refusal>,
    uv: Pair,
) -> Compared {
    let answer = shell.map_err(|&e| e).and_then(|shell| shell.evaluate(uv));
    let numbers = answer.map(|Jet { point, du, dv }| [point, du, dv].concat());
    let mut jet = buffer(r, 9);
    let expected = laid(numbers.as_deref(), &jet);
    let watched = Watched::new(surface, &[]);
    let number = raw::evaluate(&lent(surface), uv[0], uv[1], &mut jet);
    finish(
        expected,
        words(number, &[], &jet, 9),
        watched.same(surface, &[]),
    )
}

/// By the source.
fn answered(case: &Inversion) -> (Spent<Placed>, Grid) {
    calls::invert_with_grid(&case.surface, case.mark, &case.search, case.budget)
}

fn invert(r: &mut Random, inversion: &Inversion, answered: Spent<Placed>) -> Compared {
    let Inversion {
        surface,
        mark,
        search,
        budget,
    } = inversion;
    let Spent { answer, left } = answered;
    let spent = Spent {
        answer: answer.map(|placed| placed.pair),
        left,
    };
    let mut ended = bytes(r, 2);
    let expected = laid_bytes(answer.ok(), &ended);
    let options = Options::new(search);
    let [hint, pu, pv] = options.slices();
    let watched = Watched::new(surface, &[hint, pu, pv]);
    let tolerance = search.tolerance;
    let mut same = false;
    let call = |budget: &mut [u64], pair: &mut [f64]| {
        let number = raw::invert(
            &lent(surface),
            *mark,
            hint,
            tolerance,
            pu,
            pv,
            budget,
            pair,
            &mut ended,
        );
        same = watched.same(surface, &[hint, pu, pv]) && ended == expected;
        number
    };
    let compared = spend(r, spent, *budget, call);
    with(compared, same)
}

fn derivative(r: &mut Random, surface: &Surface, uv: Pair, vector: Point, budget: u64) -> Compared {
    let spent = calls::derivative(surface, uv, vector, budget);
    let watched = Watched::new(surface, &[]);
    let compared = spend(r, spent, budget, |budget, pair| {
        raw::derivative(&lent(surface), uv[0], uv[1], vector, budget, pair)
    });
    with(compared, watched.same(surface, &[]))
}

fn plane(r: &mut Random, frame: [Point; 3], mark: Point, budget: u64) -> Compared {
    let spent = calls::plane(frame, mark, budget);
    spend(r, spent, budget, |budget, pair| {
        raw::plane(frame, mark, budget, pair)
    })
}

/// A call that answers a pair for units of a budget.
fn spend(
    r: &mut Random,
    spent: Spent<Pair>,
    budget: u64,
    call: impl FnOnce(&mut [u64], &mut [f64]) -> u64,
) -> Compared {
    let mut pair = buffer(r, 2);
    let mut budgets = [budget, r.word()];
    let mut expected = laid(spent.answer.as_ref().map(|pair| &pair[..]), &pair);
    expected.extend([spent.left, budgets[1]]);
    let number = call(&mut budgets, &mut pair);
    finish(expected, words(number, &budgets, &pair, 2), true)
}

fn nurbs_singular(r: &mut Random, surface: &Surface, tolerance: f64) -> Compared {
    let answer = calls::nurbs_singular(surface, tolerance);
    let mut edges = buffer(r, 20);
    let mut collapsed = [r.word(), r.word(), r.word(), r.word(), r.word()];
    let number = answer.as_ref().err().map_or(0, |refusal| refusal.number());
    let mut expected = vec![number];
    expected.extend(edges.iter().map(|x| x.to_bits()));
    expected.extend(collapsed);
    if let Ok(found) = &answer {
        let flags = expected.len() - 5;
        expected[flags..flags + 4].fill(0);
        for edge in found {
            let slot = 2 * edge.axis + usize::from(edge.side < 0.);
            let [x, y, z] = edge.point;
            expected[flags + slot] = 1;
            let numbers = [edge.value, x, y, z, edge.side].map(f64::to_bits);
            expected[1 + 5 * slot..][..5].copy_from_slice(&numbers);
        }
    }
    let watched = Watched::new(surface, &[]);
    let number = raw::nurbs_singular(&lent(surface), tolerance, &mut collapsed, &mut edges);
    finish(
        expected,
        words(number, &collapsed, &edges, 0),
        watched.same(surface, &[]),
    )
}

/// With how the row ended by the source.
fn place_row(r: &mut Random, case: &Row) -> (Compared, Ended) {
    let Row {
        surface,
        marks,
        search,
        ..
    } = case;
    let (mut answers, mut expected_ends) = (case.answers.clone(), case.ends.clone());
    let ended = row::row(
        surface,
        marks,
        search,
        case.budget,
        &mut answers,
        &mut expected_ends,
    );
    let (number, at) = match ended.refused {
        None => (0, 0),
        Some((refusal, at)) => (refusal.number(), at as u64),
    };
    let mut budgets = [case.budget, r.word()];
    let mut index = [r.word(), r.word()];
    let kept = [budgets[1], index[1]];
    let mut expected = vec![number];
    expected.extend(answers.iter().map(|x| x.to_bits()));
    expected.extend([ended.left, kept[0], at, kept[1]]);

    let options = Options::new(search);
    let [hint, pu, pv] = options.slices();
    let lent_too = [&marks[..], hint, pu, pv];
    let watched = Watched::new(surface, &lent_too);
    let (mut answers, mut ends) = (case.answers.clone(), case.ends.clone());
    let number = raw::row(
        &lent(surface),
        marks,
        hint,
        search.tolerance,
        pu,
        pv,
        &mut budgets,
        &mut index,
        &mut answers,
        &mut ends,
    );
    let whole = [budgets, index].concat();
    let compared = finish(
        expected,
        words(number, &whole, &answers, 0),
        watched.same(surface, &lent_too) && ends == expected_ends,
    );
    (compared, ended)
}

pub fn lent(surface: &Surface) -> Lent<'_> {
    Lent {
        degrees: surface.degrees,
        shape: surface.shape,
        flags: u64::from(surface.periodic[0]) + 2 * u64::from(surface.periodic[1]),
        knots: [&surface.knots[0], &surface.knots[1]],
        controls: &surface.controls,
        weights: &surface.weights,
        window: surface.window(),
    }
}

/// A buffer as long as needed or longer, with bits of all kinds.
fn buffer(r: &mut Random, needed: usize) -> Vec<f64> {
    (0..needed + r.below(4)).map(|_| r.special()).collect()
}

/// As many bytes as needed or more.
fn bytes(r: &mut Random, needed: usize) -> Vec<u8> {
    (0..needed + r.below(4)).map(|_| r.word() as u8).collect()
}

/// End and origin at the front of a buffer; a refusal leaves all of it.
fn laid_bytes(answer: Option<Placed>, buffer: &[u8]) -> Vec<u8> {
    let mut laid = buffer.to_vec();
    if let Some(Placed { end, origin, .. }) = answer {
        laid[..2].copy_from_slice(&[end, origin]);
    }
    laid
}

/// The words of an answer that goes to the front of a buffer; a refusal leaves all of it.
fn laid(answer: Result<&[f64], &Refusal>, buffer: &[f64]) -> Words {
    let number = answer.map_or_else(|refusal| refusal.number(), |_| 0);
    let front = answer.unwrap_or_default();
    let rest = buffer[front.len()..].iter().map(|x| x.to_bits());
    [number]
        .into_iter()
        .chain(front.iter().map(|&x| as_one_nan(x)))
        .chain(rest)
        .collect()
}

/// What the port answered, in the same order: a NaN among the first `front` numbers that it wrote
/// is one NaN, all else is bits.
fn words(number: u64, counts: &[u64], buffer: &[f64], front: usize) -> Words {
    let written = if number == 0 { front } else { 0 };
    let numbers = buffer.iter().enumerate().map(|(i, &x)| {
        if i < written {
            as_one_nan(x)
        } else {
            x.to_bits()
        }
    });
    [number]
        .into_iter()
        .chain(numbers)
        .chain(counts.iter().copied())
        .collect()
}

fn as_one_nan(x: f64) -> u64 {
    if x.is_nan() { f64::NAN } else { x }.to_bits()
}

fn finish(expected: Words, found: Words, unwritten: bool) -> Compared {
    Compared {
        number: expected[0],
        same: unwritten && expected == found,
    }
}

fn with(compared: Compared, unwritten: bool) -> Compared {
    Compared {
        same: compared.same && unwritten,
        ..compared
    }
}

/// Hint and periods as the library takes them.
struct Options {
    hint: Vec<f64>,
    periods: [Vec<f64>; 2],
}

impl Options {
    fn new(search: &Search) -> Self {
        Self {
            hint: search.hint.map_or(Vec::new(), |pair| pair.to_vec()),
            periods: search.periods.map(|period| period.into_iter().collect()),
        }
    }

    fn slices(&self) -> [&[f64]; 3] {
        [&self.hint, &self.periods[0], &self.periods[1]]
    }
}

/// The bits of what is lent to be read.
pub struct Watched(Words);

impl Watched {
    pub fn new(surface: &Surface, more: &[&[f64]]) -> Self {
        Self(bits(surface, more).collect())
    }

    pub fn same(&self, surface: &Surface, more: &[&[f64]]) -> bool {
        bits(surface, more).eq(self.0.iter().copied())
    }
}

fn bits<'a>(surface: &'a Surface, more: &'a [&'a [f64]]) -> impl Iterator<Item = u64> + 'a {
    let [ku, kv] = &surface.knots;
    let lent = [
        &ku[..],
        kv,
        &surface.controls,
        &surface.weights,
        surface.window(),
    ];
    lent.into_iter()
        .chain(more.iter().copied())
        .flatten()
        .map(|x| x.to_bits())
}
