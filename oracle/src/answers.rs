//! Stored answers: records of 64-bit words, inputs first, then the answer.
use crate::calls::{self, Jet, Search, Shell, Spent, Surface};
use crate::generate::{Case, Inversion, Random, Row, Set};
use crate::job;
use crate::refusals::Refusal;
use crate::row;
use crate::small::{self, Axis, KnotSide};

/// The longest record that is stored, in words.
pub const MOST_WORDS: usize = 4096;

/// A case and its answer: kind, count of the words that follow, and these.
pub struct Record {
    pub words: Vec<u64>,
    /// How many answers the record holds.
    pub answers: usize,
}

impl Record {
    pub fn new(case: &Case) -> Self {
        let mut words = Words(vec![kind(case), 0]);
        write(&mut words, case);
        let Words(mut words) = words;
        words[1] = words.len() as u64 - 2;
        let answers = match case {
            Case::Evaluate(surface, pairs) if Shell::new(surface).is_ok() => pairs.len().max(1),
            _ => 1,
        };
        Self { words, answers }
    }

    pub fn kind(&self) -> &'static str {
        KINDS[self.words[0] as usize - 1]
    }

    /// Whether the record is short enough to be stored.
    pub fn fits(&self) -> bool {
        self.words.len() <= MOST_WORDS
    }
}

/// All records of a set, those that are too long to be stored included.
pub fn records(set: &Set, seed: u64) -> impl Iterator<Item = Record> {
    let cases = (set.cases)(&mut Random::new(seed));
    cases.into_iter().map(|case| Record::new(&case))
}

pub const KINDS: [&str; 14] = [
    "weights",
    "knots",
    "snap",
    "span",
    "basis",
    "wrap",
    "evaluate",
    "nearest",
    "invert",
    "plane",
    "derivative",
    "nurbs_singular",
    "row",
    "job",
];

/// A record's first word: one more than the place of its name in `KINDS`.
fn kind(case: &Case) -> u64 {
    match case {
        Case::Weights(..) => 1,
        Case::Knots(..) => 2,
        Case::Snap(..) => 3,
        Case::Span(..) => 4,
        Case::Basis(..) => 5,
        Case::Wrap(..) => 6,
        Case::Evaluate(..) => 7,
        Case::Nearest(..) => 8,
        Case::Invert(..) => 9,
        Case::Plane(..) => 10,
        Case::Derivative(..) => 11,
        Case::Singular(..) => 12,
        Case::Row(..) => 13,
        Case::Job(..) => 14,
    }
}

fn write(words: &mut Words, case: &Case) {
    match case {
        Case::Weights(weights) => {
            words.numbers(weights);
            words.answer(small::weights(weights), |words, &max| words.number(max));
        }
        Case::Knots(axis) => {
            words.axis(axis);
            words.answer(small::knots(axis), |words, domain| words.floats(domain));
        }
        Case::Snap(axis, u) => {
            words.axis(axis);
            words.number(*u);
            words.answer(small::snap(axis, *u), |words, &u| words.number(u));
        }
        Case::Span(axis, u, side) => {
            words.at_side(axis, *u, *side);
            words.answer(small::span(axis, *u, *side), |words, &span| {
                words.count(span)
            });
        }
        Case::Basis(axis, u, side) => {
            words.at_side(axis, *u, *side);
            words.answer(small::basis(axis, *u, *side), |words, basis| {
                words.count(basis.start);
                words.count(basis.rows[0].len());
                basis.rows.iter().for_each(|row| words.floats(row));
            });
        }
        Case::Wrap(domain, t) => {
            words.floats(domain);
            words.number(*t);
            words.answer(small::wrap(*domain, *t), |words, &t| words.number(t));
        }
        Case::Evaluate(surface, pairs) => evaluations(words, surface, pairs),
        Case::Nearest([value, hint, period]) => {
            words.floats(&[*value, *hint, *period]);
            words.number(small::nearest(*value, *hint, *period));
        }
        Case::Invert(inversion) => invert(words, inversion),
        Case::Plane(frame, mark, budget) => {
            words.floats(frame.as_flattened());
            words.floats(mark);
            words.word(*budget);
            words.spent(calls::plane(*frame, *mark, *budget), |words, pair| {
                words.floats(pair);
            });
        }
        Case::Derivative(surface, uv, vector, budget) => {
            words.surface(surface);
            words.floats(uv);
            words.floats(vector);
            words.word(*budget);
            let spent = calls::derivative(surface, *uv, *vector, *budget);
            words.spent(spent, |words, pair| words.floats(pair));
        }
        Case::Singular(surface, tolerance) => {
            words.surface(surface);
            words.number(*tolerance);
            words.answer(
                calls::nurbs_singular(surface, *tolerance),
                |words, edges| {
                    words.count(edges.len());
                    for edge in edges {
                        words.count(edge.axis);
                        words.number(edge.value);
                        words.floats(&edge.point);
                        words.number(edge.side);
                    }
                },
            );
        }
        Case::Row(lent) => placed_row(words, lent),
        Case::Job(bytes) => {
            words.bytes(bytes);
            words.bytes(job::print(bytes).as_bytes());
        }
    }
}

fn evaluations(words: &mut Words, surface: &Surface, pairs: &[[f64; 2]]) {
    words.surface(surface);
    words.count(pairs.len());
    words.floats(pairs.as_flattened());
    let shell = Shell::new(surface);
    words.refusal(shell.as_ref().err());
    let Ok(shell) = shell else {
        return;
    };
    for &pair in pairs {
        words.answer(shell.evaluate(pair), |words, Jet { point, du, dv }| {
            words.floats([*point, *du, *dv].as_flattened());
        });
    }
}

fn invert(words: &mut Words, inversion: &Inversion) {
    let Inversion {
        surface,
        mark,
        search,
        budget,
    } = inversion;
    words.surface(surface);
    words.floats(mark);
    words.search(search);
    words.word(*budget);
    let spent = calls::invert(surface, *mark, search, *budget);
    words.spent(spent, |words, placed| {
        words.floats(&placed.pair);
        words.word(u64::from(placed.end));
        words.word(u64::from(placed.origin));
    });
}

fn placed_row(words: &mut Words, lent: &Row) {
    let Row {
        surface,
        marks,
        search,
        budget,
        answers,
        ends,
    } = lent;
    words.surface(surface);
    words.numbers(marks);
    words.search(search);
    words.word(*budget);
    words.numbers(answers);
    words.bytes(ends);
    let (mut answers, mut ends) = (answers.clone(), ends.clone());
    let ended = row::row(surface, marks, search, *budget, &mut answers, &mut ends);
    words.refusal(ended.refused.map(|(refusal, _)| refusal).as_ref());
    words.count(ended.refused.map_or(0, |(_, index)| index));
    words.word(ended.left);
    words.floats(&answers);
    words.packed(&ends);
}

/// The words of a record under way.
struct Words(Vec<u64>);

impl Words {
    fn word(&mut self, word: u64) {
        self.0.push(word);
    }

    fn count(&mut self, count: usize) {
        self.word(count as u64);
    }

    /// A float's bits; every NaN is the canonical quiet one.
    fn number(&mut self, number: f64) {
        self.word(if number.is_nan() {
            0x7ff8_0000_0000_0000
        } else {
            number.to_bits()
        });
    }

    fn floats(&mut self, numbers: &[f64]) {
        numbers.iter().for_each(|&number| self.number(number));
    }

    /// A count and as many floats.
    fn numbers(&mut self, numbers: &[f64]) {
        self.count(numbers.len());
        self.floats(numbers);
    }

    /// A count of bytes and the bytes, eight to a word, the first lowest.
    fn bytes(&mut self, bytes: &[u8]) {
        self.count(bytes.len());
        self.packed(bytes);
    }

    /// Bytes without their count, the last word filled with zeros.
    fn packed(&mut self, bytes: &[u8]) {
        for eight in bytes.chunks(8) {
            let mut word = [0; 8];
            word[..eight.len()].copy_from_slice(eight);
            self.word(u64::from_le_bytes(word));
        }
    }

    fn axis(&mut self, axis: &Axis) {
        self.count(axis.degree);
        self.count(axis.controls);
        self.numbers(&axis.knots);
    }

    fn at_side(&mut self, axis: &Axis, u: f64, side: KnotSide) {
        self.axis(axis);
        self.number(u);
        self.count(usize::from(side == KnotSide::Right));
    }

    fn surface(&mut self, surface: &Surface) {
        surface
            .degrees
            .iter()
            .for_each(|&degree| self.count(degree));
        surface.shape.iter().for_each(|&count| self.count(count));
        let [u, v] = surface.periodic.map(u64::from);
        self.word(u + 2 * v);
        let [u, v] = &surface.knots;
        for numbers in [u, v, &surface.controls, &surface.weights] {
            self.numbers(numbers);
        }
        self.numbers(surface.window());
    }

    fn search(&mut self, search: &Search) {
        self.count(usize::from(search.hint.is_some()));
        self.floats(&search.hint.unwrap_or_default());
        self.number(search.tolerance);
        for period in search.periods {
            self.count(usize::from(period.is_some()));
            self.number(period.unwrap_or_default());
        }
    }

    /// The refusal's number, 0 for none.
    fn refusal(&mut self, refusal: Option<&Refusal>) {
        self.word(refusal.map_or(0, |refusal| refusal.number()));
    }

    /// The refusal's number alone, or 0 and the answer.
    fn answer<T>(&mut self, answer: Result<T, Refusal>, write: impl Fn(&mut Self, &T)) {
        self.refusal(answer.as_ref().err());
        if let Ok(answer) = answer {
            write(self, &answer);
        }
    }

    /// Refusal, units left, and the answer where there is one.
    fn spent<T>(&mut self, spent: Spent<T>, write: impl Fn(&mut Self, &T)) {
        self.refusal(spent.answer.as_ref().err());
        self.word(spent.left);
        if let Ok(answer) = spent.answer {
            write(self, &answer);
        }
    }
}
