//! Stored records read back, and their inputs answered again.
use crate::answers::{KINDS, Record};
use crate::calls::{Search, Surface, Window};
use crate::generate::{Case, Inversion, Row};
use crate::small::{Axis, KnotSide};
use std::collections::BTreeMap;

/// How many records of each kind are answered otherwise now. Those of Rust's own methods, whose
/// kinds come after, are passed over.
pub fn differing(mut words: &[u64]) -> BTreeMap<&'static str, usize> {
    let mut differing = BTreeMap::new();
    while let [kind, length, rest @ ..] = words {
        let (body, next) = rest.split_at(*length as usize);
        words = next;
        if *kind > KINDS.len() as u64 {
            continue;
        }
        let answered = Record::new(&Reader(body).case(*kind));
        if answered.words[2..] != *body {
            *differing.entry(answered.kind()).or_default() += 1;
        }
    }
    differing
}

/// The words of a record that are still to be read.
struct Reader<'a>(&'a [u64]);

impl Reader<'_> {
    fn case(mut self, kind: u64) -> Case {
        match kind {
            1 => Case::Weights(self.numbers()),
            2 => Case::Knots(self.axis()),
            3 => Case::Snap(self.axis(), self.number()),
            4 => Case::Span(self.axis(), self.number(), self.side()),
            5 => Case::Basis(self.axis(), self.number(), self.side()),
            6 => Case::Wrap(self.floats(), self.number()),
            7 => Case::Evaluate(self.surface(), self.pairs()),
            8 => Case::Nearest(self.floats()),
            9 => Case::Invert(Inversion {
                surface: self.surface(),
                mark: self.floats(),
                search: self.search(),
                budget: self.word(),
            }),
            10 => Case::Plane([0; 3].map(|_| self.floats()), self.floats(), self.word()),
            11 => Case::Derivative(self.surface(), self.floats(), self.floats(), self.word()),
            12 => Case::Singular(self.surface(), self.number()),
            13 => Case::Row(Row {
                surface: self.surface(),
                marks: self.numbers(),
                search: self.search(),
                budget: self.word(),
                answers: self.numbers(),
                ends: self.bytes(),
            }),
            14 => Case::Job(self.bytes()),
            other => panic!("no record is of kind {other}"),
        }
    }

    fn word(&mut self) -> u64 {
        let (&word, rest) = self.0.split_first().expect("a record holds its input");
        self.0 = rest;
        word
    }

    fn count(&mut self) -> usize {
        self.word() as usize
    }

    fn number(&mut self) -> f64 {
        f64::from_bits(self.word())
    }

    fn floats<const N: usize>(&mut self) -> [f64; N] {
        [0; N].map(|_| self.number())
    }

    fn numbers(&mut self) -> Vec<f64> {
        let count = self.count();
        (0..count).map(|_| self.number()).collect()
    }

    fn pairs(&mut self) -> Vec<[f64; 2]> {
        let count = self.count();
        (0..count).map(|_| self.floats()).collect()
    }

    fn bytes(&mut self) -> Vec<u8> {
        let count = self.count();
        let words = (0..count.div_ceil(8)).flat_map(|_| self.word().to_le_bytes());
        let mut bytes: Vec<u8> = words.collect();
        bytes.truncate(count);
        bytes
    }

    fn axis(&mut self) -> Axis {
        Axis {
            degree: self.count(),
            controls: self.count(),
            knots: self.numbers(),
        }
    }

    fn side(&mut self) -> KnotSide {
        [KnotSide::Left, KnotSide::Right][self.count()]
    }

    fn surface(&mut self) -> Surface {
        let degrees = [self.count(), self.count()];
        let shape = [self.count(), self.count()];
        let flags = self.word();
        Surface {
            degrees,
            shape,
            periodic: [flags & 1 != 0, flags & 2 != 0],
            knots: [self.numbers(), self.numbers()],
            controls: self.numbers(),
            weights: self.numbers(),
            window: self.window(),
        }
    }

    fn window(&mut self) -> Option<Window> {
        match self.count() {
            0 => None,
            4 => Some([self.floats(), self.floats()]),
            other => panic!("no window has {other} numbers"),
        }
    }

    fn search(&mut self) -> Search {
        let hinted = self.word() != 0;
        let hint = self.floats();
        let tolerance = self.number();
        let periods = [0; 2].map(|_| {
            let periodic = self.word() != 0;
            let period = self.number();
            periodic.then_some(period)
        });
        Search {
            hint: hinted.then_some(hint),
            tolerance,
            periods,
        }
    }
}
