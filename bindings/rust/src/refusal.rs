use std::error::Error;
use std::fmt;

// A variant's words are its documentation and what it displays.
macro_rules! refusals {
    ($($name:ident = $number:literal: $words:literal,)+) => {
        /// Why a call was refused, or what a printout means by `refused` and a number. The words
        /// of each are also those of `placing_refusal_text` in placing.h.
        #[derive(Clone, Copy, Debug, PartialEq, Eq)]
        #[non_exhaustive]
        pub enum Refusal {
            $(#[doc = $words] $name = $number,)+
        }

        const ALL: &[Refusal] = &[$(Refusal::$name),+];

        impl fmt::Display for Refusal {
            fn fmt(&self, f: &mut fmt::Formatter) -> fmt::Result {
                f.write_str(match self {
                    $(Self::$name => $words,)+
                })
            }
        }
    };
}

refusals! {
    Counts = 1: "there are more than 100,000 controls or 100,034 knots, or a count is out of range",
    Controls = 2: "the counts of controls or weights are not the product of the shape's two counts",
    Coordinate = 3: "a control's coordinate is not finite",
    Weights = 4: "there are no weights, or one is not finite, not above 0, or 0 after division by the \
        largest",
    Degree = 5: "a degree is 0 or above 16",
    Knots = 6: "the knots of an axis are not right: their count, their order, more than degree + 1 \
        equal ones, a domain without width, or a number that is not finite",
    Argument = 7: "the mark, vector, frame, hint, tolerance or a period is not finite, the tolerance is \
        below 0, or a period is not above 0",
    Units = 8: "no unit of the budget was left for an evaluation",
    Evaluation = 9: "an evaluation refused: the parameter lies outside, a number is not finite, or the \
        weight sum is not above 0",
    Singular = 10: "the two derivatives of the surface there don't span a plane",
    Row = 11: "the marks are not in threes, or there are under two numbers a mark for the answers, or \
        under two bytes a mark for the ends",
    Malformed = 12: "the job file is malformed",
    Window = 24: "the window is not finite, not rising or beyond the domain, or narrower than it on a \
        periodic axis",
    Misfit = 99: "flags are above 3, a window, hint or period has another count of numbers, hinted is \
        above 1, or there is less room than the answer needs",
}

impl Refusal {
    /// The number that the library answers for it.
    pub fn number(self) -> u64 {
        self as u64
    }

    /// The refusal that has this number.
    pub fn from_number(number: u64) -> Option<Self> {
        ALL.iter()
            .copied()
            .find(|refusal| refusal.number() == number)
    }
}

impl Error for Refusal {}

/// Why a row ended early.
#[derive(Clone, Copy, Debug, PartialEq, Eq)]
pub struct RowRefusal {
    pub refusal: Refusal,
    /// The index of the mark that could not be placed, from 0; all before it were. `None` where no
    /// mark is at fault but the surface, the search or a slice, which are tested before the first
    /// mark: then none was placed.
    pub mark: Option<usize>,
}

impl fmt::Display for RowRefusal {
    fn fmt(&self, f: &mut fmt::Formatter) -> fmt::Result {
        match self.mark {
            Some(index) => write!(f, "mark {index}: {}", self.refusal),
            None => self.refusal.fmt(f),
        }
    }
}

impl Error for RowRefusal {
    fn source(&self) -> Option<&(dyn Error + 'static)> {
        Some(&self.refusal)
    }
}
