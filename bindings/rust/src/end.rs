use std::fmt;

/// How the run that an inversion chose ended; in a printout it is the last digit of a pair's line.
/// The words of each are also those of `placing_end_text` in placing.h.
#[derive(Clone, Copy, Debug, PartialEq, Eq)]
pub enum End {
    /// The next step leads to the same pair: the run has come to rest.
    Unchanged = 0,
    /// The next step's point lies strictly further from the mark, and the run kept its pair. Whether
    /// only rounding moved it, or the step was too long, this does not tell.
    Further = 1,
    /// The last move was at most 1e-15 of the window's wider axis.
    SmallStep = 2,
    /// The run was nudged once already, and the surface's two directions are again too nearly one.
    Singular = 3,
    /// 33 evaluations were made, and no other test ended the run.
    Rounds = 4,
}

/// By their numbers.
const ENDS: [End; 5] = [
    End::Unchanged,
    End::Further,
    End::SmallStep,
    End::Singular,
    End::Rounds,
];

impl End {
    /// The number that the library writes for it.
    pub fn number(self) -> u8 {
        self as u8
    }

    /// The end that has this number.
    pub fn from_number(number: u8) -> Option<Self> {
        ENDS.get(usize::from(number)).copied()
    }
}

impl fmt::Display for End {
    fn fmt(&self, f: &mut fmt::Formatter) -> fmt::Result {
        f.write_str(match self {
            Self::Unchanged => "unchanged",
            Self::Further => "next point further",
            Self::SmallStep => "small step",
            Self::Singular => "second singular point",
            Self::Rounds => "32 rounds",
        })
    }
}

/// Where the run that an inversion chose came from.
#[derive(Clone, Copy, Debug, PartialEq, Eq)]
pub enum Origin {
    Hint,
    /// A start of the grid, by its place among them from 1 to 6, the nearest to the mark first.
    Start(u8),
}

const MOST_STARTS: u8 = 6;

impl Origin {
    /// The number that the library writes for it.
    pub fn number(self) -> u8 {
        match self {
            Self::Hint => 0,
            Self::Start(place) => place,
        }
    }

    /// The origin that has this number.
    pub fn from_number(number: u8) -> Option<Self> {
        match number {
            0 => Some(Self::Hint),
            1..=MOST_STARTS => Some(Self::Start(number)),
            _ => None,
        }
    }
}

impl fmt::Display for Origin {
    fn fmt(&self, f: &mut fmt::Formatter) -> fmt::Result {
        match self {
            Self::Hint => f.write_str("the hint"),
            Self::Start(place) => write!(f, "start {place}"),
        }
    }
}
