//! The measurement as text.
use super::{Kind, Measured, kinds, measure};
use std::fmt::{self, Display, Formatter};

/// Marks of each kind.
const MARKS: usize = 300;

const COLUMNS: [&str; 9] = [
    "near",
    "missed",
    "off",
    "missed",
    "marks",
    "missed",
    "elsewhere",
    "over",
    "most",
];

const LEGEND: &str = "\
near       marks at most 1% of the shell's size from a point of it, a quarter of them on it
off        marks at most 30% of the size from a point of it; size is the diagonal of its box
missed     the pair's distance is above the least by more than 1e-6 of the least, and by more
           than 1e-9 of the size
elsewhere  missed, and no way downhill from the pair leads to the least
over       missed by more than 0.01 mm
most       the largest excess of a pair's distance over the least, in mm
nearest    the pair's distance is the least found, up to 1e-9 of it and 1e-12 of the size
beaten     the pair is nearer than the reference by more than that
weak       so is anything found: the pair, runs of the source from the grid's minima, or the
           way downhill from the pair
";

/// Every kind with its measured marks.
pub struct Table(Vec<(Kind, Vec<Measured>)>);

impl Table {
    pub fn new(seed: u64) -> Self {
        let measured = |kind: Kind| {
            let marks = measure(&kind, MARKS, seed);
            (kind, marks)
        };
        Self(kinds().into_iter().map(measured).collect())
    }

    /// Whether nothing found is nearer than the reference.
    pub fn is_sound(&self) -> bool {
        self.all().into_iter().all(|mark| !mark.weak())
    }

    fn all(&self) -> Vec<&Measured> {
        self.0.iter().flat_map(|(_, marks)| marks).collect()
    }

    /// For each kind, then for all kinds, a line for each number and one for all numbers.
    fn section(
        &self,
        f: &mut Formatter<'_>,
        what: &str,
        numbers: &[u8],
        number: fn(&Measured) -> u8,
    ) -> fmt::Result {
        write!(f, "{:<12}{what:<7}", "kind")?;
        for column in COLUMNS {
            write!(f, "{column:>10}")?;
        }
        writeln!(f)?;
        let kinds = self.0.iter();
        let kinds = kinds.map(|(kind, marks)| (kind.name, marks.iter().collect()));
        for (name, marks) in kinds.chain([("all kinds", self.all())]) {
            for &wanted in numbers {
                let group = marks.iter().filter(|mark| number(mark) == wanted);
                let group: Vec<&Measured> = group.copied().collect();
                line(f, name, &wanted.to_string(), &group)?;
            }
            line(f, name, "all", &marks)?;
        }
        writeln!(f)
    }

    /// How the reference compares with what the source finds.
    fn checks(&self, f: &mut Formatter<'_>) -> fmt::Result {
        write!(f, "{:<19}", "kind")?;
        for column in ["marks", "nearest", "beaten", "weak", "size"] {
            write!(f, "{column:>10}")?;
        }
        writeln!(f)?;
        for (kind, marks) in &self.0 {
            write!(f, "{:<19}{:>10}", kind.name, marks.len())?;
            for which in [Measured::nearest, Measured::beaten, Measured::weak] {
                let count = marks.iter().filter(|mark| which(mark)).count();
                write!(f, "{count:>10}")?;
            }
            writeln!(f, "{:>10.1}", marks[0].size)?;
        }
        writeln!(f)
    }
}

impl Display for Table {
    fn fmt(&self, f: &mut Formatter<'_>) -> fmt::Result {
        for (kind, _) in &self.0 {
            writeln!(f, "{:<12}{}", kind.name, kind.what)?;
        }
        writeln!(f)?;
        self.section(f, "end", &[0, 1, 2, 3, 4], |mark| mark.placed.end)?;
        self.section(f, "origin", &[1, 2, 3, 4, 5, 6], |mark| mark.placed.origin)?;
        self.checks(f)?;
        write!(f, "{LEGEND}")
    }
}

fn line(f: &mut Formatter<'_>, name: &str, number: &str, marks: &[&Measured]) -> fmt::Result {
    let (off, near): (Vec<_>, Vec<_>) = marks.iter().copied().partition(|mark| mark.off);
    let count = |marks: &[&Measured], which: fn(&Measured) -> bool| {
        let counted = marks.iter().filter(|mark| which(mark));
        counted.count()
    };
    let cells = [
        near.len(),
        count(&near, Measured::missed),
        off.len(),
        count(&off, Measured::missed),
        marks.len(),
        count(marks, Measured::missed),
        count(marks, Measured::elsewhere),
        count(marks, Measured::over),
    ];
    write!(f, "{name:<12}{number:<7}")?;
    for cell in cells {
        write!(f, "{cell:>10}")?;
    }
    let excess = marks.iter().map(|mark| mark.distance - mark.least());
    writeln!(f, "{:>10.4}", excess.fold(0., f64::max))
}
