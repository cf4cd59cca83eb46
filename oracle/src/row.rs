//! A row of marks on one surface, added by document 01: an answer within the tolerance is the
//! hint of the next mark, and after any other the next has none.
use crate::calls::{Pair, Placed, Point, Search, Shell, Spent, Surface};
use crate::refusals::{self, Refusal};

/// How a row ended: the refusal and its mark's index, if any, and the units left.
#[derive(Clone, Copy, Debug, PartialEq)]
pub struct Ended {
    pub refused: Option<(Refusal, usize)>,
    pub left: u64,
}

/// Writes each mark's pair into `answers`, and the end and the origin of its run into `ends`,
/// a byte each; what comes after the last mark placed keeps its bits.
pub fn row(
    surface: &Surface,
    marks: &[f64],
    search: &Search,
    budget: u64,
    answers: &mut [f64],
    ends: &mut [u8],
) -> Ended {
    let needed = marks.len() / 3 * 2;
    if !marks.len().is_multiple_of(3) || answers.len() < needed || ends.len() < needed {
        return Ended {
            refused: Some((Refusal::Row, 0)),
            left: budget,
        };
    }
    let mut buffers = answers.chunks_exact_mut(2).zip(ends.chunks_exact_mut(2));
    walk(surface, marks, search, budget, |placed, _| {
        let (pair, end) = buffers.next().expect("two numbers and two bytes a mark");
        pair.copy_from_slice(&placed.pair);
        end.copy_from_slice(&[placed.end, placed.origin]);
    })
}

/// Places the marks in order and hands each answer, with the units then left, to `placed`.
pub fn walk(
    surface: &Surface,
    marks: &[f64],
    search: &Search,
    budget: u64,
    placed: impl FnMut(Placed, u64),
) -> Ended {
    let by = By {
        invert: Shell::invert,
        hint: |placed, tolerance| (placed.distance <= tolerance).then_some(placed.pair),
    };
    by.walk(surface, marks, search, budget, placed)
}

/// The pairs of a row whose answers are all within the tolerance, by the source as published
/// and nothing else: it tells no distance, so that every pair is the hint of the next mark.
pub fn pairs(
    surface: &Surface,
    marks: &[f64],
    search: &Search,
    budget: u64,
    placed: impl FnMut(Pair, u64),
) -> Ended {
    let by = By {
        invert: Shell::pair,
        hint: |pair, _| Some(*pair),
    };
    by.walk(surface, marks, search, budget, placed)
}

/// How a mark is placed, and the hint that its answer, with the tolerance, is to the next.
struct By<T> {
    invert: fn(&Shell, Point, &Search, u64) -> Spent<T>,
    hint: fn(&T, f64) -> Option<Pair>,
}

impl<T> By<T> {
    fn walk(
        &self,
        surface: &Surface,
        marks: &[f64],
        search: &Search,
        budget: u64,
        mut placed: impl FnMut(T, u64),
    ) -> Ended {
        let mut left = budget;
        let refused = (|| {
            let shell = Shell::new(surface).map_err(|refusal| (refusal, 0))?;
            search.check().map_err(|refusal| (refusal, 0))?;
            let mut search = *search;
            for (index, mark) in marks.as_chunks().0.iter().enumerate() {
                let answer = self
                    .place(&shell, *mark, &search, &mut left)
                    .map_err(|refusal| (refusal, index))?;
                search.hint = (self.hint)(&answer, search.tolerance);
                placed(answer, left);
            }
            Ok(())
        })()
        .err();
        Ended { refused, left }
    }

    fn place(
        &self,
        shell: &Shell,
        mark: Point,
        search: &Search,
        left: &mut u64,
    ) -> Result<T, Refusal> {
        refusals::finite(&mark)?;
        search.check()?;
        let spent = (self.invert)(shell, mark, search, *left);
        *left = spent.left;
        spent.answer
    }
}
