//! Marks placed on a NURBS surface: from a point near the surface to its u and v.
//!
//! The work is done by a static library whose every function is proved to meet its contract. Each
//! call tests its own input and answers, for all input, a value or a [`Refusal`]; nothing that is
//! lent is written to, but for a budget and a row's answers and ends.
//!
//! ```
//! use placing::{End, Origin, Refusal, Search, Surface, Window};
//!
//! // Degrees 1 and 1: the point at (u, v) is (u, v, 0).
//! let square = Surface {
//!     degrees: [1, 1],
//!     shape: [2, 2],
//!     periodic: [false, false],
//!     knots: [&[0., 0., 1., 1.], &[0., 0., 1., 1.]],
//!     controls: &[0., 0., 0., 0., 1., 0., 1., 0., 0., 1., 1., 0.],
//!     weights: &[1.; 4],
//!     window: Window::Whole,
//! };
//! let search = Search { tolerance: 0.5, ..Search::default() };
//!
//! // A unit of the budget is an evaluation of the surface.
//! let mut budget = 100;
//! let placed = square.invert([0.25, 0.5, 0.75], &search, &mut budget)?;
//! assert_eq!(placed.pair, [0.25, 0.5]);
//! assert_eq!(budget, 8);
//!
//! // How the run that found the pair ended, and where it came from.
//! assert_eq!((placed.end, placed.origin), (End::Unchanged, Origin::Start(1)));
//! assert_eq!(placed.end.to_string(), "unchanged");
//!
//! // The same price is too much for what is left.
//! assert_eq!(square.invert([0.25, 0.5, 0.75], &search, &mut budget), Err(Refusal::Units));
//! assert_eq!(budget, 0);
//! # Ok::<(), Refusal>(())
//! ```
//!
//! Nothing is shared between calls: any number of threads may call at once, on one surface too. A
//! call takes at most 128 KiB of stack, and [`job`] 256 KiB; the library allocates nothing.
//!
//! The build links `libplacing.a` from the folder that the environment variable
//! `PLACING_LIBRARY_DIR` names, an absolute path, and where it is not set from `target/staticlib`
//! of the repository that this crate is a part of.
mod end;
pub mod raw;
mod refusal;

pub use end::{End, Origin};
pub use refusal::{Refusal, RowRefusal};
use std::slice;

/// What a call answers.
pub type Answer<T> = Result<T, Refusal>;

/// Three coordinates.
pub type Point = [f64; 3];

/// u and v.
pub type Pair = [f64; 2];

/// How a run of a row ended, as the library writes it: the numbers of an [`End`] and of an
/// [`Origin`]. [`Placed::read`] reads it.
pub type Ended = [u8; 2];

/// A mark that was placed.
#[derive(Clone, Copy, Debug, PartialEq)]
pub struct Placed {
    pub pair: Pair,
    /// How the run that found the pair ended.
    pub end: End,
    /// Where that run came from.
    pub origin: Origin,
}

/// A surface as it is lent. Nothing of it is checked before a call.
#[derive(Clone, Copy, Debug)]
pub struct Surface<'a> {
    pub degrees: [usize; 2],
    /// Controls along u, and along v.
    pub shape: [usize; 2],
    /// Whether u, and v, wrap with the knot domain for a period.
    pub periodic: [bool; 2],
    /// For each axis degree + controls + 1 of them.
    pub knots: [&'a [f64]; 2],
    /// Three coordinates each, u slowest.
    pub controls: &'a [f64],
    pub weights: &'a [f64],
    /// Where marks may be placed.
    pub window: Window,
}

/// The part of a surface that marks are placed in. [`Surface::evaluate`], [`Surface::derivative`]
/// and [`Surface::nurbs_singular`] test it, and know the whole knot domain all the same.
///
/// ```
/// # use placing::{Refusal, Search, Surface, Window};
/// # let square = Surface {
/// #     degrees: [1, 1],
/// #     shape: [2, 2],
/// #     periodic: [false, false],
/// #     knots: [&[0., 0., 1., 1.], &[0., 0., 1., 1.]],
/// #     controls: &[0., 0., 0., 0., 1., 0., 1., 0., 0., 1., 1., 0.],
/// #     weights: &[1.; 4],
/// #     window: Window::Whole,
/// # };
/// let part = Surface {
///     window: Window::Within { u: [0.25, 0.75], v: [0., 1.] },
///     ..square
/// };
/// // A mark beside the window is placed at its edge.
/// let placed = part.invert([0.9, 0.5, 0.75], &Search::default(), &mut 100)?;
/// assert_eq!(placed.pair, [0.75, 0.5]);
/// # Ok::<(), Refusal>(())
/// ```
#[derive(Clone, Copy, Debug, Default, PartialEq)]
pub enum Window {
    /// The whole knot domain.
    #[default]
    Whole,
    /// From the lowest to the highest u, and v, all included. A periodic axis keeps its whole
    /// domain: other numbers for it are refused with [`Refusal::Window`], as are those beyond the
    /// domain of any axis.
    Within { u: [f64; 2], v: [f64; 2] },
}

/// Where to look first, and the turn of the answer where an axis has a period.
#[derive(Clone, Copy, Debug, Default, PartialEq)]
pub enum Hint {
    #[default]
    Nothing,
    At(Pair),
}

/// The period of an axis, by which an answer is moved to the hint's turn, out of the window as well:
/// it is then infinite where the hint lies too many periods away. The surface's own flag is another
/// matter.
#[derive(Clone, Copy, Debug, Default, PartialEq)]
pub enum Period {
    #[default]
    Free,
    Every(f64),
}

/// What guides a search. By default there is no hint, the tolerance is 0 and neither axis has a
/// period.
#[derive(Clone, Copy, Debug, Default, PartialEq)]
pub struct Search {
    pub hint: Hint,
    /// How near to the mark the end of the hint's run is good enough; and in a row, how near to its
    /// mark the end of a run is whose pair is the next mark's hint.
    pub tolerance: f64,
    pub periods: [Period; 2],
}

/// A surface point and its two first derivatives.
#[derive(Clone, Copy, Debug, PartialEq)]
pub struct Jet {
    pub point: Point,
    pub du: Point,
    pub dv: Point,
}

/// What an inversion can cost at most, in units of a budget.
#[derive(Clone, Copy, Debug, PartialEq, Eq)]
pub struct Quote {
    /// How many points the grid of the surface's window has, each of which is evaluated where a
    /// search has no hint or the hint does not lead near enough.
    pub grid: u64,
    /// The largest price: a budget of so many units is never refused with [`Refusal::Units`].
    pub most: u64,
}

/// An edge of the domain.
#[derive(Clone, Copy, Debug, PartialEq)]
pub enum Edge {
    Open,
    /// The surface is one point along it, within the tolerance: that of its middle.
    Collapsed {
        /// The other axis's parameter along the edge.
        value: f64,
        point: Point,
        /// 1 at the lower end of the other axis, -1 at the upper.
        side: f64,
    },
}

/// A plane's origin and its axes, taken as they are.
#[derive(Clone, Copy, Debug, PartialEq)]
pub struct Frame {
    pub origin: Point,
    pub u: Point,
    pub v: Point,
}

impl Placed {
    /// A mark of a row, by its pair and its end. `None` where the library writes no such bytes.
    pub fn read(pair: Pair, [end, origin]: Ended) -> Option<Self> {
        Some(Self {
            pair,
            end: End::from_number(end)?,
            origin: Origin::from_number(origin)?,
        })
    }
}

impl Surface<'_> {
    /// Point and first derivatives at u and v. [`Refusal::Evaluation`] outside the domain.
    pub fn evaluate(&self, [u, v]: Pair) -> Answer<Jet> {
        let mut jet = [[0.; 3]; 3];
        let number = self.lend(|lent| raw::evaluate(lent, u, v, jet.as_flattened_mut()));
        let [point, du, dv] = jet;
        answer(number, Jet { point, du, dv })
    }

    /// The pair of the surface point nearest to the mark, and how the run that found it ended. Each
    /// evaluation takes a unit of the budget, of which what is left is written back. u or v may be
    /// infinite after a shift by a period.
    pub fn invert(&self, mark: Point, search: &Search, budget: &mut u64) -> Answer<Placed> {
        let mut pair = [0.; 2];
        let mut ended = [0; 2];
        let [pu, pv] = &search.periods;
        let number = self.lend(|lent| {
            raw::invert(
                lent,
                mark,
                search.hint.numbers(),
                search.tolerance,
                pu.numbers(),
                pv.numbers(),
                slice::from_mut(budget),
                &mut pair,
                &mut ended,
            )
        });
        answer(number, ())
            .map(|()| Placed::read(pair, ended).expect("the library writes no other bytes"))
    }

    /// The pairs of a row of marks, written to the front of `answers`, and how the runs that found
    /// them ended, to the front of `ends`. One budget serves all. Where a mark is refused the pairs
    /// and ends before it are written, and all later ones keep their bits.
    ///
    /// The search's hint is the first mark's. A pair is the next mark's hint, as it is written, where
    /// its run's end, before any shift by a period, is at most the tolerance from its mark. Any other
    /// mark is lost: the next has no hint, and is placed as by [`Surface::invert`] without one. A pair
    /// may be infinite as there, and the next mark is then refused with [`Refusal::Argument`], unless
    /// the pair's own mark is lost.
    ///
    /// ```
    /// # use placing::{End, Origin, Placed, RowRefusal, Search, Surface, Window};
    /// # let square = Surface {
    /// #     degrees: [1, 1],
    /// #     shape: [2, 2],
    /// #     periodic: [false, false],
    /// #     knots: [&[0., 0., 1., 1.], &[0., 0., 1., 1.]],
    /// #     controls: &[0., 0., 0., 0., 1., 0., 1., 0., 0., 1., 1., 0.],
    /// #     weights: &[1.; 4],
    /// #     window: Window::Whole,
    /// # };
    /// let search = Search { tolerance: 1., ..Search::default() };
    /// let marks = [[0.25, 0.5, 0.75], [0.5, 0.5, 0.75]];
    /// let mut pairs = [[0.; 2]; 2];
    /// let mut ends = [[255; 2]; 2]; // which read as no end until they are written
    /// square.row(&marks, &search, &mut 1000, &mut pairs, &mut ends)?;
    /// let second = Placed::read(pairs[1], ends[1]).unwrap();
    /// assert_eq!(second.pair, [0.5, 0.5]);
    /// assert_eq!((second.end, second.origin), (End::Unchanged, Origin::Hint));
    ///
    /// // The first lies 0.75 off the square: with a smaller tolerance it is lost.
    /// let search = Search { tolerance: 0.5, ..search };
    /// square.row(&marks, &search, &mut 1000, &mut pairs, &mut ends)?;
    /// let second = Placed::read(pairs[1], ends[1]).unwrap();
    /// assert_eq!((second.pair, second.origin), ([0.5, 0.5], Origin::Start(1)));
    /// # Ok::<(), RowRefusal>(())
    /// ```
    pub fn row(
        &self,
        marks: &[Point],
        search: &Search,
        budget: &mut u64,
        answers: &mut [Pair],
        ends: &mut [Ended],
    ) -> Result<(), RowRefusal> {
        let answers = answers.as_flattened_mut();
        let ends = ends.as_flattened_mut();
        self.row_flat(marks.as_flattened(), search, budget, answers, ends)
    }

    /// As [`Surface::row`], with the marks' coordinates, the answers' numbers and the ends' bytes one
    /// after another: three a mark, and room for two and for two.
    pub fn row_flat(
        &self,
        marks: &[f64],
        search: &Search,
        budget: &mut u64,
        answers: &mut [f64],
        ends: &mut [u8],
    ) -> Result<(), RowRefusal> {
        let (number, index) = self.raw_row(marks, search, budget, answers, ends);
        answer(number, ()).map_err(|refusal| RowRefusal {
            refusal,
            mark: self.ended_at(search, refusal, index),
        })
    }

    fn raw_row(
        &self,
        marks: &[f64],
        search: &Search,
        budget: &mut u64,
        answers: &mut [f64],
        ends: &mut [u8],
    ) -> (u64, u64) {
        let mut index = 0;
        let [pu, pv] = &search.periods;
        let number = self.lend(|lent| {
            raw::row(
                lent,
                marks,
                search.hint.numbers(),
                search.tolerance,
                pu.numbers(),
                pv.numbers(),
                slice::from_mut(budget),
                slice::from_mut(&mut index),
                answers,
                ends,
            )
        });
        (number, index)
    }

    /// The mark that ended a row. The search is tested before the first mark, and an unsound one is
    /// refused with the number and index of an unsound first mark: the same row without marks is
    /// refused only in the one case.
    fn ended_at(&self, search: &Search, refusal: Refusal, index: u64) -> Option<usize> {
        let by_a_mark = match refusal {
            Refusal::Units | Refusal::Evaluation => true,
            Refusal::Argument => {
                index > 0 || self.raw_row(&[], search, &mut 0, &mut [], &mut []).0 == 0
            }
            _ => false,
        };
        by_a_mark.then_some(index as usize)
    }

    /// What an inversion can cost at most, without a hint or with one, from the degrees, the shape,
    /// the flags, the knots and the window alone: nothing is evaluated, and controls and weights may
    /// be anything. So a surface that has a quote may yet be refused for these.
    ///
    /// The first mark of a row takes no more than this, and each later mark no more than with a hint.
    ///
    /// ```
    /// # use placing::{Refusal, Search, Surface, Window};
    /// # let square = Surface {
    /// #     degrees: [1, 1],
    /// #     shape: [2, 2],
    /// #     periodic: [false, false],
    /// #     knots: [&[0., 0., 1., 1.], &[0., 0., 1., 1.]],
    /// #     controls: &[0., 0., 0., 0., 1., 0., 1., 0., 0., 1., 1., 0.],
    /// #     weights: &[1.; 4],
    /// #     window: Window::Whole,
    /// # };
    /// let first = square.quote(false)?;
    /// assert_eq!((first.grid, first.most), (81, 279));
    /// let later = square.quote(true)?;
    /// assert_eq!((later.grid, later.most), (81, 345));
    ///
    /// // Before there are any controls.
    /// let bare = Surface { controls: &[], weights: &[], ..square };
    /// assert_eq!(bare.quote(false), Ok(first));
    ///
    /// // So many units are enough for every mark.
    /// let mut budget = first.most;
    /// square.invert([0.25, 0.5, 0.75], &Search::default(), &mut budget)?;
    /// # Ok::<(), Refusal>(())
    /// ```
    pub fn quote(&self, hinted: bool) -> Answer<Quote> {
        let mut quote = [0; 2];
        let number = self.lend(|lent| raw::quote(lent, hinted.into(), &mut quote));
        let [grid, most] = quote;
        answer(number, Quote { grid, most })
    }

    /// How u and v move as the surface point at them moves by a vector, for a unit. They may be
    /// infinite or NaN.
    pub fn derivative(&self, [u, v]: Pair, vector: Point, budget: &mut u64) -> Answer<Pair> {
        let mut pair = [0.; 2];
        let budget = slice::from_mut(budget);
        let number = self.lend(|lent| raw::derivative(lent, u, v, vector, budget, &mut pair));
        answer(number, pair)
    }

    /// The edges along u at the lower and at the upper end of v, then those along v at the ends
    /// of u.
    pub fn nurbs_singular(&self, tolerance: f64) -> Answer<[Edge; 4]> {
        let mut collapsed = [0; 4];
        let mut edges = [[0.; 5]; 4];
        let number = self.lend(|lent| {
            raw::nurbs_singular(lent, tolerance, &mut collapsed, edges.as_flattened_mut())
        });
        let edge = |i: usize| {
            let [value, x, y, z, side] = edges[i];
            let point = [x, y, z];
            if collapsed[i] == 0 {
                Edge::Open
            } else {
                Edge::Collapsed { value, point, side }
            }
        };
        answer(number, [0, 1, 2, 3].map(edge))
    }

    /// Makes a call on the surface as the library is lent it.
    fn lend(&self, call: impl FnOnce(&raw::Lent) -> u64) -> u64 {
        let within;
        let window = match self.window {
            Window::Whole => &[],
            Window::Within { u, v } => {
                within = [u, v];
                within.as_flattened()
            }
        };
        call(&raw::Lent {
            degrees: self.degrees,
            shape: self.shape,
            flags: u64::from(self.periodic[0]) + 2 * u64::from(self.periodic[1]),
            knots: self.knots,
            controls: self.controls,
            weights: self.weights,
            window,
        })
    }
}

/// The coordinates of a mark in a plane's frame, for a unit. They may be infinite or NaN.
pub fn plane(frame: &Frame, mark: Point, budget: &mut u64) -> Answer<Pair> {
    let mut pair = [0.; 2];
    let frame = [frame.origin, frame.u, frame.v];
    let number = raw::plane(frame, mark, slice::from_mut(budget), &mut pair);
    answer(number, pair)
}

/// The printout of a job file, as the placing program writes it for the same bytes. A malformed
/// file has one too, `refused 12 at 0`.
pub fn job(file: &[u8]) -> Vec<u8> {
    let mut printout = vec![0; raw::PRINTOUT_ROOM];
    let mut written = 0;
    let number = raw::job(file, &mut printout, slice::from_mut(&mut written));
    assert_eq!(number, 0, "there is room for every printout");
    printout.truncate(written as usize);
    printout
}

impl Hint {
    fn numbers(&self) -> &[f64] {
        match self {
            Self::Nothing => &[],
            Self::At(pair) => pair,
        }
    }
}

impl Period {
    fn numbers(&self) -> &[f64] {
        match self {
            Self::Free => &[],
            Self::Every(period) => slice::from_ref(period),
        }
    }
}

fn answer<T>(number: u64, value: T) -> Answer<T> {
    match number {
        0 => Ok(value),
        _ => Err(Refusal::from_number(number).expect("the library answers no other number")),
    }
}
