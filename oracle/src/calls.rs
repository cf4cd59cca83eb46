//! The calls of document 01 that test their own input, answered by the source.
use crate::ends;
use crate::refusals::{self, Refusal};
use crate::small;
use crate::source::pcurve::{self, Chart, Frame, Inverter, PcurveError, Work};
use crate::source::recorded;
use crate::window;
use tessstep_curves::PlaneFrame;
use tessstep_curves::spline::SplineLimits;
use tessstep_math::{ModelSpace, NumericalTolerance, Point3, Vector3};
use tessstep_surfaces::{NurbsSurface, Surface as Plane};
use tessstep_topology::SurfaceGeometry;

pub type Point = [f64; 3];
pub type Pair = [f64; 2];
/// Lowest and highest parameter of u, and of v.
pub type Window = [[f64; 2]; 2];

/// A surface as it is lent to a call: counts, flags and flat numbers, all unchecked.
#[derive(Clone, Debug)]
pub struct Surface {
    pub degrees: [usize; 2],
    pub shape: [usize; 2],
    pub periodic: [bool; 2],
    pub knots: [Vec<f64>; 2],
    pub controls: Vec<f64>,
    pub weights: Vec<f64>,
    /// Where marks may be placed, if not in the whole knot domain.
    pub window: Option<Window>,
}

/// What guides an inversion beside surface, mark and budget.
#[derive(Clone, Copy, Debug)]
pub struct Search {
    pub hint: Option<Pair>,
    pub tolerance: f64,
    pub periods: [Option<f64>; 2],
}

/// An answer or a refusal, with the units left.
#[derive(Clone, Copy, Debug, PartialEq)]
pub struct Spent<T> {
    pub answer: Result<T, Refusal>,
    pub left: u64,
}

/// How many points the grid of an inversion has, where it walked all of them.
pub type Grid = Option<usize>;

/// An inversion's answer: the pair, and of the run that found it the end, the origin and the
/// distance.
#[derive(Clone, Copy, Debug, PartialEq)]
pub struct Placed {
    pub pair: Pair,
    /// 0 pair unchanged, 1 next point further, 2 small step, 3 second singular point, 4 all
    /// rounds gone.
    pub end: u8,
    /// 0 for the hint, or the start's place, 1 to 6.
    pub origin: u8,
    /// That of the run's end from the mark, before any shift by periods.
    pub distance: f64,
}

/// Point and first derivatives.
#[derive(Clone, Copy, Debug, PartialEq)]
pub struct Jet {
    pub point: Point,
    pub du: Point,
    pub dv: Point,
}

/// An edge that `nurbs_singular` found collapsed.
#[derive(Clone, Copy, Debug, PartialEq)]
pub struct Edge {
    pub axis: usize,
    pub value: f64,
    pub point: Point,
    pub side: f64,
}

/// A surface that passed checks 1 to 6 and 24.
pub struct Shell {
    geometry: SurfaceGeometry,
    /// What runs are clamped to: the knot domain on a periodic axis and where there is no window.
    window: Window,
}

impl Shell {
    pub fn new(surface: &Surface) -> Result<Self, Refusal> {
        let made = construct(surface);
        if made == Err(Refusal::Counts) {
            return Err(Refusal::Counts);
        }
        if made == Err(Refusal::Controls) || !surface.controls.len().is_multiple_of(3) {
            return Err(Refusal::Controls);
        }
        if surface.controls.iter().any(|x| !x.is_finite()) {
            return Err(Refusal::Coordinate);
        }
        let nurbs = made?.flagged(surface.periodic);
        let domain = nurbs.knot_vectors().map(|knots| knots.domain());
        let lent = surface.window.unwrap_or(domain);
        refusals::window(lent, domain, surface.periodic)?;
        let kept = |k: usize| if surface.periodic[k] { domain } else { lent }[k];
        Ok(Self {
            geometry: SurfaceGeometry::Nurbs(nurbs),
            window: [kept(0), kept(1)],
        })
    }

    /// The knot domain of each axis.
    pub fn domain(&self) -> Window {
        self.nurbs().knot_vectors().map(|knots| knots.domain())
    }

    /// What runs are clamped to.
    pub fn window(&self) -> Window {
        self.window
    }

    /// Whether the window has the bits of the knot domain, so that the source as published knows it.
    pub fn is_whole(&self) -> bool {
        let bits = |window: Window| window.map(|ends| ends.map(f64::to_bits));
        bits(self.window) == bits(self.domain())
    }

    pub fn evaluate(&self, [u, v]: Pair) -> Result<Jet, Refusal> {
        let all = self.nurbs().evaluate(u, v);
        let all = all.map_err(|_| Refusal::Evaluation)?;
        Ok(Jet {
            point: all.position.coordinates(),
            du: all.du.components(),
            dv: all.dv.components(),
        })
    }

    /// `Inverter::invert` on input that passed check 7. The source as published answers; the
    /// copy that records tells how its run ended, and must answer the same. In a window that the
    /// source doesn't know the copy answers alone.
    pub fn invert(&self, mark: Point, search: &Search, budget: u64) -> Spent<Placed> {
        self.invert_with_grid(mark, search, budget).0
    }

    /// As `invert`, with the grid that was walked.
    fn invert_with_grid(&self, mark: Point, search: &Search, budget: u64) -> (Spent<Placed>, Grid) {
        let (copied, runs) = ends::recorded(|| self.recorded(mark, search, budget));
        let answered = if self.is_whole() {
            self.published(mark, search, budget)
        } else {
            copied
        };
        assert!(
            bits(answered) == bits(copied),
            "the copy answers {copied:?} and not {answered:?}"
        );
        let placed = |pair| {
            let taken = runs.taken.expect("an answer is some run's");
            Placed {
                pair,
                end: taken.end,
                origin: taken.origin,
                distance: taken.distance,
            }
        };
        let spent = Spent {
            answer: answered.answer.map(placed),
            left: answered.left,
        };
        (spent, runs.points)
    }

    /// The pair of `invert`, by the source as published and nothing else where it knows the window.
    pub fn pair(&self, mark: Point, search: &Search, budget: u64) -> Spent<Pair> {
        if self.is_whole() {
            self.published(mark, search, budget)
        } else {
            self.recorded(mark, search, budget)
        }
    }

    /// The pair by the source as published, in the whole knot domain.
    fn published(&self, mark: Point, search: &Search, budget: u64) -> Spent<Pair> {
        let chart = Chart::Nurbs(search.periods, Vec::new());
        let inverter = Inverter {
            chart: &chart,
            surface: &self.geometry,
            tolerance: search.tolerance,
        };
        spend(budget, |work| inverter.invert(mark, search.hint, work))
    }

    /// The pair by the copy that records, in the window. Its types are its own.
    fn recorded(&self, mark: Point, search: &Search, budget: u64) -> Spent<Pair> {
        let chart = recorded::Chart::Nurbs(search.periods, Vec::new());
        let inverter = recorded::Inverter {
            chart: &chart,
            surface: &self.geometry,
            tolerance: search.tolerance,
        };
        let mut work = recorded::Work {
            remaining: budget as usize,
        };
        let answer = window::within(self.window, || {
            inverter.invert(mark, search.hint, &mut work)
        });
        Spent {
            answer: answer.map_err(refusals::of_recorded_work),
            left: work.remaining as u64,
        }
    }

    fn derivative(&self, uv: Pair, vector: Point, budget: u64) -> Spent<Pair> {
        let inverter = Inverter {
            chart: &Chart::Nurbs([None; 2], Vec::new()),
            surface: &self.geometry,
            tolerance: 0.,
        };
        spend(budget, |work| inverter.image(uv, vector, work))
    }

    fn nurbs_singular(&self, tolerance: f64) -> Vec<Edge> {
        let edges = pcurve::nurbs_singular(self.nurbs(), tolerance).into_iter();
        edges
            .map(|edge| Edge {
                axis: edge.k,
                value: edge.value,
                point: edge.point,
                side: edge.side,
            })
            .collect()
    }

    fn nurbs(&self) -> &NurbsSurface<ModelSpace> {
        match &self.geometry {
            SurfaceGeometry::Nurbs(nurbs) => nurbs,
            SurfaceGeometry::Analytic(_) => unreachable!("a shell is a NURBS surface"),
        }
    }
}

/// The source's construction. A control that isn't finite can't be a point of the
/// source, so the origin takes its place; the caller refuses it afterwards.
fn construct(surface: &Surface) -> Result<NurbsSurface<ModelSpace>, Refusal> {
    let point = |c: &[f64]| Point3::new([c[0], c[1], c[2]]).or(Point3::new([0.; 3]));
    let controls: Result<Vec<_>, _> = surface.controls.chunks_exact(3).map(point).collect();
    NurbsSurface::new(
        surface.degrees,
        [&surface.knots[0], &surface.knots[1]],
        surface.shape,
        &controls.expect("the origin is finite"),
        &surface.weights,
        SplineLimits::default(),
    )
    .map_err(refusals::of_construction)
}

fn spend<T>(budget: u64, run: impl FnOnce(&mut Work) -> Result<T, PcurveError>) -> Spent<T> {
    let mut work = Work {
        remaining: budget as usize,
    };
    let answer = run(&mut work).map_err(refusals::of_work);
    let left = work.remaining as u64;
    Spent { answer, left }
}

/// An answer that compares by bits, so that a NaN is equal to itself.
fn bits(spent: Spent<Pair>) -> Spent<[u64; 2]> {
    Spent {
        answer: spent.answer.map(|pair| pair.map(f64::to_bits)),
        left: spent.left,
    }
}

/// A call whose checks come before all work: a failed one leaves the budget whole.
fn checked<C, T>(
    budget: u64,
    checks: Result<C, Refusal>,
    run: impl FnOnce(C) -> Spent<T>,
) -> Spent<T> {
    match checks {
        Ok(checked) => run(checked),
        Err(refusal) => Spent {
            answer: Err(refusal),
            left: budget,
        },
    }
}

impl Search {
    /// Check 7 on all but the mark.
    pub fn check(&self) -> Result<(), Refusal> {
        refusals::finite(&self.hint.unwrap_or_default())?;
        refusals::tolerance(self.tolerance)?;
        refusals::periods(self.periods)
    }
}

pub fn evaluate(surface: &Surface, uv: Pair) -> Result<Jet, Refusal> {
    Shell::new(surface)?.evaluate(uv)
}

/// The checks of a surface that its controls and weights have no part in: 1, 5 and 6 of each axis,
/// and 24.
pub fn check_axes(surface: &Surface) -> Result<(), Refusal> {
    if construct(surface) == Err(Refusal::Counts) {
        return Err(Refusal::Counts);
    }
    let domain = |k: usize| {
        small::knots(&small::Axis {
            degree: surface.degrees[k],
            controls: surface.shape[k],
            knots: surface.knots[k].clone(),
        })
    };
    let domain = [domain(0)?, domain(1)?];
    let lent = surface.window.unwrap_or(domain);
    refusals::window(lent, domain, surface.periodic)
}

pub fn invert(surface: &Surface, mark: Point, search: &Search, budget: u64) -> Spent<Placed> {
    invert_with_grid(surface, mark, search, budget).0
}

/// As `invert`, with the grid that was walked.
pub fn invert_with_grid(
    surface: &Surface,
    mark: Point,
    search: &Search,
    budget: u64,
) -> (Spent<Placed>, Grid) {
    let checks = || {
        let shell = Shell::new(surface)?;
        refusals::finite(&mark)?;
        search.check()?;
        Ok(shell)
    };
    let mut grid = None;
    let spent = checked(budget, checks(), |shell| {
        let (spent, walked) = shell.invert_with_grid(mark, search, budget);
        grid = walked;
        spent
    });
    (spent, grid)
}

/// The units that an inversion takes of a budget that is never short.
pub fn price(surface: &Surface, mark: Point, search: &Search) -> u64 {
    u64::MAX - invert(surface, mark, search, u64::MAX).left
}

pub fn derivative(surface: &Surface, uv: Pair, vector: Point, budget: u64) -> Spent<Pair> {
    let checks = || {
        let shell = Shell::new(surface)?;
        refusals::finite(&vector)?;
        Ok(shell)
    };
    checked(budget, checks(), |shell| {
        shell.derivative(uv, vector, budget)
    })
}

pub fn nurbs_singular(surface: &Surface, tolerance: f64) -> Result<Vec<Edge>, Refusal> {
    let shell = Shell::new(surface)?;
    refusals::tolerance(tolerance)?;
    Ok(shell.nurbs_singular(tolerance))
}

/// `Inverter::invert` for a plane; the frame is origin, x and y as lent.
pub fn plane(frame: [Point; 3], mark: Point, budget: u64) -> Spent<Pair> {
    let checks = || {
        refusals::finite(frame.as_flattened())?;
        refusals::finite(&mark)
    };
    let [o, x, y] = frame;
    let z = pcurve::cross(x, y);
    checked(budget, checks(), |()| {
        let inverter = Inverter {
            chart: &Chart::Plane(Frame { o, x, y, z }),
            surface: &unread(),
            tolerance: 0.,
        };
        spend(budget, |work| inverter.invert(mark, None, work))
    })
}

/// The surface that the `Inverter` of a plane holds and never reads.
fn unread() -> SurfaceGeometry {
    let made = || {
        let (x, y) = (Vector3::new([1., 0., 0.])?, Vector3::new([0., 1., 0.])?);
        PlaneFrame::new(Point3::new([0.; 3])?, x, y, NumericalTolerance)
    };
    SurfaceGeometry::Analytic(Plane::plane(made().expect("x and y span a plane")))
}

impl Surface {
    /// Document 01's square: the point at (u, v) is (u, v, 0).
    pub fn square() -> Self {
        let knots = || vec![0., 0., 1., 1.];
        Self {
            degrees: [1; 2],
            shape: [2; 2],
            periodic: [false; 2],
            knots: [knots(), knots()],
            controls: vec![0., 0., 0., 0., 1., 0., 1., 0., 0., 1., 1., 0.],
            weights: vec![1.; 4],
            window: None,
        }
    }

    /// Document 01's dot: the square with every control at the origin.
    pub fn dot() -> Self {
        Self {
            controls: vec![0.; 12],
            ..Self::square()
        }
    }

    /// The surface in another window.
    pub fn within(&self, window: Window) -> Self {
        Self {
            window: Some(window),
            ..self.clone()
        }
    }

    /// The window's four numbers, or none.
    pub fn window(&self) -> &[f64] {
        self.window.as_ref().map_or(&[], |ends| ends.as_flattened())
    }
}
