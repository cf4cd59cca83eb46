//! Document 01's refusals and the source's errors that stand behind them.
use crate::calls::Window;
use crate::source::{pcurve, recorded};
use tessstep_curves::spline::SplineError;
use tessstep_surfaces::Error;

/// A refusal, by its number in 01's table.
#[derive(Clone, Copy, Debug, PartialEq, Eq)]
pub enum Refusal {
    Counts = 1,
    Controls = 2,
    Coordinate = 3,
    Weights = 4,
    Degree = 5,
    Knots = 6,
    Argument = 7,
    Units = 8,
    Evaluation = 9,
    Singular = 10,
    Row = 11,
    Job = 12,
    Window = 24,
}
impl Refusal {
    pub fn number(self) -> u64 {
        self as u64
    }
}

/// 1, 2, 4, 5 and 6 from the errors of `NurbsSurface::new`. A `ResourceLimit` of its
/// `KnotVector::new` can't be told from its own, and can't arise: with weights present
/// neither shape count exceeds their product.
pub(crate) fn of_construction(error: Error) -> Refusal {
    match error {
        Error::Spline(SplineError::ResourceLimit) => Refusal::Counts,
        Error::Spline(SplineError::InvalidControls) => Refusal::Controls,
        Error::Spline(SplineError::InvalidWeights) => Refusal::Weights,
        Error::Spline(SplineError::InvalidDegree) => Refusal::Degree,
        Error::Spline(SplineError::InvalidKnots) => Refusal::Knots,
        other => unreachable!("no construction gives {other:?}"),
    }
}

/// 5 and 6 from the errors of `KnotVector::new` by itself.
pub(crate) fn of_knots(error: SplineError) -> Refusal {
    match error {
        SplineError::InvalidDegree => Refusal::Degree,
        _ => Refusal::Knots,
    }
}

/// 8, 9 and 10 from the errors of an inversion or a derivative.
pub(crate) fn of_work(error: pcurve::PcurveError) -> Refusal {
    match error {
        pcurve::PcurveError::Limit => Refusal::Units,
        pcurve::PcurveError::Geometry => Refusal::Evaluation,
        pcurve::PcurveError::Singular { .. } => Refusal::Singular,
        other => unreachable!("no inversion gives {other:?}"),
    }
}

/// 8 and 9 from the errors of an inversion by the copy that records.
pub(crate) fn of_recorded_work(error: recorded::PcurveError) -> Refusal {
    match error {
        recorded::PcurveError::Limit => Refusal::Units,
        recorded::PcurveError::Geometry => Refusal::Evaluation,
        other => unreachable!("no inversion gives {other:?}"),
    }
}

/// Check 24 on a window, of a surface with these knot domains and flags.
pub(crate) fn window(window: Window, domain: Window, periodic: [bool; 2]) -> Result<(), Refusal> {
    let sound = |k: usize| {
        let ([low, high], [lowest, highest]) = (window[k], domain[k]);
        let finite = low.is_finite() && high.is_finite();
        let within = lowest <= low && low < high && high <= highest;
        finite && within && (!periodic[k] || (low == lowest && high == highest))
    };
    if sound(0) && sound(1) {
        Ok(())
    } else {
        Err(Refusal::Window)
    }
}

/// Check 7 on numbers that must be finite.
pub(crate) fn finite(numbers: &[f64]) -> Result<(), Refusal> {
    argument(numbers.iter().all(|x| x.is_finite()))
}

/// Check 7 on a tolerance. A tolerance of -0 passes.
pub(crate) fn tolerance(tolerance: f64) -> Result<(), Refusal> {
    argument(tolerance.is_finite() && tolerance >= 0.)
}

/// Check 7 on a chart's periods.
pub(crate) fn periods(periods: [Option<f64>; 2]) -> Result<(), Refusal> {
    let sound = |period: &f64| period.is_finite() && *period > 0.;
    argument(periods.iter().flatten().all(sound))
}

fn argument(sound: bool) -> Result<(), Refusal> {
    if sound {
        Ok(())
    } else {
        Err(Refusal::Argument)
    }
}
