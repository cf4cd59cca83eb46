//! Stands in for tessstep-topology, which was not published with the source: the two
//! geometries that `pcurve.rs` names, each handing a call on to what it holds.
use tessstep_curves::spline::{KnotSide, NurbsCurve, SplineError};
use tessstep_curves::{Curve, Evaluation};
use tessstep_math::{ModelSpace, ParameterSpace, Space};
use tessstep_surfaces::{AxisDomain, NurbsSurface, Surface};

#[derive(Clone, Debug)]
pub enum SurfaceGeometry {
    Analytic(Surface<ModelSpace>),
    Nurbs(NurbsSurface<ModelSpace>),
}
impl SurfaceGeometry {
    pub fn evaluate(
        &self,
        [u, v]: [f64; 2],
    ) -> Result<tessstep_surfaces::Evaluation<ModelSpace>, tessstep_surfaces::Error> {
        match self {
            Self::Analytic(surface) => surface.evaluate(u, v),
            Self::Nurbs(surface) => surface.evaluate(u, v),
        }
    }
    pub fn domain(&self) -> [AxisDomain; 2] {
        match self {
            Self::Analytic(surface) => surface.domain(),
            Self::Nurbs(surface) => surface.knot_vectors().map(|knots| {
                let [min, max] = knots.domain();
                AxisDomain::Closed { min, max }
            }),
        }
    }
}

#[derive(Clone, Debug)]
pub enum CurveGeometry<S: Space, const N: usize> {
    Analytic(Curve<S, N>),
    Nurbs(NurbsCurve<S, N>),
}
impl<S: Space, const N: usize> CurveGeometry<S, N> {
    pub fn evaluate(&self, t: f64) -> Result<Evaluation<S, N>, SplineError> {
        self.evaluate_on_side(t, KnotSide::Right)
    }
    pub fn evaluate_on_side(
        &self,
        t: f64,
        side: KnotSide,
    ) -> Result<Evaluation<S, N>, SplineError> {
        match self {
            Self::Analytic(curve) => curve.evaluate(t).map_err(|_| SplineError::NumericRange),
            Self::Nurbs(curve) => curve.evaluate_on_side(t, side),
        }
    }
    /// The range's ends and each distinct knot strictly between.
    pub fn break_parameters(
        &self,
        [from, to]: [f64; 2],
        most: usize,
    ) -> Result<Vec<f64>, SplineError> {
        let mut breaks = vec![from];
        if let Self::Nurbs(curve) = self {
            let knots = curve.knot_vector().knots().iter();
            breaks.extend(knots.filter(|&&k| from < k && k < to));
        }
        breaks.push(to);
        breaks.dedup();
        if breaks.len() > most {
            return Err(SplineError::ResourceLimit);
        }
        Ok(breaks)
    }
}

#[derive(Clone, Debug)]
pub struct Pcurve {
    pub curve: CurveGeometry<ParameterSpace, 2>,
    pub range: [f64; 2],
}
