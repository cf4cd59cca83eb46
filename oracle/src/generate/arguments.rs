//! What a call takes beside its surface: parameters, marks, hints, tolerances, budgets.
use super::random::Random;
use crate::calls::{Pair, Point, Search, Shell, Surface};
use crate::small::distance;

/// A surface beside its shell, if it passed the checks.
pub struct Ground {
    pub surface: Surface,
    pub shell: Option<Shell>,
}

impl Ground {
    pub fn new(surface: Surface) -> Self {
        let shell = Shell::new(&surface).ok();
        Self { surface, shell }
    }

    pub fn domain(&self) -> [[f64; 2]; 2] {
        self.shell.as_ref().map_or([[0., 1.]; 2], Shell::domain)
    }

    pub fn window(&self) -> [[f64; 2]; 2] {
        self.shell.as_ref().map_or([[0., 1.]; 2], Shell::window)
    }

    /// The point at a pair, if there is one.
    pub fn point(&self, pair: Pair) -> Option<Point> {
        Some(self.shell.as_ref()?.evaluate(pair).ok()?.point)
    }

    /// A pair in the domain, on its rim or outside.
    pub fn pair(&self, r: &mut Random) -> Pair {
        let domain = self.domain();
        [0, 1].map(|k| parameter(r, domain[k], &self.surface.knots[k]))
    }

    pub fn inside(&self, r: &mut Random) -> Pair {
        self.domain().map(|axis| inside(r, axis))
    }

    pub fn mark(&self, r: &mut Random) -> Point {
        let uv = self.inside(r);
        let eighths = [r.eighth(), r.eighth(), r.eighth()];
        match r.below(100) {
            0..48 => off(r, self.point(uv).unwrap_or(eighths)),
            48..66 => eighths,
            66..82 => self.between_controls(r),
            82..90 => eighths.map(|x| x * r.power(-100, 100)),
            90..95 => eighths.map(|x| if r.percent(40) { r.rim() } else { x }),
            _ => spoiled(r, eighths),
        }
    }

    /// Half way between two controls, where distances often tie.
    fn between_controls(&self, r: &mut Random) -> Point {
        let controls = self.surface.controls.as_chunks::<3>().0;
        if controls.is_empty() {
            return [0.; 3];
        }
        let (a, b) = (r.pick(controls), r.pick(controls));
        [0, 1, 2].map(|k| 0.5 * (a[k] + b[k]))
    }

    pub fn search(&self, r: &mut Random, mark: Point) -> Search {
        let hint = self.hint(r);
        Search {
            hint,
            tolerance: self.tolerance(r, mark, hint),
            periods: self.periods(r),
        }
    }

    fn hint(&self, r: &mut Random) -> Option<Pair> {
        let domain = self.domain();
        match r.below(100) {
            0..42 => None,
            42..62 => Some(self.inside(r)),
            62..72 => Some(domain.map(|ends| r.pick(&ends))),
            72..88 => Some(domain.map(|[lo, hi]| lo + (hi - lo) * (6. * r.unit() - 3.))),
            88..96 => Some(self.pair(r)),
            _ => Some([r.rim(), r.rim()]),
        }
    }

    fn tolerance(&self, r: &mut Random, mark: Point, hint: Option<Pair>) -> f64 {
        match r.below(100) {
            0..25 => self.reached(r, mark, hint).unwrap_or(0.),
            25..93 => r.pick(&[0., -0., 1e-12, 1e-9, 1e-3, 0.125, 0.5, 0.75, 1., f64::MAX]),
            _ => r.special(),
        }
    }

    /// The distance at the end of the hint's run, or its neighbour on either side.
    pub fn reached(&self, r: &mut Random, mark: Point, hint: Option<Pair>) -> Option<f64> {
        let any = Search {
            hint: Some(hint?),
            tolerance: f64::MAX,
            periods: [None; 2],
        };
        let end = self.shell.as_ref()?.pair(mark, &any, 33).answer.ok()?;
        let reached = distance(self.point(end)?, mark);
        Some(r.pick(&[reached, reached, reached.next_down(), reached.next_up()]))
    }

    fn periods(&self, r: &mut Random) -> [Option<f64>; 2] {
        self.domain().map(|[lo, hi]| match r.below(100) {
            0..60 => None,
            60..72 => Some(hi - lo),
            72..80 => Some(r.pick(&[1., 0.5, 0.25])),
            80..90 => Some(0.1 + r.unit()),
            90..97 => Some(r.power(-1074, 1023)),
            _ => Some(r.special()),
        })
    }
}

/// A parameter inside a domain, at a knot, a few ulps from an end, outside, or anything.
pub fn parameter(r: &mut Random, [lo, hi]: [f64; 2], knots: &[f64]) -> f64 {
    match r.below(100) {
        0..38 => inside(r, [lo, hi]),
        38..58 if !knots.is_empty() => r.pick(knots),
        58..78 => {
            let end = r.pick(&[lo, hi]);
            let ulps = r.pick(&[1., 2., 3., 3.5, 4., 4.5, 5., 8., -1., -4., 0.]);
            let out = if end == lo { -ulps } else { ulps };
            end + out * f64::EPSILON * end.abs().max(hi - lo)
        }
        78..92 => lo + (hi - lo) * r.pick(&[-0.25, 1.25, 2., -1., 7.5, -3., 1e17, -1e-20]),
        _ => r.special(),
    }
}

pub fn inside(r: &mut Random, [lo, hi]: [f64; 2]) -> f64 {
    let part = if r.percent(50) {
        f64::from(r.between(0, 16)) / 16.
    } else {
        r.unit()
    };
    lo + (hi - lo) * part
}

/// A point moved by a part of its size.
pub fn off(r: &mut Random, point: Point) -> Point {
    let by = r.pick(&[0., 0., 1e-15, 1e-9, 0.03, 0.3, 1.]);
    let size = point.iter().fold(0.125, |size: f64, x| size.max(x.abs()));
    point.map(|x| x + by * size * r.signed())
}

pub fn spoiled(r: &mut Random, mut point: Point) -> Point {
    point[r.below(3)] = r.special();
    point
}

/// A budget at the price, one below, none, all there is, or any other.
pub fn budget(r: &mut Random, price: u64) -> u64 {
    match r.below(100) {
        0..30 => price,
        30..50 => price.saturating_sub(1),
        50..65 => u64::MAX,
        65..70 => 0,
        70..80 => r.word() % (price + 1),
        80..95 => price + r.word() % 1000,
        _ => r.word(),
    }
}
