//! A local search for the point nearest to a mark. It has points and first derivatives from
//! the source and is otherwise its own: damped Newton steps, then a compass search.
use crate::calls::{Pair, Point, Shell};

/// The most Newton steps, and the damping at which they end.
const STEPS: usize = 60;
const MOST_DAMPING: f64 = 1e12;
/// Shares of the domain: the differences of gradients, the compass's first step, its last.
const DIFFERENCE: f64 = 1e-6;
const FIRST: f64 = 1e-3;
const LAST: f64 = 1e-12;

#[rustfmt::skip]
const SIDES: [Pair; 8] = [
    [1., 0.], [-1., 0.], [0., 1.], [0., -1.], [1., 1.], [-1., -1.], [1., -1.], [-1., 1.],
];

/// A search for one mark on one shell, whose flags are lent beside it.
pub struct Descent<'a> {
    pub shell: &'a Shell,
    pub periodic: [bool; 2],
    pub mark: Point,
}

/// Half the squared distance at a pair, its gradient, and the squares of both derivatives.
struct Slope {
    half: f64,
    gradient: Pair,
    squares: Pair,
}

pub fn dot(a: Point, b: Point) -> f64 {
    a[0] * b[0] + a[1] * b[1] + a[2] * b[2]
}

/// The area of the parallelogram that two vectors span.
pub fn area(a: Point, b: Point) -> f64 {
    let along = dot(a, b);
    (dot(a, a) * dot(b, b) - along * along).max(0.).sqrt()
}

pub fn difference(a: Point, b: Point) -> Point {
    [a[0] - b[0], a[1] - b[1], a[2] - b[2]]
}

impl Descent<'_> {
    /// The least distance that both searches find from a pair.
    pub fn least_from(&self, pair: Pair) -> f64 {
        self.distance(self.compass(self.newton(pair)))
    }

    /// The same by a way downhill in small steps, which leaps over no rise.
    pub fn least_below(&self, pair: Pair) -> f64 {
        self.least_from(self.compass(pair))
    }

    pub fn distance(&self, pair: Pair) -> f64 {
        (2. * self.slope(pair).half).sqrt()
    }

    fn slope(&self, pair: Pair) -> Slope {
        let jet = self.shell.evaluate(pair);
        let jet = jet.expect("a shell has all its points");
        let apart = difference(jet.point, self.mark);
        Slope {
            half: 0.5 * dot(apart, apart),
            gradient: [dot(jet.du, apart), dot(jet.dv, apart)],
            squares: [dot(jet.du, jet.du), dot(jet.dv, jet.dv)],
        }
    }

    fn clamp(&self, pair: Pair) -> Pair {
        let domain = self.shell.domain();
        [0, 1].map(|axis| match self.periodic[axis] {
            true => pair[axis],
            false => pair[axis].clamp(domain[axis][0], domain[axis][1]),
        })
    }

    /// A pair moved by shares of the domain.
    fn moved(&self, pair: Pair, shares: Pair) -> Pair {
        let domain = self.shell.domain();
        let along = |axis: usize| shares[axis] * (domain[axis][1] - domain[axis][0]);
        self.clamp([0, 1].map(|axis| pair[axis] + along(axis)))
    }

    /// Newton's method, damped until the distance falls.
    fn newton(&self, start: Pair) -> Pair {
        let (mut pair, mut slope) = (start, self.slope(start));
        let mut damping = 1e-3;
        for _ in 0..STEPS {
            let hessian = self.hessian(pair);
            let next = loop {
                let next = self.step(pair, &slope, hessian, damping);
                let reached = self.slope(next);
                if reached.half < slope.half {
                    slope = reached;
                    break next;
                }
                damping *= 8.;
                if damping > MOST_DAMPING {
                    return pair;
                }
            };
            pair = next;
            damping = (damping * 0.1).max(1e-12);
        }
        pair
    }

    /// Second derivatives of half the squared distance, by differences: a, b and c.
    fn hessian(&self, pair: Pair) -> [f64; 3] {
        let column = |axis: usize| {
            let mut shares = [0.; 2];
            shares[axis] = DIFFERENCE;
            let high = self.moved(pair, shares);
            let low = self.moved(pair, shares.map(|share| -share));
            let [before, after] = [low, high].map(|pair| self.slope(pair).gradient);
            [0, 1].map(|row| (after[row] - before[row]) / (high[axis] - low[axis]))
        };
        let [[a, below], [above, c]] = [column(0), column(1)];
        [a, 0.5 * (below + above), c]
    }

    /// Where a damped step leads, or the pair itself where the damping is too small for a
    /// descent. An axis at an end that the step would leave is held.
    fn step(&self, pair: Pair, slope: &Slope, [a, b, c]: [f64; 3], damping: f64) -> Pair {
        let domain = self.shell.domain();
        let held = [0, 1].map(|axis| {
            let (at, gradient) = (pair[axis], slope.gradient[axis]);
            let [low, high] = domain[axis];
            !self.periodic[axis] && (at == low && gradient >= 0. || at == high && gradient <= 0.)
        });
        let least = 1e-12 * slope.squares[0].max(slope.squares[1]);
        let damped = |axis: usize, second: f64| match held[axis] {
            true => 1.,
            false => second + damping * slope.squares[axis].max(least),
        };
        let (a, c) = (damped(0, a), damped(1, c));
        let b = if held == [false; 2] { b } else { 0. };
        let [g, h] = [0, 1].map(|axis| if held[axis] { 0. } else { slope.gradient[axis] });
        let determinant = a * c - b * b;
        if a <= 0. || determinant <= 0. {
            return pair;
        }
        let step = [(c * g - b * h) / determinant, (a * h - b * g) / determinant];
        self.clamp([pair[0] - step[0], pair[1] - step[1]])
    }

    /// Steps to eight sides, made smaller where none leads nearer.
    fn compass(&self, mut pair: Pair) -> Pair {
        let mut distance = self.distance(pair);
        let mut share = FIRST;
        while share > LAST {
            let nearer = SIDES.iter().find_map(|side| {
                let next = self.moved(pair, side.map(|part| part * share));
                let reached = self.distance(next);
                (reached < distance).then_some((next, reached))
            });
            match nearer {
                Some(next) => (pair, distance) = next,
                None => share *= 0.25,
            }
        }
        pair
    }
}
