//! Windows: held to no window where they are whole, and to what the request says where they are not.
use oracle::answers::{Record, records};
use oracle::calls::{Pair, Point, Search, Shell, Surface, Window, invert, invert_with_grid, price};
use oracle::generate::{Case, Random, SETS, windows};
use oracle::job::{self, MOST_BYTES, print};
use oracle::refusals::Refusal;
use oracle::small::distance;
use std::collections::BTreeMap;

const SEED: u64 = 20_261_115;
const FREE: Search = Search {
    hint: None,
    tolerance: 0.5,
    periods: [None; 2],
};

fn surface(case: &mut Case) -> Option<&mut Surface> {
    match case {
        Case::Evaluate(surface, _) | Case::Derivative(surface, ..) | Case::Singular(surface, _) => {
            Some(surface)
        }
        Case::Invert(inversion) => Some(&mut inversion.surface),
        Case::Row(row) => Some(&mut row.surface),
        _ => None,
    }
}

/// The knot domain, of a surface that has none of the faults 1 to 6.
fn domain(surface: &Surface) -> Option<Window> {
    let bare = Surface {
        window: None,
        ..surface.clone()
    };
    Shell::new(&bare).ok().map(|shell| shell.domain())
}

/// Where the window stands in the words of a record that holds a surface.
fn place(words: &[u64]) -> usize {
    (0..4).fold(7, |at, _| at + 1 + words[at] as usize)
}

/// Every case of the sets that has no window, in the window of its knot domain: the same answers,
/// and on flagged axes with any zeros.
#[test]
fn the_whole_domain_is_no_window() {
    let mut random = Random::new(1);
    let (mut held, mut jobs) = (0, 0);
    for mut case in SETS
        .iter()
        .flat_map(|set| (set.cases)(&mut Random::new(SEED)))
    {
        if let Case::Job(file) = &case {
            jobs += usize::from(is_same_job(file));
            continue;
        }
        let bare = Record::new(&case).words;
        let Some(surface) = surface(&mut case) else {
            continue;
        };
        let (None, Some(domain)) = (surface.window, domain(surface)) else {
            continue;
        };
        let periodic = surface.periodic;
        let mut zero = |k: usize, end: f64| match periodic[k] {
            true => signed(&mut random, end),
            false => end,
        };
        let window = [0, 1].map(|k| domain[k].map(|end| zero(k, end)));
        surface.window = Some(window);
        let mut within = Record::new(&case).words;
        let at = place(&within);
        let numbers: Vec<u64> = within.splice(at + 1..at + 5, []).collect();
        assert_eq!(
            numbers,
            window
                .as_flattened()
                .iter()
                .map(|x| x.to_bits())
                .collect::<Vec<_>>()
        );
        (within[1], within[at]) = (within[1] - 4, within[at] - 4);
        assert_eq!(within, bare);
        held += 1;
    }
    assert!(held > 7000 && jobs > 350, "{held} and {jobs} jobs");
}

/// Whether a file holds a surface without window and faults; its printout is then held to that in
/// the window of the knot domain.
fn is_same_job(file: &[u8]) -> bool {
    let Some(mut job) = job::read(file) else {
        return false;
    };
    let (None, Some(domain)) = (job.surface.window, domain(&job.surface)) else {
        return false;
    };
    job.surface.window = Some(domain);
    let longer = job.write();
    assert_eq!(longer.len(), file.len() + 32);
    let expected = if longer.len() > MOST_BYTES {
        "refused 12 at 0\n".to_string()
    } else {
        print(file)
    };
    assert_eq!(print(&longer), expected);
    true
}

/// Check 24, in other words: each number's place on the line, one by one.
fn is_refused(window: Window, domain: Window, periodic: [bool; 2]) -> bool {
    let mut refused = false;
    for k in 0..2 {
        for end in window[k] {
            refused |= end.is_nan() || end.abs() == f64::INFINITY;
            refused |= end < domain[k][0] || end > domain[k][1];
        }
        refused |= window[k][0] >= window[k][1];
        refused |= periodic[k] && window[k] != domain[k];
    }
    refused
}

/// Drawn windows are refused with 24 where they should be, in every call alike, after 1 to 6.
#[test]
fn windows_are_refused_where_they_should_be() {
    let mut random = Random::new(2);
    let mut counts = BTreeMap::<u64, usize>::new();
    for mut case in (0..1500).flat_map(|_| windows(&mut random)) {
        let Some(surface) = surface(&mut case).cloned() else {
            continue;
        };
        let bare = Surface {
            window: None,
            ..surface.clone()
        };
        let window = surface.window.expect("these cases have windows");
        let expected = match Shell::new(&bare) {
            Err(refusal) => refusal.number(),
            Ok(shell) if is_refused(window, shell.domain(), surface.periodic) => 24,
            Ok(_) => 0,
        };
        let found = Shell::new(&surface).err().map_or(0, Refusal::number);
        assert_eq!(found, expected, "{surface:?}");
        let words = Record::new(&case).words;
        let answer = match &case {
            Case::Evaluate(_, pairs) => words[place(&words) + 6 + 2 * pairs.len()],
            Case::Derivative(..) => words[place(&words) + 5 + 6],
            Case::Singular(..) => words[place(&words) + 5 + 1],
            Case::Invert(..) => words[place(&words) + 5 + 12],
            _ => continue,
        };
        *counts.entry(answer).or_default() += 1;
        if expected != 0 {
            assert_eq!(answer, expected);
        } else {
            assert!(answer == 0 || (7..=10).contains(&answer));
        }
    }
    assert!(counts[&24] > 1200 && counts[&0] > 5000, "{counts:?}");
}

/// What is placed stays in the window, but for flagged axes and shifts; a budget of the price is
/// enough, and one unit less is not.
#[test]
fn pairs_stay_in_the_window() {
    let mut random = Random::new(3);
    let (mut placed, mut at_the_rim) = (0, 0);
    for case in (0..1000).flat_map(|_| windows(&mut random)) {
        let Case::Invert(case) = case else { continue };
        let (surface, mark, search) = (&case.surface, case.mark, &case.search);
        let cost = price(surface, mark, search);
        let at = |budget| invert(surface, mark, search, budget);
        let Ok(found) = at(cost).answer else { continue };
        assert_eq!(
            (at(cost).left, at(cost - 1).answer),
            (0, Err(Refusal::Units))
        );
        let shell = Shell::new(surface).expect("a mark was placed");
        if shell.is_whole() {
            continue;
        }
        placed += 1;
        for k in 0..2 {
            if surface.periodic[k] || (search.periods[k].is_some() && search.hint.is_some()) {
                continue;
            }
            let [low, high] = shell.window()[k];
            assert!(low <= found.pair[k] && found.pair[k] <= high);
            let ends = shell.domain()[k];
            let inner = [low, high].map(|end| found.pair[k] == end && !ends.contains(&end));
            at_the_rim += usize::from(inner.contains(&true));
        }
    }
    assert!(placed > 1500 && at_the_rim > 500, "{placed}, {at_the_rim}");
}

/// The grid of an axis, from the request's words.
fn grid(knots: &[f64], domain: Pair, window: Pair) -> Vec<f64> {
    let mut breaks = vec![window[0]];
    if window[0] == domain[0] {
        breaks[0] = *knots
            .iter()
            .find(|&&t| t == domain[0])
            .expect("an end is a knot");
    }
    for &t in knots {
        let last = breaks[breaks.len() - 1];
        if window[0] < t && t < window[1] && t != last {
            breaks.push(t);
        }
    }
    let shared = window[1] == domain[1];
    breaks.push(if shared { domain[1] } else { window[1] });
    let last = breaks.len() - 1;
    let stride = 1 + last / 24;
    let mut thinned = Vec::new();
    for (place, end) in breaks.into_iter().enumerate() {
        if place % stride == 0 || place == last {
            thinned.push(end);
        }
    }
    let mut values = Vec::new();
    for at in 1..thinned.len() {
        let (from, to) = (thinned[at - 1], thinned[at]);
        values.extend([0., 1., 2., 3., 4., 5., 6., 7.].map(|j| from + (to - from) * j / 8.));
    }
    values.push(thinned[thinned.len() - 1]);
    values
}

/// A surface that is a line along one axis, where every run is a nudge toward the window's centre
/// and ends: with a mark at a value of the grid, the pair shows that value.
struct Line {
    surface: Surface,
    shell: Shell,
    axes: [Vec<f64>; 2],
}

impl Line {
    fn new(r: &mut Random) -> Self {
        let count = r.pick(&[2, 3, 4, 7, 24, 25, 26, 47, 48, 49, 50, 60, 73, 97]);
        let long = r.below(2);
        let steps: Vec<f64> = (0..count).map(|_| r.pick(&[1., 0.5, 0.3])).collect();
        let mut knots = vec![-steps[..r.below(count)].iter().sum::<f64>()];
        for step in steps.iter().skip(1) {
            knots.push(knots[knots.len() - 1] + step);
        }
        let point = |&t: &f64| [t, 0.25 * t, 0.];
        let controls: Vec<Point> = if long == 0 {
            knots.iter().flat_map(|t| [point(t); 2]).collect()
        } else {
            [&knots[..], &knots[..]]
                .concat()
                .iter()
                .map(point)
                .collect()
        };
        let mut lent = [vec![0., 0., 1., 1.], vec![0., 0., 1., 1.]];
        let mut shape = [2; 2];
        shape[long] = count;
        let all = [&knots[..1], &knots[..], &knots[count - 1..]].concat();
        lent[long] = all.into_iter().map(|t| signed(r, t)).collect();
        let domain = [0, 1].map(|k| [lent[k][1], lent[k][shape[k]]]);
        let periodic = [r.percent(15), r.percent(15)];
        let window = [0, 1].map(|k| match periodic[k] {
            true => domain[k],
            false => window(r, &lent[k]),
        });
        let surface = Surface {
            degrees: [1; 2],
            shape,
            periodic,
            controls: controls.concat(),
            weights: vec![1.; 2 * count],
            knots: lent,
            window: Some(window),
        };
        let shell = Shell::new(&surface).expect("a sound surface in a sound window");
        let axes = [0, 1].map(|k| grid(&surface.knots[k], domain[k], window[k]));
        Self {
            surface,
            shell,
            axes,
        }
    }

    fn point(&self, pair: Pair) -> Point {
        self.shell
            .evaluate(pair)
            .expect("a pair of the domain")
            .point
    }

    /// Pair and price, of a mark without a hint.
    fn expected(&self, mark: Point) -> (Pair, u64) {
        let mut starts = Vec::new();
        for &u in &self.axes[0] {
            for &v in &self.axes[1] {
                starts.push((distance(self.point([u, v]), mark), [u, v]));
            }
        }
        let points = starts.len();
        starts.sort_by(|a, b| a.0.total_cmp(&b.0));
        starts.dedup_by(|a, b| a.0 == b.0);
        starts.truncate(6);
        let window = self.surface.window.expect("a line has a window");
        let nudged = |start: Pair| {
            [0, 1].map(|k| {
                let [low, high] = window[k];
                let at = start[k] + 1e-6 * (0.5 * (low + high) - start[k]);
                let inside = !self.surface.periodic[k];
                if inside { at.max(low).min(high) } else { at }
            })
        };
        let mut best: Option<(f64, Pair)> = None;
        for (_, start) in &starts {
            let end = nudged(*start);
            let reached = distance(self.point(end), mark);
            if best.is_none_or(|(least, _)| reached < least) {
                best = Some((reached, end));
            }
        }
        let (_, end) = best.expect("a grid has points");
        (end, (points + 2 * starts.len()) as u64)
    }
}

/// A zero of either sign for a zero.
fn signed(r: &mut Random, t: f64) -> f64 {
    if t == 0. && r.percent(50) { -t } else { t }
}

/// Ends at knots, inside spans, or a few floats from one another.
fn window(r: &mut Random, knots: &[f64]) -> Pair {
    let [lowest, highest] = [knots[0], knots[knots.len() - 1]];
    let mut end = || match r.below(5) {
        0..3 => r.pick(knots),
        3 => lowest + (highest - lowest) * r.unit(),
        _ => r.pick(&[lowest, highest]),
    };
    let [a, b] = [end(), end()];
    let narrow = a < highest && r.percent(10);
    let b = if narrow { a.next_up().next_up() } else { b };
    match a.total_cmp(&b) {
        _ if a == b => [signed(r, lowest), signed(r, highest)],
        std::cmp::Ordering::Less => [signed(r, a), signed(r, b.min(highest))],
        _ => [signed(r, b), signed(r, a)],
    }
}

#[test]
fn grids_of_windows_are_those_of_the_request() {
    let mut random = Random::new(4);
    let mut sizes = BTreeMap::<usize, usize>::new();
    for _ in 0..300 {
        let line = Line::new(&mut random);
        for axis in &line.axes {
            *sizes.entry(axis.len()).or_default() += 1;
        }
        for _ in 0..6 {
            let pair = [0, 1].map(|k| random.pick(&line.axes[k]));
            let mark = line.point(pair);
            let (spent, grid) = invert_with_grid(&line.surface, mark, &FREE, u64::MAX);
            let found = spent.answer.expect("a mark on a line").pair;
            let (expected, price) = line.expected(mark);
            assert_eq!(found.map(f64::to_bits), expected.map(f64::to_bits));
            assert_eq!(u64::MAX - spent.left, price);
            assert_eq!(grid, Some(line.axes[0].len() * line.axes[1].len()));
        }
    }
    for size in [9, 17, 97, 105, 185] {
        assert!(sizes.contains_key(&size), "{size} of {sizes:?}");
    }
}

/// Stored windows: enough of each call, accepted, whole and refused.
#[test]
fn sets_hold_enough_windows() {
    let mut counts = BTreeMap::<(&str, &str), usize>::new();
    for set in &SETS {
        let cases = (set.cases)(&mut Random::new(SEED));
        for (mut case, record) in cases.into_iter().zip(records(set, SEED)) {
            let job = match &case {
                Case::Job(file) => job::read(file),
                _ => None,
            };
            let lent = job.map(|job| job.surface);
            let Some(lent) = lent.or_else(|| surface(&mut case).cloned()) else {
                continue;
            };
            if lent.window.is_none() || !record.fits() {
                continue;
            }
            let kind = match Shell::new(&lent) {
                Ok(shell) if shell.is_whole() => "whole",
                Ok(_) => "other",
                Err(Refusal::Window) => "24",
                Err(_) => "refused",
            };
            *counts.entry((record.kind(), kind)).or_default() += 1;
        }
    }
    println!("{counts:?}");
    assert!(counts[&("invert", "other")] >= 500);
    assert!(counts[&("row", "other")] >= 100 && counts[&("job", "other")] >= 100);
    for call in [
        "evaluate",
        "invert",
        "derivative",
        "nurbs_singular",
        "row",
        "job",
    ] {
        assert!(counts[&(call, "24")] >= 40 && counts[&(call, "whole")] >= 20);
    }
}
