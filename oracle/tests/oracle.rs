use oracle::answers::{KINDS, records};
use oracle::calls::{
    Placed, Point, Search, Shell, Surface, check_axes, invert, invert_with_grid, price,
};
use oracle::figures;
use oracle::generate::{Case, Random, Row, SETS, brinks, evaluate, inversion, leads, row, windows};
use oracle::job::{Job, MOST_BYTES, print};
use oracle::misses::{kinds, measure};
use oracle::refusals::Refusal;
use oracle::replay::differing;
use oracle::row::{Ended, pairs, walk};
use oracle::small::distance;
use std::collections::{BTreeMap, BTreeSet};

const SEED: u64 = 20_261_115;

#[test]
fn figures_are_confirmed() {
    for figure in figures::all() {
        assert_eq!(figure.found, figure.expected, "{}", figure.what);
    }
}

/// Document 01's job: the square, tolerance 0.5, budget 1000, the mark twice.
fn job() -> Vec<u8> {
    let [one, half, quarter, most] = [1_f64, 0.5, 0.25, 0.75].map(f64::to_le_bytes);
    let nil = [0; 8];
    let mut file = vec![b'S', b'F', 1, 1, 2, 0, 2, 0, 0];
    let knots = [nil, nil, one, one];
    let controls = [nil, nil, nil, nil, one, nil, one, nil, nil, one, one, nil];
    for numbers in [&knots[..], &knots, &controls, &[one; 4]] {
        file.extend(numbers.as_flattened());
    }
    file.extend(b"TL");
    file.extend([half, 1000_u64.to_le_bytes()].as_flattened());
    for _ in 0..2 {
        file.extend(b"MK");
        file.extend([quarter, half, most].as_flattened());
    }
    file
}

#[test]
fn job_prints_byte_for_byte() {
    let printout = "marks 2\n3fd0000000000000 3fe0000000000000 908 0\n\
                    3fd0000000000000 3fe0000000000000 816 0\n";
    assert_eq!(print(&job()), printout);
}

#[test]
fn damaged_jobs_are_refused() {
    let file = job();
    let malformed = "refused 12 at 0\n";
    let whole = [file.len() - 52, file.len() - 26];
    for cut in (0..file.len()).filter(|cut| !whole.contains(cut)) {
        assert_eq!(print(&file[..cut]), malformed, "cut to {cut} bytes");
    }
    assert_eq!(print(&[&file[..], &[0]].concat()), malformed);
    let records = [0, 1, 201, 202, 219, 220, 245, 246];
    for (place, value) in
        records
            .map(|place| (place, b'?'))
            .into_iter()
            .chain([(8, 4), (8, 8), (8, 255)])
    {
        let mut other = file.clone();
        other[place] = value;
        assert_eq!(print(&other), malformed, "byte {place}");
    }
}

/// A file of degree 12 by 1 with as many marks as 32,767 bytes hold, or more of them.
fn long_job(more: usize) -> Vec<u8> {
    let job = Job {
        surface: Surface {
            degrees: [12, 1],
            shape: [13, 2],
            knots: [[[0.; 13], [1.; 13]].concat(), vec![0., 0., 1., 1.]],
            controls: vec![0.; 78],
            weights: vec![1.; 26],
            ..Surface::square()
        },
        tolerance: 0.5,
        budget: 0,
        marks: vec![0.5; 3 * (1218 + more)],
    };
    job.write()
}

#[test]
fn longest_job_is_one_byte_below_the_limit() {
    let mut file = long_job(0);
    assert_eq!(file.len(), MOST_BYTES - 1);
    assert_eq!(print(&file), "marks 1218\nrefused 8 at 0\n");
    file.push(0);
    assert_eq!(print(&file), "refused 12 at 0\n");
    assert_eq!(print(&long_job(1)), "refused 12 at 0\n");
}

#[test]
fn price_is_the_least_budget_that_answers() {
    let mut random = Random::new(1);
    for _ in 0..3000 {
        let case = inversion(&mut random);
        let price = price(&case.surface, case.mark, &case.search);
        assert!(price <= 37_513);
        if price == 0 {
            continue;
        }
        let at = |budget| invert(&case.surface, case.mark, &case.search, budget);
        assert_eq!(at(price).answer, at(u64::MAX).answer);
        assert_eq!(at(price).left, 0);
        assert_eq!(at(price - 1).answer, Err(Refusal::Units));
        assert_eq!(at(price - 1).left, 0);
    }
}

/// The distance of the chosen run's end by the source as published: without periods that end is
/// the pair.
fn reached(shell: &Shell, mark: Point, search: &Search) -> f64 {
    let free = Search {
        periods: [None; 2],
        ..*search
    };
    let end = shell.pair(mark, &free, u64::MAX).answer;
    let point = end.and_then(|end| shell.evaluate(end));
    distance(point.expect("a run ends on the surface").point, mark)
}

#[test]
fn distances_are_those_of_the_ends_before_the_shift() {
    let mut random = Random::new(5);
    for _ in 0..3000 {
        let case = inversion(&mut random);
        let spent = invert(&case.surface, case.mark, &case.search, case.budget);
        if let (Ok(placed), Ok(shell)) = (spent.answer, Shell::new(&case.surface)) {
            let reached = reached(&shell, case.mark, &case.search);
            assert_eq!(placed.distance.to_bits(), reached.to_bits());
        }
    }
}

/// The points of the grid are told where all of them were walked, and nowhere else.
#[test]
fn grids_are_told_where_they_were_walked() {
    let hinted = |tolerance| Search {
        hint: Some([0.25, 0.5]),
        tolerance,
        periods: [None; 2],
    };
    let free = Search {
        hint: None,
        ..hinted(0.5)
    };
    let cases = [
        (free, u64::MAX, Some(81)),
        (free, 81, Some(81)),
        (free, 80, None),
        (hinted(0.5), u64::MAX, Some(81)),
        (hinted(0.5), 81, None),
        (hinted(0.75), u64::MAX, None),
    ];
    for (search, budget, expected) in cases {
        let (_, grid) = invert_with_grid(&Surface::square(), [0.25, 0.5, 0.75], &search, budget);
        assert_eq!(grid, expected, "{search:?} with {budget} units");
    }
}

/// The surface with as many controls and weights as its shape has, unless these are too many.
fn with_sound_net(surface: &Surface) -> Surface {
    let [u, v] = surface.shape;
    match u.saturating_mul(v) {
        100_001.. => surface.clone(),
        count => with_net(surface, vec![0.; 3 * count], vec![1.; count]),
    }
}

fn with_net(surface: &Surface, controls: Vec<f64>, weights: Vec<f64>) -> Surface {
    Surface {
        controls,
        weights,
        ..surface.clone()
    }
}

/// Whatever the net, axes are refused as the surface with a sound one is. Where a count is 0 that
/// has no weights, and the axes are refused by that count.
#[test]
fn axes_are_refused_whatever_the_net() {
    let mut random = Random::new(6);
    let mut cases: Vec<Case> = (0..6000).map(|_| evaluate(&mut random)).collect();
    cases.extend((0..500).flat_map(|_| windows(&mut random)));
    let mut numbers = BTreeMap::<u64, usize>::new();
    for case in cases {
        let Case::Evaluate(surface, _) = case else {
            continue;
        };
        let found = check_axes(&surface).err();
        let unsound = with_net(&surface, vec![f64::NAN; 4], vec![-1.]);
        assert_eq!(check_axes(&unsound).err(), found);
        if surface.shape.contains(&0) {
            assert!(matches!(found, Some(Refusal::Degree | Refusal::Knots)));
        } else {
            let expected = Shell::new(&with_sound_net(&surface)).err();
            assert_eq!(found, expected, "{surface:?}");
        }
        *numbers.entry(found.map_or(0, Refusal::number)).or_default() += 1;
    }
    let enough = |number| numbers.get(number).is_some_and(|&count| count >= 20);
    assert!([0, 1, 5, 6, 24].iter().all(enough), "{numbers:?}");
}

fn as_row(case: Case) -> Option<Row> {
    match case {
        Case::Row(row) => Some(row),
        _ => None,
    }
}

/// Whether marks and buffers pass check 11.
fn fits(case: &Row) -> bool {
    let room = case.answers.len().min(case.ends.len());
    case.marks.len().is_multiple_of(3) && room >= case.marks.len() / 3 * 2
}

/// Rows of any kind, rows of marks that lead or are lost, and rows in windows.
fn drawn_rows(seed: u64) -> Vec<Row> {
    let mut random = Random::new(seed);
    let mut rows: Vec<Row> = (0..1000).map(|_| row(&mut random)).collect();
    let leading = (0..500).flat_map(|_| leads(&mut random));
    rows.extend(leading.filter_map(as_row));
    let within = (0..300).flat_map(|_| windows(&mut random));
    rows.extend(within.filter_map(as_row));
    rows
}

/// A row's marks placed one by one: an end within the tolerance makes its answer the next hint.
fn chain(case: &Row, shell: &Shell, answers: &mut [f64], ends: &mut [u8]) -> Ended {
    let (mut search, mut left) = (case.search, case.budget);
    for (index, mark) in case.marks.as_chunks().0.iter().enumerate() {
        let spent = invert(&case.surface, *mark, &search, left);
        left = spent.left;
        let placed = match spent.answer {
            Ok(placed) => placed,
            Err(refusal) => {
                let refused = Some((refusal, index));
                return Ended { refused, left };
            }
        };
        answers[2 * index..][..2].copy_from_slice(&placed.pair);
        ends[2 * index..][..2].copy_from_slice(&[placed.end, placed.origin]);
        let leads = reached(shell, *mark, &search) <= search.tolerance;
        search.hint = leads.then_some(placed.pair);
    }
    let refused = None;
    Ended { refused, left }
}

/// A row is such a chain, and touches nothing but its pairs and ends.
#[test]
fn rows_are_chains_of_inversions() {
    for case in drawn_rows(2) {
        let (mut answers, mut ends) = (case.answers.clone(), case.ends.clone());
        let ended = oracle::row::row(
            &case.surface,
            &case.marks,
            &case.search,
            case.budget,
            &mut answers,
            &mut ends,
        );
        let (mut expected, mut runs) = (case.answers.clone(), case.ends.clone());
        match Shell::new(&case.surface) {
            Ok(shell) if fits(&case) && case.search.check().is_ok() => {
                assert_eq!(ended, chain(&case, &shell, &mut expected, &mut runs));
            }
            _ => {
                let (refusal, index) = ended.refused.expect("a fault is refused");
                assert_eq!((refusal != Refusal::Row, index), (fits(&case), 0));
                assert_eq!(ended.left, case.budget);
            }
        }
        let bits = |numbers: &[f64]| numbers.iter().map(|x| x.to_bits()).collect::<Vec<_>>();
        assert_eq!(bits(&answers), bits(&expected));
        assert_eq!(ends, runs);
    }
}

/// A row's pairs are those of the source as published alone, up to the first mark that is lost.
#[test]
fn pairs_of_rows_are_the_published_ones() {
    let mut lost_nowhere = 0;
    for case in drawn_rows(4) {
        let (mut placed, mut published) = (Vec::new(), Vec::new());
        let Row {
            surface,
            marks,
            search,
            budget,
            ..
        } = &case;
        let bits = |pair: [f64; 2]| pair.map(f64::to_bits);
        let mut led = 0;
        let ended = [
            walk(surface, marks, search, *budget, |answer, left| {
                let leads = answer.distance <= search.tolerance;
                led += usize::from(leads && led == placed.len());
                placed.push((bits(answer.pair), left));
            }),
            pairs(surface, marks, search, *budget, |pair, left| {
                published.push((bits(pair), left));
            }),
        ];
        if led == placed.len() {
            assert_eq!(placed, published);
            assert_eq!(ended[0], ended[1]);
            lost_nowhere += 1;
        } else {
            assert_eq!(placed[..=led], published[..=led]);
        }
    }
    assert!(lost_nowhere >= 300, "{lost_nowhere}");
}

/// Largest knot, largest coordinate, narrowest span, least weight over the largest.
fn sizes(surface: &Surface) -> [f64; 4] {
    let most = |numbers: &[f64]| numbers.iter().fold(0_f64, |most, x| most.max(x.abs()));
    let least = |numbers: &[f64]| numbers.iter().copied().fold(f64::INFINITY, f64::min);
    let pairs = surface.knots.iter().flat_map(|knots| knots.windows(2));
    let widths: Vec<f64> = pairs.map(|pair| pair[1] - pair[0]).collect();
    let spans: Vec<f64> = widths.into_iter().filter(|&width| width > 0.).collect();
    [
        most(&surface.knots.concat()),
        most(&surface.controls),
        least(&spans),
        least(&surface.weights) / most(&surface.weights),
    ]
}

/// Each limit is met, and passed by an ulp; enough inversions are placed, and refused.
#[test]
fn brinks_lie_on_both_sides_of_each_limit() {
    let mut random = Random::new(3);
    let mut met = BTreeSet::new();
    let mut numbers = BTreeMap::<u64, usize>::new();
    let count = 1000;
    for case in (0..count).flat_map(|_| brinks(&mut random)) {
        if let Case::Invert(case) = case {
            met.extend(
                sizes(&case.surface)
                    .map(f64::to_bits)
                    .into_iter()
                    .enumerate(),
            );
            let spent = invert(&case.surface, case.mark, &case.search, case.budget);
            let number = spent.answer.err().map_or(0, |refusal| refusal.number());
            *numbers.entry(number).or_default() += 1;
        }
    }
    for (place, exponent) in [900, 100, -64, -62].into_iter().enumerate() {
        let limit = 2_f64.powi(exponent);
        let [inside, outside] = if exponent > 0 {
            [limit / 2., limit.next_up()]
        } else {
            [limit * 2., limit.next_down()]
        };
        for size in [inside, limit, outside] {
            assert!(met.contains(&(place, size.to_bits())), "{size:e}");
        }
    }
    let [placed, refused] = [0, Refusal::Evaluation.number()].map(|number| numbers[&number]);
    assert!(placed > 3 * count / 20, "{placed} placed");
    assert!(refused > 3 * count / 20, "{refused} refused");
}

#[test]
fn replay_finds_changed_answers() {
    for set in &SETS {
        let stored = records(set, SEED).filter(|record| record.fits());
        let mut words: Vec<u64> = stored.flat_map(|record| record.words).collect();
        assert!(differing(&words).is_empty());
        // The last word of a set belongs to an answer.
        *words.last_mut().expect("no set is empty") ^= 1;
        assert_eq!(differing(&words).values().sum::<usize>(), 1);
    }
}

#[test]
fn sets_hold_enough_answers() {
    let mut counts = BTreeMap::<&str, usize>::new();
    for set in &SETS {
        for record in records(set, SEED).filter(|record| record.fits()) {
            assert_eq!(record.words.len() as u64, record.words[1] + 2);
            *counts.entry(record.kind()).or_default() += record.answers;
        }
    }
    let total = |kinds: &[&str]| kinds.iter().map(|kind| counts[kind]).sum::<usize>();
    assert!(total(&KINDS[..5]) >= 5000);
    assert!(total(&["evaluate"]) >= 5000);
    assert!(total(&["invert"]) >= 3000);
    assert!(total(&["plane", "derivative", "nurbs_singular"]) >= 2000);
    assert!(total(&["row"]) >= 1500);
    assert!(total(&["job"]) >= 500);
}

/// Each end, and each origin, of twenty inversions at least in the set of that name.
#[test]
fn inversions_hold_each_end_and_origin() {
    let set = SETS.iter().find(|set| set.name == "inversion");
    let cases = (set.expect("there is such a set").cases)(&mut Random::new(SEED));
    let (mut ends, mut origins) = ([0; 5], [0; 7]);
    for case in cases {
        if let Case::Invert(case) = case
            && let Ok(placed) = invert(&case.surface, case.mark, &case.search, case.budget).answer
        {
            ends[usize::from(placed.end)] += 1;
            origins[usize::from(placed.origin)] += 1;
        }
    }
    assert!(ends.iter().all(|&count| count >= 20), "{ends:?}");
    assert!(origins.iter().all(|&count| count >= 20), "{origins:?}");
}

/// A mark that was placed and how the next fared, whose answer or price depends on whether the
/// first leads it.
struct Deciding {
    tolerance: f64,
    placed: Placed,
    /// The distance of the pair as written, if it is one of the surface.
    written: Option<f64>,
    next: Result<Placed, Refusal>,
}

impl Deciding {
    fn leads(&self) -> bool {
        self.placed.distance <= self.tolerance
    }

    fn carried_off(&self) -> bool {
        self.placed.pair.iter().any(|x| x.is_infinite())
    }
}

/// The deciding marks of a row.
fn deciding(case: &Row) -> Vec<Deciding> {
    let Ok(shell) = Shell::new(&case.surface) else {
        return Vec::new();
    };
    let marks = case.marks.as_chunks().0;
    let tolerance = case.search.tolerance;
    let mut found = Vec::new();
    let mut next = 1;
    let decide = |placed: Placed, left| {
        let Some(&mark) = marks.get(next) else { return };
        let with = |hint| {
            let search = Search {
                hint,
                ..case.search
            };
            invert(&case.surface, mark, &search, left)
        };
        let (led, alone) = (with(Some(placed.pair)), with(None));
        let leads = placed.distance <= tolerance;
        let point = shell.evaluate(placed.pair).map(|jet| jet.point);
        if led != alone {
            found.push(Deciding {
                tolerance,
                placed,
                written: point.ok().map(|point| distance(point, marks[next - 1])),
                next: if leads { led.answer } else { alone.answer },
            });
        }
        next += 1;
    };
    walk(
        &case.surface,
        &case.marks,
        &case.search,
        case.budget,
        decide,
    );
    found
}

type Is = fn(&Deciding) -> bool;

/// What a deciding mark is in some rows.
const DECIDING: [(&str, Is); 7] = [
    ("lost, and the next is placed", |mark| {
        !mark.leads() && mark.next.is_ok()
    }),
    ("at the tolerance", |mark| {
        mark.placed.distance == mark.tolerance
    }),
    ("a float within it", |mark| {
        mark.placed.distance.next_up() == mark.tolerance
    }),
    ("a float beyond it", |mark| {
        mark.placed.distance == mark.tolerance.next_up()
    }),
    ("leads, and is written beyond it", |mark| {
        mark.leads() && mark.written.is_none_or(|far| far > mark.tolerance)
    }),
    ("leads, and is carried to infinity", |mark| {
        mark.leads() && mark.carried_off() && mark.next == Err(Refusal::Argument)
    }),
    ("lost, and is carried to infinity", |mark| {
        !mark.leads() && mark.carried_off() && mark.next.is_ok()
    }),
];

/// Each kind of deciding mark in 20 rows at least of the set of that name.
#[test]
fn rows_hold_each_kind_of_deciding_mark() {
    let set = SETS.iter().find(|set| set.name == "row");
    let cases = (set.expect("there is such a set").cases)(&mut Random::new(SEED));
    let rows = cases.into_iter().filter_map(as_row).filter(fits);
    let rows: Vec<Vec<Deciding>> = rows.map(|row| deciding(&row)).collect();
    for (name, is) in DECIDING {
        let count = rows.iter().filter(|row| row.iter().any(is)).count();
        println!("{name}: {count}");
        assert!(count >= 20, "{name}: {count}");
    }
}

/// What pairs are held to by the command `ends` is never further than they are.
#[test]
fn nothing_is_nearer_than_the_reference() {
    let kinds = kinds();
    let bump = kinds.iter().find(|kind| kind.name == "bump");
    let marks = measure(bump.expect("there is such a kind"), 20, SEED);
    assert!(marks.iter().all(|mark| !mark.beaten() && !mark.weak()));
    assert!(marks.iter().any(|mark| mark.missed()));
}
