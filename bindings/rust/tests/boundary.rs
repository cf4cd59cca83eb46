//! The library's own functions: what they refuse with 99, and what they leave of longer slices.
use placing::raw::{self, Lent};

const KNOTS: [f64; 4] = [0., 0., 1., 1.];

fn square(flags: u64) -> Lent<'static> {
    Lent {
        degrees: [1, 1],
        shape: [2, 2],
        flags,
        knots: [&KNOTS, &KNOTS],
        controls: &[0., 0., 0., 0., 1., 0., 1., 0., 0., 1., 1., 0.],
        weights: &[1.; 4],
        window: &[],
    }
}

const MARK: [f64; 3] = [0.25, 0.5, 0.75];

fn in_window(window: &[f64]) -> Lent<'_> {
    Lent {
        window,
        ..square(0)
    }
}

/// Every function that takes a surface refuses this one with 99 and writes nothing.
fn is_unfit(s: &Lent) {
    let (mut budget, mut index, mut collapsed) = ([9], [9], [9; 4]);
    let (mut out, mut ended, mut quote) = ([7.; 20], [7; 2], [9; 2]);
    let (b, e) = (&mut budget, &mut ended);
    assert_eq!(raw::evaluate(s, 0., 0., &mut out), 99);
    assert_eq!(raw::invert(s, MARK, &[], 0.5, &[], &[], b, &mut out, e), 99);
    assert_eq!(
        raw::row(s, &MARK, &[], 0.5, &[], &[], b, &mut index, &mut out, e),
        99
    );
    assert_eq!(raw::derivative(s, 0., 0., MARK, b, &mut out), 99);
    assert_eq!(raw::nurbs_singular(s, 0.5, &mut collapsed, &mut out), 99);
    for hinted in [0, 1] {
        assert_eq!(raw::quote(s, hinted, &mut quote), 99);
    }
    assert_eq!(
        (budget, index, collapsed, out, ended, quote),
        ([9], [9], [9; 4], [7.; 20], [7; 2], [9; 2])
    );
}

#[test]
fn flags_above_three() {
    for flags in [4, 5, u64::MAX] {
        is_unfit(&square(flags));
    }
}

#[test]
fn windows_of_other_counts() {
    let numbers = [0., 1., 0., 1., 0.];
    for count in [1, 2, 3, 5] {
        let window = &numbers[..count];
        is_unfit(&in_window(window));
        // Before any fault of the surface.
        is_unfit(&Lent {
            shape: [usize::MAX, 2],
            ..in_window(window)
        });
    }
}

#[test]
fn a_window_of_none_or_four() {
    let invert = |s: &Lent| {
        let (mut budget, mut pair, mut ended) = ([100], [7.; 2], [7; 2]);
        let (b, e) = (&mut budget, &mut ended);
        let mark = [0.9, 0.5, 0.75];
        assert_eq!(raw::invert(s, mark, &[], 0.5, &[], &[], b, &mut pair, e), 0);
        (budget, pair, ended)
    };
    let half = &in_window(&[0.25, 0.75, 0., 1.]);
    assert_eq!(invert(half), ([8], [0.75, 0.5], [0, 1]));
    let whole = &in_window(&[0., 1., 0., 1.]);
    assert_eq!(invert(whole), ([7], [0.9, 0.5], [0, 1]));
    assert_eq!(invert(whole), invert(&square(0)));
}

#[test]
fn hints_and_periods_of_other_counts() {
    let s = &square(0);
    let three = [0.5; 3];
    let cases: [[&[f64]; 3]; 6] = [
        [&three[..1], &[], &[]],
        [&three, &[], &[]],
        [&[], &three[..2], &[]],
        [&[], &[], &three[..2]],
        [&[], &three, &[]],
        [&[], &[], &three],
    ];
    for [hint, pu, pv] in cases {
        let (mut budget, mut index, mut out, mut ended) = ([9], [9], [7.; 2], [7; 2]);
        let (b, e) = (&mut budget, &mut ended);
        assert_eq!(raw::invert(s, MARK, hint, 0.5, pu, pv, b, &mut out, e), 99);
        assert_eq!(
            raw::row(s, &MARK, hint, 0.5, pu, pv, b, &mut index, &mut out, e),
            99
        );
        assert_eq!((budget, index, out, ended), ([9], [9], [7.; 2], [7; 2]));
    }
}

#[test]
fn hinted_above_one() {
    // Before any fault of the surface.
    let large = Lent {
        shape: [usize::MAX, 2],
        ..square(0)
    };
    for s in [&square(0), &large] {
        for hinted in [2, 3, u64::MAX] {
            let mut quote = [9; 2];
            assert_eq!(raw::quote(s, hinted, &mut quote), 99);
            assert_eq!(quote, [9; 2]);
        }
    }
    assert_eq!(raw::quote(&large, 1, &mut [9; 2]), 1);
}

#[test]
fn a_quote_has_room() {
    let unfit = Lent {
        degrees: [0, 17],
        ..square(0)
    };
    for hinted in [0, 1] {
        let mut quote = [9; 3];
        assert_eq!(raw::quote(&unfit, hinted, &mut []), 99);
        assert_eq!(raw::quote(&unfit, hinted, &mut quote[..1]), 99);
        assert_eq!(raw::quote(&unfit, hinted, &mut quote), 5);
        assert_eq!(raw::quote(&square(3), hinted, &mut []), 99);
        assert_eq!(raw::quote(&square(3), hinted, &mut quote[..1]), 99);
        assert_eq!(quote, [9; 3]);
        let most = [279, 345][hinted as usize];
        for room in [2, 3] {
            assert_eq!(raw::quote(&square(3), hinted, &mut quote[..room]), 0);
            assert_eq!(quote, [81, most, 9]);
        }
    }
}

#[test]
fn slices_too_short() {
    let s = &square(0);
    let frame = [[0.; 3], [1., 0., 0.], [0., 1., 0.]];
    let (mut budget, mut out) = ([9], [7.; 19]);
    let (mut index, mut ended) = ([9], [7; 2]);
    let none = &mut [];
    assert_eq!(raw::evaluate(s, 0., 0., &mut out[..8]), 99);
    let invert = |budget: &mut [u64], pair: &mut [f64], ended: &mut [u8]| {
        raw::invert(s, MARK, &[], 0.5, &[], &[], budget, pair, ended)
    };
    assert_eq!(invert(none, &mut out, &mut ended), 99);
    assert_eq!(invert(&mut budget, &mut out[..1], &mut ended), 99);
    assert_eq!(invert(&mut budget, &mut out, &mut ended[..1]), 99);
    let row = |budget: &mut [u64], index: &mut [u64], answers: &mut [f64], ends: &mut [u8]| {
        raw::row(s, &MARK, &[], 0.5, &[], &[], budget, index, answers, ends)
    };
    assert_eq!(row(none, &mut index, &mut out, &mut ended), 99);
    assert_eq!(row(&mut budget, none, &mut out, &mut ended), 99);
    assert_eq!(raw::derivative(s, 0., 0., MARK, none, &mut out), 99);
    assert_eq!(
        raw::derivative(s, 0., 0., MARK, &mut budget, &mut out[..1]),
        99
    );
    assert_eq!(raw::plane(frame, MARK, none, &mut out), 99);
    assert_eq!(raw::plane(frame, MARK, &mut budget, &mut out[..1]), 99);
    assert_eq!(raw::nurbs_singular(s, 0.5, &mut [9; 4], &mut out), 99);
    assert_eq!(raw::nurbs_singular(s, 0.5, &mut [9; 3], &mut [7.; 20]), 99);
    assert_eq!((budget, index, out, ended), ([9], [9], [7.; 19], [7; 2]));
    // A row's answers and ends have a number of their own.
    assert_eq!(row(&mut budget, &mut index, &mut out[..1], &mut ended), 11);
    assert_eq!(index, [0]);
    index = [9];
    assert_eq!(row(&mut budget, &mut index, &mut out, &mut ended[..1]), 11);
    assert_eq!((budget, index, out, ended), ([9], [0], [7.; 19], [7; 2]));
}

#[test]
fn a_refused_inversion_leaves_pair_and_end() {
    let (mut budget, mut pair, mut ended) = ([91], [7.; 2], [7; 2]);
    let (s, b, e) = (&square(0), &mut budget, &mut ended);
    assert_eq!(raw::invert(s, MARK, &[], 0.5, &[], &[], b, &mut pair, e), 8);
    assert_eq!((budget, pair, ended), ([0], [7.; 2], [7; 2]));
}

#[test]
fn longer_slices_keep_their_bits() {
    let s = &square(0);
    let odd = f64::from_bits(0x7ff0_0000_0000_0123);
    let kept = |numbers: &[f64]| numbers.iter().all(|x| x.to_bits() == odd.to_bits());
    let mut jet = [odd; 12];
    assert_eq!(raw::evaluate(s, 0.25, 0.5, &mut jet), 0);
    assert_eq!(jet[..9], [0.25, 0.5, 0., 1., 0., 0., 0., 1., 0.]);
    assert!(kept(&jet[9..]));

    let (mut budget, mut pair, mut ended) = ([100, 5], [odd; 4], [7; 4]);
    let (b, e) = (&mut budget, &mut ended);
    assert_eq!(raw::invert(s, MARK, &[], 0.5, &[], &[], b, &mut pair, e), 0);
    assert_eq!((budget, &pair[..2]), ([8, 5], &[0.25, 0.5][..]));
    assert_eq!(ended, [0, 1, 7, 7]);
    assert!(kept(&pair[2..]));

    let mut pair = [odd; 4];
    assert_eq!(
        raw::derivative(s, 0.25, 0.5, [3., 5., 7.], &mut budget, &mut pair),
        0
    );
    assert_eq!((budget, &pair[..2]), ([7, 5], &[3., 5.][..]));
    assert!(kept(&pair[2..]));

    let (mut index, mut answers, mut ends) = ([9, 9], [odd; 4], [7; 4]);
    assert_eq!(
        raw::row(
            s,
            &MARK,
            &[0.25, 0.5],
            0.75,
            &[],
            &[],
            &mut budget,
            &mut index,
            &mut answers,
            &mut ends,
        ),
        0
    );
    assert_eq!(
        (budget, index, &answers[..2]),
        ([6, 5], [0, 9], &[0.25, 0.5][..])
    );
    assert_eq!(ends, [0, 0, 7, 7]);
    assert!(kept(&answers[2..]));

    let frame = [[0.; 3], [1., 0., 0.], [0., 1., 0.]];
    let mut pair = [odd; 4];
    assert_eq!(raw::plane(frame, MARK, &mut budget, &mut pair), 0);
    assert_eq!((budget, &pair[..2]), ([5, 5], &[0.25, 0.5][..]));
    assert!(kept(&pair[2..]));

    let (mut collapsed, mut edges) = ([9; 5], [odd; 22]);
    assert_eq!(raw::nurbs_singular(s, 0.25, &mut collapsed, &mut edges), 0);
    assert_eq!(collapsed, [0, 0, 0, 0, 9]);
    assert!(kept(&edges));
}

#[test]
fn a_printout_has_room() {
    let (mut printout, mut written) = ([7; raw::PRINTOUT_ROOM + 1], [9, 9]);
    assert_eq!(
        raw::job(&[], &mut printout[..raw::PRINTOUT_ROOM - 1], &mut written),
        99
    );
    assert_eq!(raw::job(&[], &mut printout, &mut []), 99);
    assert!(printout.iter().all(|&byte| byte == 7) && written == [9, 9]);
    for room in [raw::PRINTOUT_ROOM, raw::PRINTOUT_ROOM + 1] {
        assert_eq!(raw::job(&[], &mut printout[..room], &mut written), 0);
        assert_eq!(written, [16, 9]);
        assert!(printout.starts_with(b"refused 12 at 0\n"));
        assert!(printout[16..].iter().all(|&byte| byte == 7));
    }
}
