//! Times whole placings: the port's public calls, which test the surface each time, beside the
//! source's inversion of a surface that it has built before, and beside SISL's where it is
//! installed.
#[cfg(sisl)]
#[path = "../sisl.rs"]
mod sisl;

use bench::cases::{BEYOND, TOLERANCE, along, built, bumpy, lent, on, placed, scaled, search};
use bench::{compare, heading};
use oracle::calls::{Placed, Point, Search, Surface};
use oracle::row;
use placing::raw;

fn main() {
    let square = Surface::square();
    let twelve = bumpy(3, 12);
    let sixteen = bumpy(16, 25);
    let huge = scaled(&twelve, BEYOND);
    heading("Rust");
    firsts("Square", &square, 100);
    firsts("bicubic, 12 by 12", &twelve, 10);
    firsts("bicubic, 48 distinct knots", &bumpy(3, 50), 1);
    firsts("degree 5, 12 by 12", &bumpy(5, 12), 10);
    firsts("degree 16, 25 by 25", &sixteen, 2);
    firsts("bicubic, 12 by 12, at 2^101", &huge, 10);
    hinted("Square", &square);
    hinted("bicubic, 12 by 12", &twelve);
    hinted("degree 16, 25 by 25", &sixteen);
    rows("bicubic, 12 by 12", &twelve);
    #[cfg(sisl)]
    beside_sisl("bicubic, 12 by 12", &twelve);
}

/// Without a hint.
fn firsts(name: &str, surface: &Surface, count: usize) {
    inverted(&format!("{name}, first placing"), surface, count, |_| None);
}

/// With a hint nearby, whose run ends within the tolerance.
fn hinted(name: &str, surface: &Surface) {
    inverted(&format!("{name}, hinted mark"), surface, 100, |[u, v]| {
        Some([u + 0.01, v - 0.01])
    });
}

fn inverted(
    name: &str,
    surface: &Surface,
    count: usize,
    hint: impl Fn([f64; 2]) -> Option<[f64; 2]>,
) {
    let shell = built(surface);
    let inputs: Vec<(Point, Search)> = along(count)
        .map(|at| (on(&shell, at), search(hint(at))))
        .collect();
    let lent = lent(surface);
    let port = |(mark, search): &(Point, Search)| placed(&lent, *mark, search)[0];
    let rust = |(mark, search): &(Point, Search)| {
        let spent = shell.pair(*mark, search, u64::MAX);
        spent.answer.expect("a mark on the surface is placed")[0]
    };
    compare(name, &inputs, port, rust);
}

/// Without a hint: s1954 finds every closest point, and has no start either.
#[cfg(sisl)]
fn beside_sisl(name: &str, surface: &Surface) {
    println!();
    heading("SISL");
    let shell = built(surface);
    let other = sisl::Nurbs::new(surface);
    let marks: Vec<Point> = along(10).map(|at| on(&shell, at)).collect();
    let lent = lent(surface);
    let none = search(None);
    let port = |mark: &Point| placed(&lent, *mark, &none)[0];
    let closest = |mark: &Point| other.closest(*mark, TOLERANCE)[0];
    for mark in &marks {
        assert!((port(mark) - closest(mark)).abs() < 1e-4, "{name}");
    }
    bench::race(&format!("{name}, first placing"), &marks, port, closest);
}

/// A hundred close marks, each answer the hint of the next.
fn rows(name: &str, surface: &Surface) {
    let shell = built(surface);
    let marks: Vec<f64> = along(100).flat_map(|at| on(&shell, at)).collect();
    let leads = |placed: Placed, _| assert!(placed.distance <= TOLERANCE, "no mark is lost");
    row::walk(surface, &marks, &search(None), u64::MAX, leads);
    let lent = lent(surface);
    let port = |marks: &Vec<f64>| {
        let (mut budget, mut index, mut answers) = ([u64::MAX], [0], [0.; 200]);
        let number = raw::row(
            &lent,
            marks,
            &[],
            TOLERANCE,
            &[],
            &[],
            &mut budget,
            &mut index,
            &mut answers,
            &mut [0; 200],
        );
        assert_eq!(number, 0, "marks on the surface are placed");
        answers[199]
    };
    let rust = |marks: &Vec<f64>| {
        let mut answers = [0.; 200];
        let mut pairs = answers.as_chunks_mut().0.iter_mut();
        let placed = |pair, _| *pairs.next().expect("as many as marks") = pair;
        let ended = row::pairs(surface, marks, &search(None), u64::MAX, placed);
        assert!(ended.refused.is_none(), "marks on the surface are placed");
        answers[199]
    };
    compare(
        &format!("{name}, row of 100 close marks"),
        &[marks],
        port,
        rust,
    );
}
