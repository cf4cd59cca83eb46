//! Places marks on a dome, one by itself and then a row: cargo run --example place
use placing::{Edge, Placed, Search, Surface, Window};
use std::error::Error;

fn main() -> Result<(), Box<dyn Error>> {
    // Degrees 2 and 2 over the unit square: four corners at height 0, the middle drawn up to 2.
    let mut controls = Vec::new();
    for x in [0., 1., 2.] {
        for y in [0., 1., 2.] {
            controls.extend([x, y, if (x, y) == (1., 1.) { 2. } else { 0. }]);
        }
    }
    let knots = [0., 0., 0., 1., 1., 1.];
    let dome = Surface {
        degrees: [2, 2],
        shape: [3, 3],
        periodic: [false; 2],
        knots: [&knots, &knots],
        controls: &controls,
        weights: &[1.; 9],
        window: Window::Whole,
    };
    let search = Search {
        tolerance: 1e-9,
        ..Search::default()
    };

    let quote = dome.quote(false)?;
    println!(
        "the grid has {} points, and {} units are enough for any mark",
        quote.grid, quote.most
    );

    let mut budget = 100_000;
    let top = dome.invert([1., 1., 3.], &search, &mut budget)?;
    let [u, v] = top.pair;
    let at = dome.evaluate(top.pair)?;
    println!(
        "the mark above the top lies at u {u}, v {v}, which is the point {:?}",
        at.point
    );
    println!("its run came from {} and ended: {}", top.origin, top.end);

    // All but the third lie on the dome. That one is lost, and so the fourth has no hint.
    let marks = [
        [0.5, 0.5, 0.28125],
        [0.75, 0.5, 0.3515625],
        [1., 0.5, 0.5],
        [1.25, 0.5, 0.3515625],
        [1.5, 0.5, 0.28125],
    ];
    let mut pairs = [[0.; 2]; 5];
    let mut ends = [[255; 2]; 5];
    dome.row(&marks, &search, &mut budget, &mut pairs, &mut ends)?;
    for (pair, ended) in pairs.into_iter().zip(ends) {
        let placed = Placed::read(pair, ended).expect("the whole row was placed");
        let [u, v] = placed.pair;
        println!(
            "then u {u:.6}, v {v:.6}, from {}: {}",
            placed.origin, placed.end
        );
    }
    println!("{budget} units are left");

    let [du, dv] = dome.derivative(top.pair, [1., 0., 0.], &mut budget)?;
    println!("a step of 1 in x at the top is {du} in u and {dv} in v");
    let collapsed = dome
        .nurbs_singular(1e-9)?
        .into_iter()
        .filter(|edge| *edge != Edge::Open);
    println!("{} of its edges collapse to a point", collapsed.count());

    // Only the half of the dome where u is at most 0.5.
    let half = Surface {
        window: Window::Within {
            u: [0., 0.5],
            v: [0., 1.],
        },
        ..dome
    };
    let mark = [1.5, 0.5, 0.28125];
    let [u, v] = half.invert(mark, &search, &mut budget)?.pair;
    println!("the last of them in the window of u up to 0.5: u {u:.6}, v {v:.6}");

    let refused = dome.invert([f64::NAN, 0., 0.], &search, &mut budget);
    println!(
        "a mark that is not a number is refused: {}",
        refused.unwrap_err()
    );
    Ok(())
}
