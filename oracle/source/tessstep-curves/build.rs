use carry::{File, carry, original};

fn main() {
    let span = File::StandIn {
        name: "span.rs",
        text: "// Missing from the source as published; nothing of it is used.\n",
    };
    let files = [
        original("lib.rs"),
        original("analytic.rs"),
        original("frame.rs"),
        original("spline/mod.rs"),
        original("spline/curve.rs"),
        original("spline/knots.rs"),
        span,
    ];
    carry("crates/tessstep-curves/src", &files, &["mod carried"]);
}
