use carry::{File, carry, original};

fn main() {
    let nurbs = File::Original {
        name: "nurbs.rs",
        appended: include_str!("../../appended/nurbs.rs"),
    };
    let files = [original("lib.rs"), original("analytic.rs"), nurbs];
    carry("crates/tessstep-surfaces/src", &files, &["mod carried"]);
}
