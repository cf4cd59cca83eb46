use carry::{File, carry, places};

fn main() {
    let pcurve = File::Original {
        name: "pcurve.rs",
        appended: include_str!("appended/pcurve.rs"),
    };
    let recorded = File::Copy {
        name: "pcurve.rs",
        target: "recorded.rs",
        places: &places(include_str!("inserted/pcurve.txt")),
    };
    let declarations = [
        "#[allow(dead_code)]\npub(crate) mod pcurve",
        "#[allow(dead_code)]\npub(crate) mod recorded",
    ];
    let folder = "crates/tessstep-import/src";
    carry(folder, &[pcurve, recorded], &declarations);
}
