//! Links the port, which `tools/archive timing` writes to target/staticlib of the repository, and
//! SISL where it is installed.
use std::env;
use std::fs;
use std::path::Path;
use std::process::Command;

fn main() {
    let root = Path::new(env!("CARGO_MANIFEST_DIR")).join("..");
    let folder = root.join("target/staticlib");
    let archive = folder.join("libtiming.a");
    assert!(
        archive.exists(),
        "the port is not built: run `tools/archive timing` first"
    );
    println!("cargo:rerun-if-changed={}", archive.display());
    println!("cargo:rustc-link-search=native={}", folder.display());
    println!("cargo:rustc-link-lib=static=timing");
    println!("cargo:rustc-check-cfg=cfg(sisl)");
    if has_sisl() {
        println!("cargo:rustc-cfg=sisl");
    }
}

/// Whether a C program that calls it links.
fn has_sisl() -> bool {
    let folder = env::var("OUT_DIR").expect("cargo sets it");
    let source = Path::new(&folder).join("sisl.c");
    fs::write(&source, "void s1954(void); int main(void) { s1954(); }\n").expect("writable");
    let mut cc = Command::new("cc");
    cc.arg(&source).args(["-lsisl", "-lm", "-o"]);
    let built = cc.arg(Path::new(&folder).join("sisl")).output();
    built.is_ok_and(|built| built.status.success())
}
