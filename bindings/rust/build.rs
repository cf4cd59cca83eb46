//! Links libplacing.a: that of the folder that PLACING_LIBRARY_DIR names, and where the variable
//! is not set the repository's own, which `bindings/library` builds.
use std::env;
use std::path::{Path, PathBuf};

const VARIABLE: &str = "PLACING_LIBRARY_DIR";

fn main() {
    println!("cargo:rerun-if-env-changed={VARIABLE}");
    let folder = match env::var_os(VARIABLE) {
        Some(folder) => PathBuf::from(folder),
        None => Path::new(env!("CARGO_MANIFEST_DIR")).join("../../target/staticlib"),
    };
    let archive = folder.join("libplacing.a");
    assert!(
        folder.is_absolute() && archive.exists(),
        "no library is at {}: set {VARIABLE} to the absolute path of the folder that holds \
         libplacing.a, or run bindings/library in the repository, which builds it",
        archive.display()
    );
    println!("cargo:rerun-if-changed={}", archive.display());
    println!("cargo:rustc-link-search=native={}", folder.display());
    println!("cargo:rustc-link-lib=static=placing");
}
