//! Carries files of the source into a build, unchanged but for lines appended, and copies of
//! them with lines inserted at named places.
mod insert;

pub use insert::{Place, places};
use std::path::{Path, PathBuf};
use std::{env, fs, process};

/// One file of the source, a copy of one, or a stand-in for one that is missing.
pub enum File<'a> {
    Original {
        name: &'a str,
        appended: &'a str,
    },
    /// A second copy of the file `name`, with a line more at each place.
    Copy {
        name: &'a str,
        target: &'a str,
        places: &'a [Place<'a>],
    },
    StandIn {
        name: &'a str,
        text: &'a str,
    },
}

/// A file of the source to which nothing is appended.
pub const fn original(name: &str) -> File<'_> {
    File::Original { name, appended: "" }
}

/// Lays `files` of a source folder out below `OUT_DIR` and writes `root.rs` there, which
/// declares the first of them as the modules of `declarations`.
pub fn carry(folder: &str, files: &[File], declarations: &[&str]) {
    let from = source_root().join(folder);
    let to = PathBuf::from(env::var_os("OUT_DIR").expect("a build script runs under cargo"));
    let written = files.iter().map(|file| lay_out(file, &from, &to));
    let written: Vec<PathBuf> = written.collect();
    let modules = written.iter().zip(declarations);
    let module = |(path, declaration)| format!("#[path = {path:?}]\n{declaration};\n");
    let root: String = modules.map(module).collect();
    fs::write(to.join("root.rs"), root).expect("OUT_DIR can be written");
}

/// `TESSSTEP_SRC`, or else the folder `shared/docs/src` beside the repository.
fn source_root() -> PathBuf {
    println!("cargo:rerun-if-env-changed=TESSSTEP_SRC");
    let beside = concat!(env!("CARGO_MANIFEST_DIR"), "/../../../shared/docs/src");
    env::var_os("TESSSTEP_SRC").map_or_else(|| PathBuf::from(beside), PathBuf::from)
}

fn lay_out(file: &File, from: &Path, to: &Path) -> PathBuf {
    match *file {
        File::Original { name, appended } => {
            let text = read(&from.join(name));
            let whole = text.clone() + appended;
            let target = write(&to.join(name), &whole);
            assert!(
                read_back(&target).starts_with(&text),
                "{name} lost some of its text"
            );
            target
        }
        File::Copy {
            name,
            target,
            places,
        } => {
            let text = read(&from.join(name));
            let patched = insert::inserted(&text, places)
                .unwrap_or_else(|missing| stop(&format!("The source file {name} {missing}")));
            let target = write(&to.join(target), &patched);
            assert!(
                insert::removed(&read_back(&target), places) == text,
                "without the lines inserted, the copy of {name} is another text"
            );
            target
        }
        File::StandIn { name, text } => write(&to.join(name), text),
    }
}

fn read(path: &Path) -> String {
    println!("cargo:rerun-if-changed={}", path.display());
    fs::read_to_string(path).unwrap_or_else(|_| {
        stop(&format!(
            "The source file {} is missing: put the folder shared beside the repository \
             or set TESSSTEP_SRC to its docs/src.",
            path.display()
        ))
    })
}

fn stop(message: &str) -> ! {
    eprintln!("{message}");
    process::exit(1)
}

fn write(path: &Path, text: &str) -> PathBuf {
    fs::create_dir_all(path.parent().expect("a file has a folder")).expect("OUT_DIR is ours");
    fs::write(path, text).expect("OUT_DIR can be written");
    path.to_path_buf()
}

fn read_back(path: &Path) -> String {
    fs::read_to_string(path).expect("the file was just written")
}
