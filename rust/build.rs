//! Links the solver's archive: the one that ELCHEPUR_ARCHIVE names, else the one that tools/archive makes of the proved
//! crates. An archive without the mark of the kit that proves is refused, unless ELCHEPUR_ALLOW_UNPROVED is set.

#[path = "build/mark.rs"]
mod mark;

use std::env;
use std::path::{Path, PathBuf};
use std::process::{exit, Command};

fn main() {
    println!("cargo:rerun-if-changed=build.rs");
    println!("cargo:rerun-if-changed=build");
    for variable in ["ELCHEPUR_ARCHIVE", "ELCHEPUR_ALLOW_UNPROVED", "DOCS_RS"] {
        println!("cargo:rerun-if-env-changed={variable}");
    }
    // Documents are made without an archive, since nothing is linked.
    if env::var_os("DOCS_RS").is_some() {
        println!("cargo:rustc-env=ELCHEPUR_LOGIC=");
        return;
    }
    let folder = PathBuf::from(env::var_os("OUT_DIR").expect("cargo sets OUT_DIR"));
    let archive = folder.join("libelchepur.a");
    match env::var_os("ELCHEPUR_ARCHIVE") {
        Some(given) => take(Path::new(&given), &archive),
        None => make(&archive),
    }
    println!("cargo:rustc-env=ELCHEPUR_LOGIC={}", logic(&archive));
    println!("cargo:rustc-link-search=native={}", folder.display());
    println!("cargo:rustc-link-lib=static=elchepur");
}

fn take(given: &Path, archive: &Path) {
    println!("cargo:rerun-if-changed={}", given.display());
    if let Err(error) = std::fs::copy(given, archive) {
        stop(&format!("ELCHEPUR_ARCHIVE names {}: {error}", given.display()));
    }
}

fn make(archive: &Path) {
    let root = Path::new(env!("CARGO_MANIFEST_DIR")).join("..");
    let maker = root.join("tools").join("archive");
    for part in ["crates.txt", "tools/archive"] {
        println!("cargo:rerun-if-changed={}", root.join(part).display());
    }
    // Beside these parts of a crate stands what is made of it.
    for entry in std::fs::read_dir(root.join("crates")).into_iter().flatten().flatten() {
        for part in ["src", "specs", "proofs"].map(|part| entry.path().join(part)) {
            if part.is_dir() {
                println!("cargo:rerun-if-changed={}", part.display());
            }
        }
    }
    if !maker.is_file() {
        stop(
            "ELCHEPUR_ARCHIVE is not set, and there is no ../tools/archive, which makes the archive in the repository",
        );
    }
    if !has("rt") {
        stop("ELCHEPUR_ARCHIVE is not set, and there is no `rt`, which proves and builds the archive");
    }
    match Command::new(&maker).arg(archive).status() {
        Ok(status) if status.success() => {}
        Ok(status) => stop(&format!("tools/archive ended with {status}")),
        Err(error) => stop(&format!("tools/archive: {error}")),
    }
}

/// The logic that the archive was proved in, or nothing where the archive is unproved and that is allowed.
fn logic(archive: &Path) -> String {
    let bytes = std::fs::read(archive).unwrap_or_else(|error| stop(&format!("{}: {error}", archive.display())));
    match mark::logic(&bytes) {
        Ok(logic) => logic,
        Err(words) if env::var_os("ELCHEPUR_ALLOW_UNPROVED").is_some() => {
            println!("cargo:warning=UNPROVED: the archive of the solver is not known to be proved: {words}");
            String::new()
        }
        Err(words) => stop(&format!(
            "it is unproved, since {words}. tools/archive makes the proved one; \
             with ELCHEPUR_ALLOW_UNPROVED=1 this one is linked all the same"
        )),
    }
}

fn has(command: &str) -> bool {
    let holds = |folder: PathBuf| folder.join(command).is_file();
    env::var_os("PATH").is_some_and(|path| env::split_paths(&path).any(holds))
}

fn stop(words: &str) -> ! {
    eprintln!("elchepur: there is no proved archive of the solver to link: {words}");
    exit(1);
}
