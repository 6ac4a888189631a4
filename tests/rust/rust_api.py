#!/usr/bin/env python3
"""The crate of rust/ as a program in Rust sees it: its tests, its documents, and a program before and
after its move from ivp.

    tests/rust/rust_api.py check [FOLDER]  on the archive, where it is proved and was not edited since; else on its very
                                      sources, compiled by rustc, which the crate links only where that is allowed
    tests/rust/rust_api.py run [FOLDER]    on the archive; what is not proved yet is proved first

FOLDER holds the Rust's text; tests/support/rust_text.py says where it is looked for otherwise. What is missing (cargo,
rt, clippy, rustfmt, the Rust's text) is said plainly, and what needs it is passed over.

Exit status: 0 all is well; 1 something fails; 2 wrong use; 4 nothing was compared: cargo, rt or the Rust's text is
not there.

Run are `cargo test`, clippy and rustdoc with every warning an error, and rustfmt, all without a network. Then the
program of rust/README.md: the lines before its move, in the place of those after it in rust/examples/moved.rs,
are compiled against the Rust's own text and run, and both programs must print the same. Of that text the derive
of the crate `bon` goes, which is not here, and what other files than those at hand hold; its power calls are
those of the C library."""

import os
import re
import subprocess
import sys

import pathlib
sys.path[:0] = [str(each) for each in pathlib.Path(__file__).resolve().parents[1].iterdir() if each.is_dir()]
import c_program
import command
import rust_solve
import rust_text

ROOT = rust_text.ROOT
CRATE = ROOT / "rust"
TARGET = ROOT / "target" / "rust_api"
EXAMPLE = CRATE / "examples" / "moved.rs"


def insist(fact, words):
    """Stop where something that is to hold does not."""
    if not fact:
        sys.exit(f"rust_api: {words}")


def said(words, **more):
    done = subprocess.run([str(word) for word in words], capture_output=True, text=True, **more)
    insist(done.returncode == 0, f"{' '.join(map(str, words))} failed:\n{done.stdout[-3000:]}{done.stderr[-3000:]}")
    return done.stdout


# --- The crate -----------------------------------------------------------------------------------


def archive(way):
    """The archive that the crate is linked with, or None, said plainly."""
    if way == "run" or c_program.is_proved():
        return c_program.proved_archive()[0] if c_program.has("rt", "the archive is NOT built") else None
    print("UNPROVED: export is not proved here, or was edited since; the crate runs on its sources, compiled by rustc.")
    print("`tests/rust/rust_api.py run` proves it")
    return c_program.sources_compiled()[0]


def cargo(words, linked, **more):
    environment = dict(os.environ, ELCHEPUR_ARCHIVE=str(linked), CARGO_NET_OFFLINE="true", **more)
    environment.pop("ELCHEPUR_ALLOW_UNPROVED", None)
    if linked != c_program.ARCHIVE:
        environment["ELCHEPUR_ALLOW_UNPROVED"] = "1"
    return said(["cargo", *words], cwd=CRATE, env=environment)


def has_cargo(command):
    """Whether cargo has a command; said where it has not."""
    found = subprocess.run(["cargo", command, "--version"], capture_output=True).returncode == 0
    if not found:
        print(f"there is no cargo {command}, so the crate is NOT held to it")
    return found


def check_crate(linked):
    results = re.findall(r"test result: ok\. (\d+) passed; 0 failed", cargo(["test"], linked))
    count = sum(map(int, results))
    insist(count > 0, "cargo test runs nothing")
    print(f"{count} tests of the crate in rust/ pass")
    if has_cargo("clippy"):
        cargo(["clippy", "--all-targets", "--", "-D", "warnings"], linked)
    if has_cargo("fmt"):
        cargo(["fmt", "--check"], linked)
    cargo(["doc"], linked, RUSTDOCFLAGS="-D warnings")


# --- A program before and after its move ---------------------------------------------------------

LIBRARY = """// Made by tests/rust/rust_api.py. Not to be stored.
#![allow(dead_code)]
pub type Float = f64;
#[path = "{source}/error.rs"]
pub mod error;
#[path = "{source}/dense.rs"]
pub mod dense;
#[path = "{source}/status.rs"]
pub mod status;
#[path = "{source}/ivp.rs"]
pub mod ivp;
pub mod matrix {{
    #[path = "{source}/matrix/base.rs"]
    mod base;
    #[path = "{source}/matrix/index.rs"]
    mod index;
    #[path = "{source}/matrix/linear.rs"]
    mod linear;
    #[path = "{source}/matrix/lu.rs"]
    mod lu;
    pub use base::*;
    pub use linear::*;
    pub use lu::*;
}}
#[path = "{tests}/solout.rs"]
pub mod solout;
pub mod solve {{
    pub mod event {{
        #[derive(Default)]
        pub struct EventConfig;
    }}
}}
pub mod methods {{
    mod radau {{
{radau}
    }}
    pub use radau::RADAU;
{methods}
}}
"""


def library(folder):
    """The Rust's text as a crate `ivp`."""
    source = (folder / "src").resolve()
    radau = rust_solve.edited("radau.rs", (source / "methods" / "radau.rs").read_text(), rust_solve.SHIMS)
    methods = rust_solve.after_modules((source / "methods" / "mod.rs").read_text())
    TARGET.mkdir(parents=True, exist_ok=True)
    root = TARGET / "ivp.rs"
    root.write_text(LIBRARY.format(source=source, tests=ROOT / "tests" / "support", radau=inner(radau),
                                   methods=methods))
    said(["rustc", "--edition", "2021", "-O", "--crate-type", "rlib", "--crate-name", "ivp", root, "--out-dir", TARGET])
    return TARGET / "libivp.rlib"


def inner(text):
    """A file's text as that of a module within another: without what is said of the file as a whole."""
    return "\n".join(line for line in text.split("\n") if not line.startswith(("#![", "//!")))


def before_the_move():
    """The program of rust/examples/moved.rs with each diff of the README taken back."""
    program = EXAMPLE.read_text()
    for block in re.findall(r"```diff\n(.*?)```", (CRATE / "README.md").read_text(), re.DOTALL):
        old, new = ("".join(line[1:] + "\n" for line in block.splitlines() if line[0] != sign) for sign in "+-")
        insist(program.count(new) == 1, f"the example has not these lines of the README:\n{new}")
        program = program.replace(new, old)
    return program


def check_move(folder, linked):
    file = TARGET / "before.rs"
    ivp = library(folder)
    file.write_text(before_the_move())
    said(["rustc", "--edition", "2021", "-O", file, "--extern", f"ivp={ivp}", "-o", TARGET / "before"])
    before, after = said([TARGET / "before"]), cargo(["run", "--example", "moved"], linked)
    insist(before == after, f"before its move the program prints\n  {before}and after it\n  {after}")
    insist(f"`{after.strip()}`" in (CRATE / "README.md").read_text(),
           f"the README shows other words than the program's: {after}")
    print(f"a program prints the same before and after its move from ivp: {after}", end="")


def main(words):
    name, folder = command.act(__doc__, words, ("check", "run"))
    folder = rust_text.find(folder)
    linked = archive(name) if c_program.has("cargo", "the crate in rust/ is NOT tried") else None
    if not linked:
        command.nothing_compared("the crate in rust/ is not tried")
    check_crate(linked)
    rust_text.compared(folder)
    check_move(folder, linked)


if __name__ == "__main__":
    main(sys.argv[1:])
