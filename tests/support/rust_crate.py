"""A Rust program around the Rust's own files: what is ours is a crate root that takes them where they stand, unchanged
but for lu.rs, which also tells where an elimination stops (tests/support/rust_stops.py).

The crate root, written below target/, has `Float`, `error`, `dense` and the four files of `matrix` as modules by their
paths, and `stopped`, by which lu.rs tells. Of radau.rs, which leans on crates that are not here, it has the text of
`interpolate` alone, with the two constants that it names, in a module `radau`. A program of ours is its module
`program`, whose function `run` is the main function."""

import pathlib
import re
import shutil
import subprocess
import sys

sys.path[:0] = [str(each) for each in pathlib.Path(__file__).resolve().parents[1].iterdir() if each.is_dir()]
import rust_stops
import rust_text

TARGET = rust_text.ROOT / "target" / "rust"

ROOT_TEXT = """// Made by tests/support/rust_crate.py. Not to be stored.
#![allow(dead_code)]
pub type Float = f64;
#[path = "{source}/error.rs"]
mod error;
#[path = "{source}/dense.rs"]
mod dense;
mod matrix {{
    #[path = "{source}/matrix/base.rs"]
    pub mod base;
    #[path = "{source}/matrix/index.rs"]
    pub mod index;
    #[path = "{source}/matrix/linear.rs"]
    pub mod linear;
    #[path = "{lu}"]
    pub mod lu;
}}
mod radau {{
    use crate::Float;
{interpolate}
}}
#[path = "{stopped}"]
mod stopped;
#[path = "{program}"]
mod program;
fn main() {{
    program::run();
}}
"""


def compiler():
    """The Rust compiler, or None, said plainly."""
    found = shutil.which("rustc")
    if not found:
        print("there is no rustc")
    return found


def interpolate_text(folder):
    """The lines of `interpolate` of radau.rs, and of the constants that they name."""
    text = (folder / "src" / "methods" / "radau.rs").read_text()
    body = re.search(r"^    pub fn interpolate\(.*?^    }$", text, re.MULTILINE | re.DOTALL)
    if not body:
        sys.exit("radau.rs has no `interpolate`")
    constants = re.findall(r"^const (?:C1M1|C2M1): Float = .*;$", text, re.MULTILINE)
    if len(constants) != 2:
        sys.exit("radau.rs has other constants than expected")
    return "\n".join(constants) + "\n" + body.group(0)


def build(folder, program, words=()):
    """Compiles the program, a file of ours, around the Rust's files. Gives the executable's path."""
    program = pathlib.Path(program).resolve()
    TARGET.mkdir(parents=True, exist_ok=True)
    root = TARGET / f"{program.stem}_root.rs"
    source = (folder / "src").resolve()
    root.write_text(ROOT_TEXT.format(source=source, lu=rust_stops.write(source, TARGET), stopped=rust_stops.MODULE,
                                     program=program, interpolate=interpolate_text(folder)))
    made = TARGET / program.stem
    run = ["rustc", "--edition", "2021", "-O", "--crate-name", program.stem, str(root), "-o", str(made), *words]
    done = subprocess.run(run, capture_output=True, text=True)
    if done.returncode != 0:
        sys.exit(f"rustc does not take {program.name} with the Rust's files:\n{done.stderr}")
    return made
