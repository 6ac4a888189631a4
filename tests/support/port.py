"""The Rattle sources as Rust: Rattle's syntax is Rust's, so with the contracts taken out rustc compiles the very code
that is proved. For tests that hold it beside the Rust's.

The branches of the solver are counted: each outcome of an `if` and each arm of a `match` of crates/radau_core,
under the names that `build` gives."""

import fcntl
import hashlib
import re
import subprocess
import sys

import pathlib
sys.path[:0] = [str(each) for each in pathlib.Path(__file__).resolve().parents[1].iterdir() if each.is_dir()]
import rust_text

TARGET = rust_text.ROOT / "target" / "rust" / "port"

# each crate after those that it leans on
CRATES = {
    "words": [],
    "bits": ["words"],
    "scalar": ["words"],
    "dense": ["words", "scalar"],
    "shelf": ["words", "scalar", "dense"],
    "export_shelf": ["words", "scalar", "dense", "shelf"],
    "state": ["words"],
    "matrix": ["words", "scalar", "state"],
    "opening": ["words", "scalar", "state"],
    "solve_blocks": ["words", "scalar", "matrix", "state", "opening"],
    "radau_core": ["words", "scalar", "matrix", "state", "opening", "solve_blocks"],
    "radau": ["words", "state", "opening", "solve_blocks", "radau_core"],
    "export": ["words", "scalar", "matrix", "dense", "state", "opening", "solve_blocks", "radau_core"],
    "model": ["words", "state"],
    "sheet": ["words", "bits", "state"],
    "forecast_text": ["words", "bits", "state", "sheet"],
    "sheet_write": ["words", "bits", "state", "sheet", "forecast_text"],
    "export_sheet": ["words", "bits", "state", "sheet", "forecast_text", "sheet_write"],
    "night_totals": ["words", "bits", "state", "sheet", "forecast_text"],
    "night_join": ["words", "night_totals"],
    "export_totals": ["words", "sheet", "forecast_text", "night_totals", "night_join"],
    "model_run": ["words", "scalar", "matrix", "state", "opening", "solve_blocks", "model", "radau_core"],
    "forecast": ["words", "bits", "state", "sheet", "forecast_text", "model_run"],
    "export_forecast": ["words", "sheet", "forecast_text", "forecast"],
    "csv_table": ["words", "bits", "state", "sheet", "forecast_text"],
    "export_csv": ["words", "csv_table"],
}


def stripped(text):
    """Without `ghost use`, `requires` and `ensures`, and attributes for the prover, each up to its last bracket, and
    without the form for C, in which rustc passes slices otherwise than Rattle; types get what the tests here ask of
    them, and sums that wrap the name that they have in Rust."""
    text = re.sub(r"use std::num::wrapping_add_\w+;\n", "", text)
    # how a proof sees a type
    text = re.sub(r"use std::marker::Model;\n|^impl(?:<[^>]*>)? Model for .*?^}\n", "", text, flags=re.S | re.M)
    text = re.sub(r"(?:std::num::)?wrapping_add_(\w+)\(", r"\1::wrapping_add(", text)
    lines, depth, clause = [], 0, False
    for line in text.replace('#[unsafe(no_mangle)]\npub extern "C" fn', "pub fn").split("\n"):
        word = re.match(r"\s*(?:(ghost|requires|ensures)\b|#!?\[(tactic|derive)\b)?", line)
        if depth or word.group(1) or word.group(2):
            clause = clause if depth else word.group(1) in ("requires", "ensures")
            depth += sum(line.count(opens) for opens in "{[(") - sum(line.count(closes) for closes in "}])")
            # a trait's method ends with its last clause
            lines += [";"] if clause and not depth and line.endswith(";") else []
            continue
        kind = re.match(r"(\s*)(pub )?(struct|enum) ", line)
        # what borrows is not copied
        if kind and "<'" not in line:
            lines.append(kind.group(1) + "#[derive(Clone, Copy, Debug, PartialEq)]")
        lines.append(line)
    return "\n".join(lines)


# The crate whose branches are counted, and what counts them there.
COUNTED = "radau_core"
COUNTER = """
pub mod taken {
    use std::sync::atomic::{AtomicU64, Ordering::Relaxed};
    pub static TAKEN: [AtomicU64; ROOM] = [const { AtomicU64::new(0) }; ROOM];
    pub fn arm(k: usize) {
        TAKEN[k].fetch_add(1, Relaxed);
    }
    pub fn test(k: usize, holds: bool) -> bool {
        arm(if holds { k } else { k + 1 });
        holds
    }
}
"""


def unlike(names, name):
    """The name, told apart from those that are there."""
    return name if name not in names else unlike(names, name + ", again")


def counting(text, file, names):
    """The text with its branches counted; their names, the file and the line's own words, are added to `names`."""
    lines, arms = [], []
    for line in text.split("\n"):
        indent = len(line) - len(line.lstrip())
        test = re.fullmatch(r"(.*\bif )(.*)( \{)", line)
        held = re.fullmatch(r"\s*if let (.*) = (\w+) \{", line)
        arm = re.fullmatch(r"(\s*(?:[A-Z]\w*(?:(?:::|\().*)?|\d+|_) => )(.*)", line)
        if held:
            line = f"crate::taken::test({len(names)}, matches!({held.group(2)}, {held.group(1)}));\n{line}"
            names += [unlike(names, f"{file}: if let {held.group(1)}: {outcome}") for outcome in ("yes", "no")]
        elif test:
            line = f"{test.group(1)}crate::taken::test({len(names)}, {test.group(2)}){test.group(3)}"
            names += [unlike(names, f"{file}: if {test.group(2)}: {outcome}") for outcome in ("yes", "no")]
        elif arm:
            whole = arm.group(2).endswith((",", "}"))
            line = f"{arm.group(1)}{{ crate::taken::arm({len(names)}); {arm.group(2).rstrip(',')}" + (" }" if whole
                else "")
            names.append(unlike(names, f"{file}: {arm.group(1).strip()[:-3]}"))
            if not whole:
                arms.append(indent)
        elif arms and indent == arms[-1] and line.strip() in ("}", "},", "),", "}),"):
            line = line.rstrip(",") + " }"
            arms.pop()
        lines.append(line)
    return "\n".join(lines)


def linked(libraries, names):
    """The words by which rustc takes these crates."""
    return ["-L", str(libraries)] + [word for name in names
                                     for word in ("--extern", f"{name}={libraries}/lib{name}.rlib")]


def texts_of(name, names):
    """The files of a crate as Rust; where its branches are counted, their names are added to `names`."""
    texts = {}
    for file in sorted((rust_text.ROOT / "crates" / name / "src").glob("*.rt")):
        text = stripped(file.read_text())
        texts[f"{file.stem}.rs"] = counting(text, file.stem, names) if name == COUNTED else text
    counter = COUNTER.replace("ROOM", str(len(names))) if name == COUNTED else ""
    texts["lib.rs"] = "#![allow(warnings)]\n" + texts["lib.rs"] + counter
    return texts


def compile_crate(name, texts, key):
    """Compiles a crate, overflow and bounds checked, unless it stands there with this key already."""
    folder = TARGET / name
    kept = folder / "key"
    if kept.is_file() and kept.read_text() == key:
        return
    folder.mkdir(parents=True, exist_ok=True)
    for file, text in texts.items():
        (folder / file).write_text(text)
    run = ["rustc", "--edition", "2021", "-O", "-C", "debug-assertions=on", "--crate-type", "rlib", "--crate-name",
           name]
    run += [str(folder / "lib.rs"), "--out-dir", str(TARGET), *linked(TARGET, CRATES[name])]
    done = subprocess.run(run, capture_output=True, text=True)
    if done.returncode:
        sys.exit(f"port: rustc does not take {name}:\n{done.stderr[:4000]}")
    kept.write_text(key)


def build():
    """Compiles the crates. Gives the folder of the libraries, and the names of the branches that are counted."""
    version = subprocess.run(["rustc", "--version"], capture_output=True, text=True).stdout
    names, keys = [], {}
    TARGET.mkdir(parents=True, exist_ok=True)
    with open(TARGET / "lock", "w") as lock:
        fcntl.flock(lock, fcntl.LOCK_EX)  # tests/run asks for them from two sides: one compiles, the other waits
        for name, leans_on in CRATES.items():
            texts = texts_of(name, names)
            keys[name] = hashlib.sha256(repr((version, texts,
                                              [keys[lower] for lower in leans_on])).encode()).hexdigest()
            compile_crate(name, texts, keys[name])
    return TARGET, names
