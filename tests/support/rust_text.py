"""Where the Rust's text is: the folder that holds src/methods/radau.rs of the repository ivp, commit 6c3b952129.

A script that needs it calls `find` with its own argument, or None. Then the environment's IVP_SOURCE is taken, else
docs/src, else ../shared/docs/src, seen from the repository's root. A folder that was asked for and is not there is an
error; where nothing was asked for and neither usual folder is there, `find` says so plainly and gives None; the
script compares what it can without the text, and then calls `compared`, which ends it with status 4."""

import os
import pathlib
import shutil
import sys

sys.path[:0] = [str(each) for each in pathlib.Path(__file__).resolve().parents[1].iterdir() if each.is_dir()]
import command

ROOT = pathlib.Path(__file__).resolve().parents[2]
COMMIT = "6c3b952129"
USUAL = (ROOT / "docs" / "src", ROOT.parent / "shared" / "docs" / "src")


def holds_text(folder):
    return (folder / "src" / "methods" / "radau.rs").is_file()


def find(given):
    asked = given or os.environ.get("IVP_SOURCE")
    if asked:
        folder = pathlib.Path(asked)
        if not holds_text(folder):
            sys.exit(f"the Rust's text was asked for in {asked}, and is not there")
        return folder
    for folder in USUAL:
        if holds_text(folder):
            return folder
    print("the Rust's text is neither in docs/src nor in ../shared/docs/src")
    return None


def compared(folder, compiled=True):
    """Ends a script that compared nothing with the Rust: its text was not found, or can't be compiled."""
    if not folder:
        command.nothing_compared(f"set IVP_SOURCE to commit {COMMIT} of ivp")
    if compiled and not shutil.which("rustc"):
        command.nothing_compared("there is no rustc, which compiles the Rust's text")
