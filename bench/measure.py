"""What the benches share: calling a program, callgrind, our archive."""

import os
import pathlib
import re
import subprocess
import sys

HERE = pathlib.Path(__file__).resolve().parent
ROOT = HERE.parent
sys.path[:0] = [str(ROOT / "compare" / "beside"), *(str(each) for each in (ROOT / "tests").iterdir())]

import rust_crate  # noqa: E402


def ran(words, **more):
    done = subprocess.run([str(word) for word in words], capture_output=True, text=True, cwd=ROOT, **more)
    if done.returncode != 0:
        sys.exit(f"{words[0]} failed:\n{done.stdout[-2000:]}{done.stderr[-2000:]}")
    return done


def said(words):
    return ran(words).stdout


def instructions(words):
    """Those of the whole program."""
    # Bound at once, so that no first call is charged with the search for a function of C's.
    bound = {**os.environ, "LD_BIND_NOW": "1"}
    count = ["valgrind", "--tool=callgrind", "--callgrind-out-file=/dev/null"]
    return int(re.search(r"Collected *: *(\d+)", ran(count + words, env=bound).stderr).group(1))


def archive(given, crate="export"):
    """Our archive of a crate for the processor at hand: that which is given, else it is made, and what is not proved
    yet is proved first."""
    made = pathlib.Path(given or rust_crate.TARGET / f"lib{crate}.a").resolve()
    if not given:
        ran([ROOT / "tools" / "archive", made, crate])
    return made
