#!/usr/bin/env python3
"""Sees that no line of the repository is wider than 120 characters.

    tests/repository/width.py        complain where a line is; first the rule is tried on lines of its own

What is stored and not read by people is passed over: pictures, what programs are run on and write (crates/*/stdin,
stdout, data), sheets, rows. A line may stand out where it can't be broken: one with an address of the web, a row of a
table whose cells are numbers, a row of crates.txt, and what a must-fail edit takes for the other.

Exit status: 0 none is; 1 some are; 2 wrong use."""

import pathlib
import re
import subprocess
import sys

sys.path[:0] = [str(each) for each in pathlib.Path(__file__).resolve().parents[1].iterdir() if each.is_dir()]
import command
import rust_text

ROOT = rust_text.ROOT
MOST = 120
STORED = re.compile(r"crates/\w+/(stdin|stdout|data/.*)|.*\.(svg|sheet|tsv)")
UNBROKEN = {"crates.txt": re.compile(r"\w+( staticlib)?:.*"), ".edit": re.compile(r"(old|new): .*")}
NUMBERS = re.compile(r"\|(?:[-+.,:%\s\d]*\|)+")
ADDRESS = re.compile(r"https?://\S+")


def stands_out(line, unbroken=None):
    """A line that is wider, and could be broken."""
    kept = ADDRESS.search(line) or NUMBERS.fullmatch(line.strip()) or unbroken and unbroken.fullmatch(line)
    return len(line) > MOST and not kept


def tried():
    """The rule on lines that it must tell apart."""
    wide = "word " * 25
    assert stands_out(wide) and stands_out("≡" * 121) and stands_out("| a " * 40 + "|")
    assert stands_out("# " + wide, UNBROKEN["crates.txt"]) and not stands_out("old: " + wide, UNBROKEN[".edit"])
    assert not stands_out("≡" * 120) and not stands_out("| 1.5 " * 30 + "|") and not stands_out(wide + "https://a.b")


def wide_lines():
    """The lines that stand out, with their places."""
    listed = subprocess.run(["git", "ls-files", "-z"], cwd=ROOT, capture_output=True, check=True).stdout.decode()
    for name in filter(None, listed.split("\0")):
        if STORED.fullmatch(name) or not (ROOT / name).is_file():
            continue
        unbroken = UNBROKEN.get(name) or UNBROKEN.get(pathlib.Path(name).suffix)
        for number, line in enumerate((ROOT / name).read_text().splitlines(), 1):
            if stands_out(line, unbroken):
                yield f"{name}:{number}: {len(line)} characters"


def main():
    command.nothing(__doc__, sys.argv[1:])
    tried()
    found = list(wide_lines())
    print("\n".join(found) if found else f"no line is wider than {MOST} characters")
    sys.exit(1 if found else 0)


if __name__ == "__main__":
    main()
