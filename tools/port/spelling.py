#!/usr/bin/env python3
"""Respells the definitions and lemmas of this repository as today's Rattle spells them: words in snake case.

    tools/port/spelling.py

It was run once, after the kit's port.py and in the same commit. A word is a name of .antt that begins in lower case
and has a capital in a part between dashes, as `acceptedOf` or `placeAt-next`. It becomes `accepted_of`,
`place_at-next`, in .antt, in .rt (where only clauses and comments have such words), in must-fail edits and in pages.
A name that the kit's script had given the very same spelling gets its dashes back.

Exit status: 0 all is respelt; 2 wrong use."""

import collections
import os
import pathlib
import re
import sys

sys.path.insert(0, str(pathlib.Path(__file__).resolve().parents[2] / "tests" / "support"))
import command

WORD = r"[A-Za-z0-9_'\u0370-\u03ff\u2080-\u2089\u00b2\u00b3\u00b9-]+"
# Names of lemmas and of places in a proof that port.py turned from dashes to the spelling that a definition now takes.
DASHED = (
    "at_stage done_at ended_by fit_of goes_on kept_of no_line none_of one_more own_bits passes_on point_at room_fits "
    "told_at too_long too_many tried_of"
).split()
# A word that follows a word of the library, which the kit renamed.
SPECIAL = {"getD-map-in": "get_or-map-in"}


def snake(word):
    if word in SPECIAL:
        return SPECIAL[word]
    parts = []
    for part in word.split("-"):
        if re.match(r"[a-z]", part) and re.search(r"[A-Z]", part):
            part = re.sub(r"[A-Z]", lambda m: "_" + m[0].lower(), part)
        parts.append(part)
    return "-".join(parts)


def files(ends):
    for folder, dirs, names in os.walk("."):
        dirs[:] = sorted(d for d in dirs if d not in ("out", ".git", "target", "port"))
        for name in sorted(names):
            if name.endswith(ends):
                yield os.path.join(folder, name)


def uncommented(text):
    return re.sub(r"--.*", "", text)


def dashed(text, taken):
    """Gives the names of DASHED their dashes back, where the file has the definition of the same new spelling too."""
    for word in DASHED:
        if word in taken:
            text = re.sub(rf"(?<![\w'.-]){word}(?![\w'-])(?!\.)", word.replace("_", "-"), text)
    return text


def main():
    command.nothing(__doc__, sys.argv[1:])
    words = collections.Counter()
    for path in files((".antt",)):
        with open(path, encoding="utf-8") as f:
            words.update(re.findall(WORD, uncommented(f.read())))
    new = {word: snake(word) for word in words if snake(word) != word}
    taken = {to for to in new.values()}
    for path in files((".antt", ".rt", ".edit", ".md")):
        with open(path, encoding="utf-8", newline="") as f:
            old = f.read()
        text = dashed(old, taken) if path.endswith(".antt") else old
        text = re.sub(WORD, lambda m: new.get(m[0], m[0]), text)
        if text != old:
            with open(path, "w", encoding="utf-8", newline="") as f:
                f.write(text)
    print(f"spelling: {len(new)} words")
    return 0


if __name__ == "__main__":
    sys.exit(main())
