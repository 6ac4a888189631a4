"""The functions that the crates `export`, `export_forecast`, `export_sheet`, `export_totals`, `export_shelf` and
`export_csv` mark `extern "C"`, as their sources declare them."""

import re
import sys

import pathlib
sys.path[:0] = [str(each) for each in pathlib.Path(__file__).resolve().parents[1].iterdir() if each.is_dir()]
import rust_text

# The crates that offer functions to C.
CRATES = ("export", "export_forecast", "export_sheet", "export_totals", "export_shelf", "export_csv")
MARKED = re.compile(r'#\[unsafe\(no_mangle\)\]\npub extern "C" fn (\w+)\(([^)]*)\)(?: -> (\w+))?\n')
TYPE = re.compile(r"(&mut |&|)(\[)?(\w+)(?:; (\d+))?\]?")
# The places of a state, and how many there are of each sort.
PLACES = rust_text.ROOT / "crates" / "radau_core" / "src" / "places.rt"


def insist(fact, words):
    if not fact:
        sys.exit(f"exported: {words}")


def places():
    """Each constant of the table of places, by its name."""
    found = re.findall(r"^pub const (\w+): usize = (\d+);", PLACES.read_text(), re.M)
    return {name: int(place) for name, place in found}


def numbered(parameters):
    """With lengths as numbers, where they stand by name."""
    return re.sub(r"; ([A-Z]\w*)\]", lambda length: f"; {places()[length.group(1)]}]", parameters)


def exported(crate="export"):
    """Of each function of a crate its file, its parameters as pairs, and its result."""
    found = {}
    for file in sorted((rust_text.ROOT / "crates" / crate / "src").glob("*.rt")):
        text = file.read_text()
        marked = MARKED.findall(text)
        insist(len(marked) == text.count('extern "C"') == text.count("no_mangle"),
               f"{file.name} exports a function in a form that is not expected")
        for name, parameters, result in marked:
            pairs = [tuple(pair.strip().split(": ", 1)) for pair in re.split(r",(?![^\[]*\])", numbered(parameters))
                     if pair.strip()]
            found[name] = (file.stem, pairs, result)
    return found


def parameter_of(kind):
    """A type taken apart: how it is lent, whether it is a slice, what of, and an array's length."""
    shape = TYPE.fullmatch(kind)
    insist(shape, f"a parameter has the type {kind}")
    lent, opens, item, count = shape.groups()
    return lent, bool(opens and not count), item, count
