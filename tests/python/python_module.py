#!/usr/bin/env python3
"""The module of python/ beside the header, the programs in C and the Rust's runs.

    tests/python/python_module.py write         write python/elchepur/_numbers.py from include/elchepur.h
    tests/python/python_module.py check   on the archive, where it is proved and was not edited since; else on its very
                                         sources, compiled by rustc
    tests/python/python_module.py run           on the archive; what is not proved yet is proved first

What is missing (rt, rustc, a compiler of C) is said plainly, and what needs it is passed over. A FOLDER may follow, as
for the other scripts; it is not looked at.

Exit status: 0 nothing differs; 1 something does; 2 wrong use.

  - The numbers, parts and declarations of the module are those of the header, and so are its words for refusals.
  - Every sheet of crates/replay_sheet/stdin through `forecast` has the stored answer, and raises unless it succeeded;
    through `Sheet` it comes back byte for byte.
  - Every one that is well formed through `solve`, with differences and with a Jacobian of the caller's own, has what
    tests/c/c_program.c prints of it, and so have seven points between the ends, by dense output.
  - The stored runs of the Rust's own `solve` (crates/replay_run/stdin), with every setting and every answer of a
    report: the Rust's calls in their order, each at its x, and its end.
  - tests/python/python_cases.py: how calls fail, what comes through, what is taken for a library; and the README's
    program."""

import importlib
import math
import re
import struct
import sys
import warnings

import pathlib
sys.path[:0] = [str(each) for each in pathlib.Path(__file__).resolve().parents[1].iterdir() if each.is_dir()]
import c_program
import command
import rust_text
import replay_sheet

ROOT = rust_text.ROOT
FOLDER = ROOT / "python"
NUMBERS = FOLDER / "elchepur" / "_numbers.py"
TARGET = ROOT / "target" / "python"
POINTS = 7
NAN = 0x7FF8000000000000


def insist(fact, words):
    """Stop where something that is to hold does not."""
    if not fact:
        sys.exit(f"python_module: {words}")


# --- The header as Python ------------------------------------------------------------------------


def refusals():
    """The header's words for each number that refuses, from the comments of its first table."""
    rows = re.findall(r"ELCHEPUR_REFUSED_\w+ = (\d+),?\s+/\* (.*?) \*/", c_program.HEADER.read_text())
    return {int(number): words for number, words in rows}


def parts():
    """Each part with its type, and how many times n and n n it has entries, as the header's macro hands them over."""
    text = c_program.HEADER.read_text()
    macro = re.search(r"#define ELCHEPUR_PARTS\(m\)(.*?)\n\n", text, re.DOTALL).group(1).replace("\\", " ")
    struct_text = re.search(r"struct elchepur_memory \{(.*?)\};", text, re.DOTALL).group(1)
    declared = re.findall(r"(\w+) (\*[^;]*);", struct_text)
    types = {name: kind for kind, names in declared for name in re.findall(r"\w+", names)}
    lengths = {"(m).n": (1, 0), "4 * (m).n": (4, 0), "(m).n * (m).n": (0, 1)}
    words = [" ".join(word.split()) for word in macro.split(",")]
    pairs = [(part.removeprefix("(m)."), length) for part, length in zip(words[::2], words[1::2])]
    insist(pairs and {name for name, _ in pairs} == set(types), "the macro of the parts and their struct differ")
    return [(name, types[name], *lengths[length]) for name, length in pairs]


def functions():
    """Each function's result and parameters in the types of C, an array as a pointer."""
    found = {}
    for name, words in c_program.declarations().items():
        result, parameters = re.fullmatch(r"(\w+) \w+\((.*)\)", words).groups()
        kinds = [re.fullmatch(r"((?:const )?\w+) (\*?)\w+(\[\d+\])?", word).groups() for word in parameters.split(", ")]
        found[name] = (result, *(kind + (" *" if star or array else "") for kind, star, array in kinds))
    return found


def wrapped(words):
    """Words one after the other, in lines that are short enough."""
    lines = [""]
    for word in words:
        if len(lines[-1]) + len(word) > 110:
            lines.append("")
        lines[-1] += f" {word}" if lines[-1] else word
    return "".join(f"        {line}\n" for line in lines)


TEXT = '''"""The numbers, parts and functions of include/elchepur.h.

Written by tests/python/python_module.py, not by hand."""

{numbers}
# The header's words for each number that refuses.
REFUSALS = {{
{refusals}}}

# The parts in the order of a call, with their types: how many times n and how many times n n entries.
PARTS = (
{parts})

# What each function gives and takes; an array and a slice are pointers.
FUNCTIONS = {{
{functions}}}
'''


def numbers_text():
    """The module's table, as the header has it."""
    numbers = {name: number for name, number in c_program.header_text()[1].items() if "_COEFFICIENT_" not in name}
    listed = {name: wrapped([f'"{kind}",' for kind in kinds]) for name, kinds in functions().items()}
    return TEXT.format(
        numbers="".join(f"{name.removeprefix('ELCHEPUR_')} = {number}\n" for name, number in numbers.items()),
        refusals="".join(f'    {number}: "{words}",\n' for number, words in refusals().items()),
        parts="".join(f'    ("{name}", "{kind}", {one}, {two}),\n' for name, kind, one, two in parts()),
        functions="".join(f'    "{name}": (\n{kinds}    ),\n' for name, kinds in listed.items()),
    )


def check_numbers():
    words = f"{NUMBERS.name} is not the header's; tests/python/python_module.py write makes it anew"
    insist(NUMBERS.read_text() == numbers_text(), words)
    counts = f"{len(functions())} functions, {len(parts())} parts and {len(refusals())} refusals"
    print(f"the module in python/ has the header's {counts}")


# --- The library ---------------------------------------------------------------------------------


def shared(linked):
    """The shared library of what programs in C are linked with."""
    TARGET.mkdir(parents=True, exist_ok=True)
    made = TARGET / "libelchepur.so"
    c_program.said([FOLDER / "library", made, *linked])
    return made


def loaded(linked):
    """The module with its library; whether that carries the kit's mark is as it must be."""
    sys.path.insert(0, str(FOLDER))
    module = importlib.import_module("elchepur")
    made, proved = shared(linked), linked == [c_program.ARCHIVE]
    insist(module.load(made, unproved=not proved).mark or not proved, "the proved library has no mark")
    return module


# --- Sheets --------------------------------------------------------------------------------------


def bits(number):
    return NAN if number != number else struct.unpack("<Q", struct.pack("<d", number))[0]


def double(word):
    return struct.unpack("<d", struct.pack("<Q", word))[0]


def hexes(numbers):
    return "".join(f" {bits(number):016x}" for number in numbers)


def told(found, amounts):
    """A forecast or a result as `decay` prints it."""
    if found.refused is not None:
        return f"refused {found.refused}\n"
    text = f"status {found.status} accepted {found.accepted} rejected {found.rejected} total {found.total}"
    ends = hexes([found.smallest, found.largest])
    return f"{text} ode {found.nfev} jac {found.njev} lu {found.nlu}\nx{hexes([found.x])}\ny{hexes(amounts)}\nh{ends}\n"


def check_forecasts(module, records):
    raised = 0
    for data, answer in records:
        found = module.forecast(data, check=False)
        insist(found.printed.decode() == answer, f"a forecast is\n{found.printed.decode()}and is to be\n{answer}")
        if found.refused is None:
            insist(told(found, found.y) == answer, "a forecast is read otherwise than it is printed")
        insist(found.success == answer.startswith("status 0 "), f"a forecast has success {found.success}:\n{answer}")
        try:
            insist(module.forecast(data).printed == found.printed, "a forecast differs from itself")
        except (module.Refused, module.BrokenOff) as error:
            raised += 1
            insist(not found.success and str(error) == found.message, f"a forecast raises {error!r}:\n{answer}")
        else:
            insist(found.success, f"a forecast does not raise:\n{answer}")
    print(f"{len(records)} sheets have the stored answers through forecast(), which raises for {raised} of them")


def check_sheets(module, records):
    """Every stored sheet through its model and back; what is none is refused as it is printed."""
    back = 0
    for data, answer in records:
        try:
            insist(module.Sheet.read(data).write() == data, f"a sheet is not written back:\n{data!r}")
            back += 1
            insist(not answer.startswith(("refused 20", "refused 21")), f"what is no sheet is read:\n{data!r}")
        except module.Refused as error:
            told = f"refused {error.number}" + (f" {error.line}" if error.line else "") + "\n"
            insist(told == answer, f"a sheet is refused by {told} and is to be by {answer}")
    print(f"{back} of them come back byte for byte through Sheet, and the others are refused as they are printed")


class Model:
    """A sheet that is well formed, as tests/c/c_program.c reads it."""

    def __init__(self, data):
        words = iter(data.decode().split())
        next(words)
        self.x0, self.xend, self.rtol, self.atol = (double(int(next(words), 16)) for _ in range(4))
        self.max_steps, self.rule, count = (int(next(words)) for _ in range(3))
        self.y0 = [double(int(next(words), 16)) for _ in range(count)]
        self.reactions = []
        for _ in range(int(next(words))):
            rate = double(int(next(words), 16))
            self.reactions.append((rate, [int(next(words)) for _ in range(4)]))

    def derivative(self, x, y):
        found = [0.0] * len(y)
        for rate, species in self.reactions:
            v = rate
            for place in filter(None, species[:2]):
                v *= y[place - 1]
            for place in filter(None, species[:2]):
                found[place - 1] -= v
            for place in filter(None, species[2:]):
                found[place - 1] += v
        return found

    def jacobian(self, x, y):
        here, columns = self.derivative(x, y), []
        for column in range(len(y)):
            moved = list(y)
            moved[column] += 2.0**-20
            columns.append([(there - at) * 2.0**20 for there, at in zip(self.derivative(x, moved), here)])
        return list(map(list, zip(*columns)))

    def points(self):
        """So many between the ends, or none where these are too close for that, or too far apart."""
        step = (self.xend - self.x0) / (POINTS + 1)
        apart = math.isfinite(step) and self.x0 + step != self.x0
        return [self.x0 + step * (k + 1) for k in range(POINTS)] if apart else []

    def printed(self, module, way):
        """What tests/c/c_program.c prints of it."""
        last, jac = [self.y0], self.jacobian if way == "host" else None

        def report(xold, x, y, step):
            last[0] = y

        found = module.solve(
            self.derivative, (self.x0, self.xend), self.y0, jac=jac, t_eval=self.points(), report=report,
            rtol=self.rtol, atol=self.atol, rule=["rust", "book"][self.rule], max_steps=self.max_steps, check=False,
        )
        at = "".join(f"at{hexes([t, *amounts])}\n" for t, amounts in zip(found.t, zip(*found.y)))
        return at + told(found, last[0])


def check_models(module, records):
    warnings.simplefilter("ignore", module.ShortenedStep)
    models = [(data, Model(data)) for data, answer in records if not answer.startswith(("refused 20", "refused 21"))]
    for way in ("differences", "host"):
        sheets = "".join(data.decode() for data, _ in models)
        wanted = c_program.said([c_program.TARGET / "c_program", way, POINTS], input=sheets)
        got = "".join(model.printed(module, way) for _, model in models)
        insist(got == wanted, f"solve(), {way}: {c_program.first_other(wanted, got)}")
        words = "a Jacobian of the caller's own" if way == "host" else "differences"
        within = f"{got.count('at ')} points within steps too"
        print(f"{len(models)} models through solve(), with {words}, have the bits of the program in C, {within}")


# --- The Rust's runs -----------------------------------------------------------------------------

# What a Result says of a singular matrix, by the numbers of a stored run.
SINGULARS = ("none", "real", "complex")
GIVEN = ("max_step", "min_step", "newton_tol", "first_step", "nind1", "nind2", "nind3")
PREDICTIVE, DENSE_OUTPUT, FULL, HOST, BOOK, LISTS = range(7, 13)
FLOATS = ("uround", "safety_factor", "scale_min", "scale_max", "max_step", "min_step", "newton_tol", "first_step")


class Replay:
    """A stored run, laid out as tests/replays/replay_run.py says, whose replies are given by the callbacks."""

    def __init__(self, module, words):
        self.module, self.words, self.requests = module, words, 0
        self.n, self.x0, self.xend, self.choices = self.word(), self.double(), self.double(), self.word()
        settings = {"predictive": self.has(PREDICTIVE), "max_steps": self.word(), "newton_maxiter": self.word()}
        settings |= {name: self.double() for name in FLOATS}
        self.rtol, self.atol = self.double(), self.double()
        settings |= {name: self.word() for name in GIVEN[4:]}
        self.left = self.word()
        absent = {name for place, name in enumerate(GIVEN) if not self.has(place)}
        self.settings = {name: value for name, value in settings.items() if name not in absent}
        self.y0 = self.doubles(self.n)
        self.mass = self.rows() if self.has(FULL) else None
        if self.has(LISTS):
            self.rtol, self.atol = self.doubles(self.n), self.doubles(self.n)

    def word(self):
        return int(next(self.words), 16)

    def double(self):
        return double(self.word())

    def doubles(self, count):
        return [self.double() for _ in range(count)]

    def rows(self):
        return [self.doubles(self.n) for _ in range(self.n)]

    def has(self, choice):
        return bool(self.choices >> choice & 1)

    def met(self, kind, *points):
        """The head of the next request, which must be of this kind and at these points. The hash of all parts, which is
        behind it, can't be had of a run in Python."""
        head, _ = self.word(), self.word()
        self.requests += 1
        insist(head >> 12 == kind, f"a request of kind {kind} in the place of {head >> 12}")
        for point in points:
            insist(bits(point) == self.word(), f"a request of kind {kind} at {point}")
        return head

    def derivative(self, x, y):
        self.met(1, x)
        return self.doubles(self.n)

    def jacobian(self, x, y):
        self.met(2, x)
        return self.rows()

    def report(self, xold, x, y, step):
        head = self.met(3, xold, x)
        insist((step is not None) == bool(head >> 4 & 15), "whether a report offers a step is otherwise in the Rust")
        replies = {
            2: lambda: None,
            3: lambda: self.module.INTERRUPT,
            4: lambda: self.module.Modified(self.double(), self.doubles(self.n)),
            5: lambda: self.module.Mark(self.double()),
        }
        return replies[head & 15]()

    def run(self):
        found = self.module.solve(
            self.derivative, (self.x0, self.xend), self.y0, jac=self.jacobian if self.has(HOST) else None,
            dense_output=self.has(DENSE_OUTPUT), report=self.report, rtol=self.rtol, atol=self.atol,
            rule="book" if self.has(BOOK) else "rust", mass=self.mass, check=False, **self.settings,
        )
        head = self.met(4)
        insist(self.requests == self.left, f"{self.requests} requests and not {self.left}")
        insist(found.status == head >> 4 & 15, f"status {found.status}")
        counts = [found.nfev, found.njev, found.nlu, found.total, found.accepted, found.rejected]
        insist((found.singular is None) == (found.status != 5), f"status {found.status} blames {found.singular}")
        blame = [SINGULARS.index(found.singular or "none"), found.column or 0]
        strides = [bits(found.smallest), bits(found.largest)]
        wanted = [self.word() for _ in range(12)]
        insist([bits(found.h), bits(found.x), *counts, *blame, *strides] == wanted, "a run ends otherwise")
        return self.requests


def check_runs(module):
    words, runs, requests = iter((ROOT / "crates" / "replay_run" / "stdin").read_text().split()), 0, 0
    while True:
        try:
            replay = Replay(module, words)
        except StopIteration:
            break
        runs, requests = runs + 1, requests + replay.run()
    print(f"{runs} runs of the Rust with {requests} requests agree through solve()")


# --- All of it -----------------------------------------------------------------------------------


def main(words):
    act, _ = command.act(__doc__, words, ("write", "check", "run"))
    if act == "write":
        NUMBERS.write_text(numbers_text())
        return
    check_numbers()
    linked = c_program.library(act)
    if not linked:
        return
    c_program.build_program("c_program", linked)
    module = loaded(linked)
    records = replay_sheet.records_of(replay_sheet.STORED.read_bytes())
    check_forecasts(module, records)
    check_sheets(module, records)
    check_models(module, records)
    check_runs(module)
    importlib.import_module("python_cases").check(module, TARGET / "libelchepur.so")


if __name__ == "__main__":
    main(sys.argv[1:])
