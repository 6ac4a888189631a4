"""How calls of the module of python/ fail, what comes through them, and what is taken for a library.

tests/python/python_module.py runs it. Where a number is expected, document 01 has it; what a run is compared with is
another run, or the solution of its equations."""

import csv
import dataclasses
import io
import itertools
import math
import os
import random
import re
import struct
import subprocess
import sys
import warnings

import pathlib
sys.path[:0] = [str(each) for each in pathlib.Path(__file__).resolve().parents[1].iterdir() if each.is_dir()]
import replay_csv
import rust_text
from draw import pattern_of

ROOT = rust_text.ROOT
FOLDER = ROOT / "python"
TARGET = ROOT / "target" / "python"
MARK = "rattle logic=" + "0123456789abcdef" * 4

seen = 0


def insist(fact, words):
    global seen
    seen += 1
    if not fact:
        sys.exit(f"python_cases: {words}")


def raised(kind, call, *words, **more):
    """What a call raises, which must be of this kind and of no kind below it."""
    try:
        found = call(*words, **more)
    except kind as error:
        insist(type(error) is kind, f"{call} raises {error!r}")
        return error
    insist(False, f"{call} gives {found!r} and is to raise {kind.__name__}")


def pair(x, y):
    """Two amounts that go over into one another; 3/7 + 4/7 exp(-3.5 x) is the first, from 1 and 2."""
    return [-3.0 * y[0] + 0.5 * y[1], 3.0 * y[0] - 0.5 * y[1]]


def first_amount(x):
    return 3.0 / 7.0 + 4.0 / 7.0 * math.exp(-3.5 * x)


def relaxation(x, y):
    """Van der Pol's equation."""
    return [y[1], ((1.0 - y[0] * y[0]) * y[1] - y[0]) * 1e6]


# --- How a call fails ----------------------------------------------------------------------------

# Each of the refusals 1 to 12, by what brings it about.
REFUSED = [
    (1, {"y0": []}),
    (1, {"y0": [1.0] * 33}),
    (1, {"y0": [1.0] * 100_000}),
    (1, {"y0": [1.0] * 33, "rtol": [1e-3]}),
    (2, {"rtol": [1e-3]}),
    (2, {"atol": [1e-3] * 3}),
    (3, {"span": (0.0, math.inf)}),
    (3, {"span": (math.nan, 1.0), "t_eval": [0.5]}),
    (3, {"y0": [1.0, math.nan]}),
    (3, {"mass": [[1.0, math.inf], [0.0, 1.0]]}),
    (3, {"max_step": math.inf}),
    (4, {"max_steps": 0}),
    (4, {"max_steps": 1_000_001}),
    (5, {"uround": 1.0}),
    (6, {"safety_factor": 1.0}),
    (7, {"scale_min": 8.0}),
    (7, {"scale_max": 0.1}),
    (8, {"newton_maxiter": 17}),
    (9, {"rtol": 0.0}),
    (9, {"rtol": 0.0, "atol": [1e-6, 1e-6]}),
    (10, {"nind1": 0}),
    (10, {"nind1": 1, "nind2": 0, "nind3": 0}),
    (10, {"nind2": 3}),
    (11, {"first_step": 0.0}),
    (12, {"max_step": -1.0}),
    (12, {"min_step": 2.0}),
]


def check_refusals(module):
    def untouched(x, y):
        insist(False, "a refused opening asks for a derivative")

    for number, given in REFUSED:
        plain = {"span": (0.0, 1.0), "y0": [1.0, 2.0]} | given
        error = raised(module.Refused, module.solve, untouched, **plain)
        insist(error.number == number and str(error).startswith(f"refused ({number}): "), f"{given}: {error}")
        found = module.solve(untouched, **plain, check=False)
        insist((found.success, found.refused, found.status) == (False, number, None), f"{given} gives {found}")
        insist(found.t == [] and found.y == [] and found.x is None, f"{given} has amounts")
    insist({number for number, _ in REFUSED} == set(range(1, 13)), "a refusal is not tried")
    error = raised(module.Refused, module.forecast, "no sheet")
    insist((error.number, error.line) == (20, 1), f"no sheet: {error}")
    insist(raised(module.Refused, module.forecast, b"").line == 1, "an empty sheet")
    whole = module.Sheet(0, 0, 0, 0, 0, 1, (0x7FF0000000000001,), ((0, 1, 0, 0, 1),))
    insist(module.Sheet.read(whole.write()) == whole, "a NaN's payload is lost")
    for wrong in ({"amounts": ()}, {"amounts": (0,) * 33}, {"reactions": ((0, 2, 0, 0, 0),)}, {"rule": 2},
                  {"max_steps": 10**10}, {"x0": -1}, {"reactions": ((0, 1, 0, 0, 1),) * 65}):
        error = raised(module.Refused, dataclasses.replace(whole, **wrong).write)
        insist(error.number == 23, f"no model: {wrong}: {error}")


LINE = b"status 5 accepted 1 rejected 2 total 3 ode 4 jac 5 lu 10000000000\n"


def check_nights(module):
    """Totals of a few lines, whatever the pieces, and what has none."""
    wanted = module.Totals(2, {0: 0, 1: 0, 2: 0, 3: 0, 5: 2, 7: 0}, 2, 4, 6, 8, 10, 20000000000, 4, 1)
    insist(module.totals(LINE * 2) == wanted, "totals of two lines")
    insist(module.totals((LINE * 2).decode()) == wanted, "totals of a text")
    night = module.Night()
    insist(night.totals() == module.Totals(0, dict.fromkeys((0, 1, 2, 3, 5, 7), 0), *[0] * 8), "totals of no lines")
    for byte in LINE * 2:
        night.feed(bytes([byte]))
    insist(night.totals() == wanted, "totals of single bytes")
    insist(night.printed().endswith(b"\nlargest 4 line 1\n"), "what is printed of them")
    night.feed(b"y")
    for lines, number, line in ((LINE + b"x", 20, 2), (LINE[:-1], 20, 1), (LINE * 65536, 26, None)):
        error = raised(module.Refused, module.totals, lines)
        insist((error.number, error.line) == (number, line), f"{lines[:70]!r}: {error}")
    insist(raised(module.Refused, night.totals).line == 3, "a byte behind two lines")
    insist(night.printed() == b"refused 20 3\n", "a refusal is printed otherwise")
    one, none = module.totals(LINE), module.totals(b"")
    insist(one.join(one) == wanted, "totals that are joined")
    insist(one.join(none) == none.join(one) == one, "totals of no lines are not neutral")
    for wrong in ({"lines": 2}, {"runs": {**one.runs, 4: 1}}, {"lu": one.lu + 1}, {"largest": 5}, {"place": 0},
                  {"place": 2}, {"ode": -1}, {"jac": 2**64}):
        other = dataclasses.replace(one, **wrong)
        for error in (raised(module.Refused, one.join, other), raised(module.Refused, other.join, one)):
            insist(error.number == 28, f"unfit totals: {wrong}: {error}")
    insist(raised(module.Refused, module.totals(LINE * 65535).join, one).number == 26, "a line too many is joined")


def check_arguments(module):
    """What Python can't hand over is no refusal of the solver's, and is not cut to fit."""
    plain = (pair, (0.0, 1.0), [1.0, 2.0])
    for kind, given in [
        (ValueError, {"max_steps": -1}),
        (ValueError, {"max_steps": 2**64 + 5}),
        (TypeError, {"max_steps": 10.5}),
        (TypeError, {"max_stepz": 10}),
        (TypeError, {"source": 1}),
        (TypeError, {"max_step_given": 1}),
        (ValueError, {"rule": "guess"}),
        (ValueError, {"mass": [[1.0]]}),
        (ValueError, {"t_eval": [0.5, 0.25]}),
        (ValueError, {"t_eval": [-0.5]}),
        (ValueError, {"t_eval": [1.5]}),
        (ValueError, {"t_eval": [math.nan]}),
        (ValueError, {"jac": lambda x, y: [[1.0, 2.0]]}),
        (TypeError, {"report": lambda xold, x, y, step: True}),
        (ValueError, {"report": lambda xold, x, y, step: module.Modified(x, y), "t_eval": [0.5]}),
        (ValueError, {"report": lambda xold, x, y, step: module.Modified(x, [1.0])}),
    ]:
        raised(kind, module.solve, *plain, **given)
    error = raised(ValueError, module.solve, lambda x, y: [0.0], (0.0, 1.0), [1.0, 2.0])
    insist(str(error) == "f gives 1 derivatives of 2 amounts", f"a short derivative: {error}")
    raised(TypeError, module.solve, lambda x, y: None, (0.0, 1.0), [1.0, 2.0])
    raised(TypeError, module.forecast, 7)


def check_exceptions(module):
    """What a callback raises comes through, the very object, and no callback is called after it."""

    def run(at, name):
        calls, thrown = [0], KeyError("mine")

        def counted(answer):
            calls[0] += 1
            if calls[0] == at:
                raise thrown
            return answer

        callbacks = {"f": pair, "jac": lambda x, y: [[-3.0, 0.5], [3.0, -0.5]], "report": lambda xold, x, y, step: None}
        inner = callbacks[name]
        callbacks[name] = lambda *words: counted(inner(*words))
        error = raised(KeyError, module.solve, span=(0.0, 1.0), y0=[1.0, 2.0], **callbacks)
        insist(error is thrown and calls[0] == at, f"{name} raises {error!r} at call {calls[0]}")

    for at, name in [(1, "f"), (2, "f"), (30, "f"), (1, "jac"), (1, "report"), (4, "report")]:
        run(at, name)


def check_endings(module):
    plain = (pair, (0.0, 1.0), [1.0, 2.0])
    pole = (lambda x, y: [y[0] * y[0]], (0.0, 2.0), [1.0])
    interrupted = {"report": lambda xold, x, y, step: module.INTERRUPT if x > 0.1 else None}
    singular = (lambda x, y: [0.0], (0.0, 1.0), [1.0])
    ways = [(1, plain, interrupted), (2, plain, {"max_steps": 3}), (3, pole, {}), (5, singular, {"mass": [[0.0]]})]
    for status, words, given in ways:
        error = raised(module.BrokenOff, module.solve, *words, **given)
        found = module.solve(*words, **given, check=False)
        insist(error.result.status == found.status == status and not found.success, f"{found.status} for {status}")
        insist(f"(status {status})" in str(error) and str(error) == found.message, f"status {status} says {error}")
        insist(found.x < words[1][1] and found.t[-1] == found.x, f"status {status} ends at {found.x}")
        early = module.solve(*words, **given, check=False, t_eval=words[1])
        insist(early.t == [0.0], f"status {status} has amounts at the end")
    found = module.solve(*singular, mass=[[0.0]], check=False)
    insist((found.singular, found.column) == ("real", 0), f"a mass of zero blames {found.singular} {found.column}")
    insist(found.message.endswith("; species 1: the real matrix had no pivot in column 0"), found.message)
    found = module.solve(*plain)
    insist(found.success and found.status == 0 and found.refused is None, f"a plain run: {found}")
    insist(found.singular is None and found.column is None, f"a plain run blames {found.singular}")
    insist({len(found.t), *map(len, found.y)} == {found.accepted + 1}, "a plain run has other points than its steps")
    insist(0.0 < found.smallest <= found.largest <= 1.0, f"a plain run has strides {found.smallest} {found.largest}")
    nothing = module.solve(lambda x, y: [math.nan], (0.0, 1.0), [1.0])
    insist(nothing.success and math.isnan(nothing.y[0][-1]), "that NaN is no end of a run stands in the README")


# --- What a result has ---------------------------------------------------------------------------


def check_points(module):
    """Forwards and backwards the amounts at points are the solution's, and `sol` and `t_eval` are one and the same."""
    plain = {"rtol": 1e-8, "atol": 1e-10, "dense_output": True}
    wanted = [k / 10 for k in range(11)]
    for span, points in [((0.0, 1.0), wanted), ((1.0, 0.0), wanted[::-1])]:
        start = [first_amount(span[0]), 3.0 - first_amount(span[0])]
        found = module.solve(pair, span, start, t_eval=points, **plain)
        insist(found.t == points, f"{span}: the points are {found.t}")
        insist(all(abs(a - first_amount(t)) < 1e-5 for t, a in zip(points, found.y[0])), f"{span}: {found.y[0]}")
        insist(found.sol(points) == found.y and found.sol(points[3]) == [row[3] for row in found.y], "sol differs")
        steps = module.solve(pair, span, start, **plain)
        insist(steps.sol(steps.t) == steps.y, f"{span}: sol differs at the ends of steps")
        for outside in (-0.1, 1.1, math.nan):
            raised(ValueError, found.sol, outside)
    insist(module.solve(pair, (0.0, 1.0), [1.0, 2.0]).sol is None, "sol was not asked for")
    changes = {"report": lambda xold, x, y, step: module.Modified(x, y) if x == 0.0 else None}
    insist(module.solve(pair, (0.0, 1.0), [1.0, 2.0], **changes, **plain).sol is None, "sol of a run that was modified")


def check_rounding(module):
    """Ends that a step which is aimed at them does not hit: their amounts are told all the same."""
    for start, end in [(-1.0, 1e-20), (1.0, -1e-20), (-1.0, -1e-20)]:
        found = module.solve(pair, (start, end), [1.0, 2.0], t_eval=[end], dense_output=True)
        insist(found.x != end, f"the step hits {end}")
        insist(found.t == [end] and found.sol(end) == [row[0] for row in found.y], f"the end {end} was not told")


def check_shortened(module):
    """What a step that the Rust rule has shortened leaves out is NaN, and it is said; the book rule has none."""

    def report(xold, x, y, step):
        insist(step is None or not step.leaves_out(x), f"a step leaves out its own end, {x}")

    for rule in ("rust", "book"):
        with warnings.catch_warnings(record=True) as caught:
            warnings.simplefilter("always")
            plain = {"rule": rule, "rtol": 1e-2, "atol": 1e-2}
            found = module.solve(relaxation, (0.0, 2.0), [2.0, 0.0], dense_output=True, report=report, **plain)
            late = [(first + 3.0 * second) / 4.0 for first, second in itertools.pairwise(found.t)]
            told = module.solve(relaxation, (0.0, 2.0), [2.0, 0.0], t_eval=late, **plain)
            insist(repr(found.sol(late)) == repr(told.y), "sol differs late in a step")
            insist(found.sol(found.t) == found.y, "sol differs at the end of a step")
            lacking = sum(map(math.isnan, told.y[0]))
        insist(2 * lacking == len(caught), f"{lacking} points twice without amounts, and {len(caught)} warnings")
        insist(all(entry.category is module.ShortenedStep for entry in caught), "another warning")
        insist(bool(caught) == (rule == "rust"), f"{len(caught)} warnings under the {rule} rule")


# --- A shelf of recent steps ---------------------------------------------------------------------


def circle(x, y):
    return [y[1], -y[0]]


def amounts_of(module, step, x):
    """What the coefficients alone give; a step itself has at its end the amounts that were reached."""
    return module.Step(step.xold, math.nan, step.h, step.y, step._coefficients)(x)


def shelved(module, f, end, modified_at=0, **settings):
    """A run with a shelf, and all its steps since the point was modified."""
    shelf, steps = module.Shelf(), []

    def report(xold, x, y, step):
        steps.extend([step] if step else [])
        if next(count) != modified_at:
            return None
        steps.clear()
        return module.Modified(x, [y[0] + 0.125, y[1]])

    for _ in range(2):  # a run begins with an empty shelf
        steps.clear()
        count = itertools.count(1)
        module.solve(f, (0.0, end), [2.0, 0.0], report=report, shelf=shelf, **settings)
    return shelf, steps


def check_shelf(module):
    """A shelf beside a list of all steps: forwards, backwards, past 48 steps, a modified point and shortened steps; and
    the same where no step is offered."""
    fine = {"rtol": 1e-9, "atol": 1e-9}
    runs = ((circle, 40.0, 0, fine), (circle, -40.0, 0, fine), (circle, 40.0, 60, fine),
            (relaxation, 2.0, 0, {"rtol": 1e-2, "atol": 1e-2}))
    left_out = 0
    for f, end, modified_at, settings in runs:
        shelf, steps = shelved(module, f, end, modified_at, dense_output=True, **settings)
        quiet, _ = shelved(module, f, end, modified_at, **settings)
        insist(len(shelf) == min(len(steps), 48) > 0, f"{len(shelf)} steps are kept")
        ends = [(*step.bounds(), step.x) for step in steps]
        left_out += sum(not low <= x <= high for low, high, x in ends)
        points = [x for low, high, x in ends for x in (low, (low + high) / 2, high, x)]
        for x in (*points, math.nan, 1e9, -1e9):
            held = [step for step in steps[-48:] if step.bounds()[0] <= x <= step.bounds()[1]]
            wanted = amounts_of(module, held[-1], x) if held else None
            insist(shelf.at(x) == wanted, f"the shelf has {shelf.at(x)} at {x!r}, and not {wanted}")
            insist(quiet.at(x) == wanted, f"with no step offered it has {quiet.at(x)} at {x!r}, and not {wanted}")
    insist(left_out > 0, "no step was shortened")
    insist(module.Shelf().at(0.0) is None, "an empty shelf answers")


# --- What is taken for a library -----------------------------------------------------------------


def marked(path, folder):
    """A library like this one with a mark in it, and one with none."""
    data = path.read_bytes()
    without = folder / "unmarked.so"
    without.write_bytes(data.replace(b"rattle logic=", b"rattle xxxxx="))
    source, whole = folder / "mark.c", folder / "marked.so"
    source.write_text(f'__asm__(".ident \\"{MARK}\\"");\n')
    # The mark alone, beside functions that do nothing: enough to be told apart.
    names = re.findall(r'^    "(elchepur_\w+)"', (FOLDER / "elchepur" / "_numbers.py").read_text(), re.M)
    source.write_text(source.read_text() + "".join(f"void {name}(void) {{}}\n" for name in names))
    subprocess.run(["cc", "-shared", "-fPIC", source, "-o", whole], check=True)
    return whole, without


def check_library(module, path):
    whole, without = marked(path, TARGET)
    empty = TARGET / "empty.so"
    empty.write_bytes(b"")
    archive = TARGET / "archive.a"
    archive.write_bytes(b"!<arch>\n")
    raised(module.Unproved, module.load, without)
    raised(module.Unproved, module.load, empty)
    raised(module.NoLibrary, module.load, empty, unproved=True)
    error = raised(module.NoLibrary, module.load, archive)
    insist("is an archive" in str(error), f"an archive is not told from a library: {error}")
    raised(module.NoLibrary, module.load, TARGET / "nowhere.so")
    insist(module.load(whole).mark == MARK, "a mark is not seen")
    before = os.environ.pop("ELCHEPUR_LIBRARY", None)
    os.environ["ELCHEPUR_LIBRARY"] = str(whole)
    insist(module.load().path == whole, "ELCHEPUR_LIBRARY is not looked at")
    os.environ["ELCHEPUR_LIBRARY"] = str(TARGET / "nowhere.so")
    raised(module.NoLibrary, module.load)
    del os.environ["ELCHEPUR_LIBRARY"]
    if before is not None:
        os.environ["ELCHEPUR_LIBRARY"] = before
    insist(module.load(without, unproved=True).mark is None, "an unmarked library has a mark")
    os.environ["ELCHEPUR_ALLOW_UNPROVED"] = "1"
    insist(module.load(without).mark is None, "ELCHEPUR_ALLOW_UNPROVED is not looked at")
    raised(module.Unproved, module.load, without, unproved=False)
    del os.environ["ELCHEPUR_ALLOW_UNPROVED"]


def check_tables(module):
    """Points as CSV: the bytes, the refusals, and a run's table read back by Python's csv and float.fromhex."""
    insist(module.csv_header(3) == b"x,y1,y2,y3\r\n", "a header")
    wanted = b"0x1.8p+1,-0x0p+0,0x0.0000000000001p-1022,inf,nan\r\n"
    insist(module.csv_record(3, [-0.0, 5e-324, math.inf, -math.nan]) == wanted, "a record")
    for call, *words in ((module.csv_header, 0), (module.csv_header, 33), (module.csv_record, 1.0, [])):
        insist(raised(module.Refused, call, *words).number == 1, f"{words} is refused with another number")
    told, file = [], io.BytesIO()
    table = module.Table(file)

    def report(xold, x, y, step):
        told.append([x, *y])
        return table(xold, x, y, step)

    module.solve(pair, (0.0, 1.0), [1.0, 2.0], report=report)
    header, *rows = csv.reader(io.StringIO(file.getvalue().decode(), newline=""), strict=True)
    insist(header == ["x", "y1", "y2"], "the header of a run's table")
    insist([[float.fromhex(field) for field in row] for row in rows] == told, "a run's table")


# Which bits of a drawn pattern are kept, and which are set: any, a subnormal number's, those without a fraction or with
# a short one, those of an infinity or a NaN.
CLASSES = [((1 << 64) - 1, 0), (0x800FFFFFFFFFFFFF, 0), (0xFFF0000000000000, 0), (0xFFFF000000000000, 0)]
CLASSES += [((1 << 64) - 1, 0x7FF0000000000000)]
RECORDS, NUMBERS = 30_304, 33  # a million numbers


def check_texts(module):
    """A million patterns of every class have the texts of Python's float.hex, which float.fromhex reads back."""
    draw = random.Random(9)
    for turn in range(RECORDS):
        kept, put = CLASSES[turn % len(CLASSES)]
        words = [draw.getrandbits(64) & kept | put for _ in range(NUMBERS)]
        x, *y = struct.unpack(f"<{NUMBERS}d", struct.pack(f"<{NUMBERS}Q", *words))
        record = module.csv_record(x, y).decode()
        if record != ",".join(map(replay_csv.text_of, (x, *y))) + "\r\n":
            insist(False, f"the record of {[f'{word:016x}' for word in words]} is {record}")
        back = [pattern_of(float.fromhex(text)) for text in record.rstrip("\r\n").split(",")]
        if back != list(map(pattern_of, (x, *y))):
            insist(False, f"{record} reads back otherwise")
    insist(True, "the texts of a million numbers")


def check_readme(path):
    """The program of the README prints what stands there, in a process of its own."""
    text = (FOLDER / "README.md").read_text()
    code, shown = re.search(r"```python\n(.*?)```\n\nIt prints\n\n((?:    [^\n]*\n)+)", text, re.DOTALL).groups()
    taken = f"import elchepur\nelchepur.load({str(path)!r}, unproved=True)\n"
    environment = dict(os.environ, PYTHONPATH=str(FOLDER), PYTHONDONTWRITEBYTECODE="1")
    words = [sys.executable, "-c", taken + code]
    done = subprocess.run(words, capture_output=True, text=True, cwd=ROOT, env=environment)
    wanted = re.sub("^    ", "", shown, flags=re.M)
    insist(done.stdout == wanted, f"the README's program prints\n{done.stdout}{done.stderr}")


def check(module, path):
    """All of it, on the library at this path, which is loaded, and is so at the end."""
    check_refusals(module)
    check_nights(module)
    check_arguments(module)
    check_exceptions(module)
    check_endings(module)
    check_points(module)
    check_rounding(module)
    check_shortened(module)
    check_shelf(module)
    check_tables(module)
    check_texts(module)
    check_readme(path)
    sheet = ROOT / "cylinders" / "nitric_oxide.sheet"
    found = [module.forecast(given) for given in (sheet, sheet.read_text(), sheet.read_bytes())]
    insist(found[0] == found[1] == found[2], "a path, a text and bytes of one sheet differ")
    check_library(module, path)
    module.load(path, unproved=True)
    print(f"{seen} answers of single calls of the module in python/ are as they must be")
