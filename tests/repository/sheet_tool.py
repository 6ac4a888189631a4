#!/usr/bin/env python3
"""Tries tools/sheet.py: that a readable form and a sheet are one model, there and back, and that the cylinders are.

    tests/repository/sheet_tool.py

Readable form to sheet to readable form to sheet gives the same bytes for 2,000 models that are drawn, with floats of
any pattern, and for every special float at every place; decimals have the fewest digits that will do. Of each sheet
of cylinders/ the readable form stands beside it. What is no readable form is refused at its line, with what to write
instead. tools/table draws a table under the names of a readable form. What `decay` prints of every stored sheet is
written in words and decimals that read back to the same bits, and ends with the same status. On sheets with bytes
changed at random, tools/sheet.py and the reader of tests/replays/replay_sheet.py, which was written apart from it,
refuse the same line.

Exit status: 0 all is so; 1 something is not, and the first is shown; 2 wrong use."""

import subprocess
import sys

import pathlib
sys.path[:0] = [str(each) for each in pathlib.Path(__file__).resolve().parents[1].iterdir() if each.is_dir()]
import command
from draw import INFINITY, LARGEST, NAN, SIGN, SMALLEST, SMALLEST_NORMAL, SPECIALS, Draw, pattern_of
from replay_sheet import BASES, CYLINDERS, EXAMPLE, STORED, insist, number_of, records_of, refusal, rust_text
from replay_sheet import sheet, try_tool

TOOL = rust_text.ROOT / "tools" / "sheet.py"
TABLE = rust_text.ROOT / "tools" / "table"

MODELS, CHANGED = 2000, 20_000

# NaNs of many payloads, quiet and not, of both signs; doubles next to where decimals get longer or shorter.
STRANGE = SPECIALS + [INFINITY + 1, INFINITY + 0xABCDEF, NAN + 1, SIGN | NAN, SIGN | INFINITY + 1, (1 << 64) - 1,
                      (1 << 63) - 1]
STRANGE += [SMALLEST_NORMAL - 1, SMALLEST_NORMAL + 1, LARGEST - 1, pattern_of(0.1), pattern_of(1e16), pattern_of(1e22),
            pattern_of(1e23)]
STRANGE += [pattern_of(2.0**53) + 1, pattern_of(9007199254740993.0), pattern_of(1e-5), pattern_of(5e-5),
            pattern_of(123456789.0)]


def try_model(model):
    """A model's sheet and readable form are one, whichever comes first."""
    data, text = sheet.sheet_of(model), sheet.text_of(model)
    insist(sheet.model_of(data) == model, f"a sheet is read as another model: {data}")
    insist(sheet.sheet_of(sheet.model_of_text(text)) == data, f"a readable form makes another sheet:\n{text}")
    insist(sheet.text_of(sheet.model_of(data)) == text, f"a sheet has another readable form: {data}")


def try_digits(bits):
    """A decimal gives the double back, and with a digit less it would not."""
    text = sheet.written(bits)
    if text.startswith("0x"):
        insist(bits & INFINITY == INFINITY, f"{bits:016x} is finite and written by its bits")
        return
    value = number_of(bits)
    insist(pattern_of(float(text)) == bits, f"{text} is not {bits:016x}")
    digits = len(text.lstrip("-").split("e")[0].replace(".", "").strip("0"))
    shorter = f"{value:.{max(digits - 2, 0)}e}"
    insist(digits <= 1 or pattern_of(float(shorter)) != bits, f"{text} is longer than need be")


def strange_models():
    """Each strange float at each place of a small model."""
    one = sheet.model_of(BASES[1])
    for bits in STRANGE:
        for name in ("x0", "xend", "rtol", "atol"):
            yield one.copy(**{name: bits})
        yield one.copy(amounts=[bits] * 3)
        yield one.copy(reactions=[(bits, 1, 2, 3, 0), (bits, 0, 1, 0, 1)])


def drawn_float(draw):
    return draw.choice([draw.bits(), draw.choice(STRANGE), draw.finite(), draw.subnormal(),
                        pattern_of(draw.between(-1000, 1000) / 8)])


def drawn_model(draw):
    n, count = draw.between(1, 32), draw.choice([0, draw.between(0, 4), draw.between(0, 64)])
    ends = [drawn_float(draw) for _ in range(4)]
    steps = draw.choice([0, 1, 100_000, draw.between(0, 10**10 - 1), 10**10 - 1])
    reactions = [(drawn_float(draw), *(draw.between(0, n) for _ in range(4))) for _ in range(count)]
    return sheet.Model(*ends, steps, draw.between(0, 1), [drawn_float(draw) for _ in range(n)], reactions)


# A readable form as a person writes it, and its sheet's lines.
BY_HAND = """
# comments, blank lines and indents are free
x0 -0    # no point
  xend 0x3ff0000000000000
rtol 1E-3
atol +0.000001
max_steps 100
rule book
species
    NO 2   # names are free
    s3 0.5e1
    wall_site 1e-400
reactions
    1e+2 NO + s3 -> wall_site + none
    3. none -> none + NO
"""
BY_HAND_SHEET = sheet.Model(
    SIGN, pattern_of(1.0), pattern_of(1e-3), pattern_of(1e-6), 100, 1,
    [pattern_of(2.0), pattern_of(5.0), 0], [(pattern_of(100.0), 1, 2, 3, 0), (pattern_of(3.0), 0, 0, 0, 1)],
)  # fmt: skip

# Words of the form below, what stands there instead, and the line that is told, None where it ends too
# soon or there is too much.
PLAIN = """x0 0.0
xend 1.0
rtol 0.001
atol 1e-06
max_steps 100
rule rust
species
A 1.0
B 0.5
reactions
2.0 A + B -> B
"""
NOT_READ = [
    ("x0 0.0\n", "", 1),
    ("x0 0.0", "x0", 1),
    ("x0 0.0", "x0 0.0 1.0", 1),
    ("x0 0.0", "x0 zero", 1),
    ("x0 0.0", "x0 nan", 1),
    ("x0 0.0", "x0 inf", 1),
    ("x0 0.0", "x0 1_0", 1),
    ("x0 0.0", "x0 1e309", 1),
    ("x0 0.0", "x0 0x0", 1),
    ("x0 0.0", "x0 0x7FF8000000000000", 1),
    ("x0 0.0", "x0 ١", 1),
    ("max_steps 100", "max_steps 0100", 5),
    ("max_steps 100", "max_steps 10000000000", 5),
    ("max_steps 100", "max_steps 1e2", 5),
    ("rule rust", "rule 0", 6),
    ("species\n", "", 7),
    ("A 1.0", "A", 8),
    ("A 1.0", "none 1.0", 8),
    ("A 1.0", "1A 1.0", 8),
    ("B 0.5", "A 0.5", 9),
    ("A 1.0\nB 0.5\n", "", None),
    ("B 0.5\n", "B 0.5\n" + "".join(f"C{i} 0.0\n" for i in range(31)), None),
    ("reactions\n", "", 10),
    ("reactions\n2.0 A + B -> B\n", "", None),
    ("2.0 A + B -> B", "A + B -> B", 11),
    ("2.0 A + B -> B", "2.0 A + B", 11),
    ("2.0 A + B -> B", "2.0 A -> B -> A", 11),
    ("2.0 A + B -> B", "2.0 A B -> B", 11),
    ("2.0 A + B -> B", "2.0 A + B + A -> B", 11),
    ("2.0 A + B -> B", "2.0 -> B", 11),
    ("2.0 A + B -> B", "2.0 A -> C", 11),
    ("2.0 A + B -> B\n", "2.0 A + B -> B\n" * 65, None),
]


def try_refusals():
    sheet.model_of_text(PLAIN)
    for old, new, line in NOT_READ:
        insist(PLAIN.count(old) == 1, f"the plain form has {old} {PLAIN.count(old)} times")
        try:
            sheet.model_of_text(PLAIN.replace(old, new))
        except sheet.Refused as refused:
            insist(refused.line == line,
                   f"{new} in the place of {old} is told as line {refused.line}, and is in {line}")
        else:
            insist(False, f"{new} in the place of {old} is read")


# Words of the plain form, what a person may write there, and what is to be written instead.
INSTEAD = [
    ("x0 0.0", "x0 .5", "write 0.5"),
    ("x0 0.0", "x0 -.5e3", "write -0.5e3"),
    ("x0 0.0", "x0 1,5", "write 1.5"),
    ("x0 0.0", "x0 1d-3", "write 1e-3"),
    ("x0 0.0", "x0 1_000", "write 1000"),
    ("x0 0.0", "x0 inf", "write 0x7ff0000000000000"),
    ("x0 0.0", "x0 NaN", "write 0x7ff8000000000000"),
    ("x0 0.0", "x0 0X3FF0000000000000", "write 0x3ff0000000000000"),
    ("x0 0.0", "x0 = 0.0", "write `x0 0.0`"),
    ("max_steps 100", "max_steps 1e2", "write `max_steps 100000`"),
    ("rule rust", "rule 0", "write `rule rust` or `rule book`"),
    ("species\n", "", "write a line `species`"),
    ("2.0 A + B -> B", "2.0 2 A -> B", "write A + A"),
    ("2.0 A + B -> B", "2.0 2A -> B", "write A + A"),
    ("2.0 A + B -> B", "2.0 A+B -> B", "write A + B"),
    ("2.0 A + B -> B", "2.0 a + B -> B", "write A"),
    ("2.0 A + B -> B", "2.0 A + B ->", "write none"),
    ("2.0 A + B -> B", "2.0 A + B => B", "write `50.0 NO + site -> held`"),
    ("2.0 A + B -> B", "2.0 A + C -> B", "the species are A, B"),
]


def try_instead():
    for old, new, wanted in INSTEAD:
        try:
            sheet.model_of_text(PLAIN.replace(old, new))
        except sheet.Refused as refused:
            told = refused.told()
            insist(told.startswith("line ") and wanted in told, f"{new} is told as {told}, without: {wanted}")
        else:
            insist(False, f"{new} in the place of {old} is read")


def bits_back(lines):
    """The doubles of an answer in words, by their bits: they stand behind a name."""
    return [sheet.Words("").bits(word) for line in lines for word in line.split()[1:]]


def try_answers():
    """Every stored answer in words, with the model's names, decimals that read back, and the status of the end."""
    for data, answer in records_of(STORED.read_bytes()):
        if answer.startswith("refused"):
            told, status = sheet.answer_in_words(answer, ["none", "A"])
            insist(status == 3 and told[0].startswith(answer.strip()[:9]), f"{answer} is told as {told}")
            continue
        names = ["none"] + [f"name{number}" for number in range(len(sheet.model_of(data).amounts))]
        told, status = sheet.answer_in_words("unproved\n" + answer, names)
        insist(told[0] == "unproved" and told[1] == answer[:8], f"{answer} is told as {told}")
        right = (status == 0) == answer.startswith("status 0 ") == ("NO FORECAST" not in told[2])
        insist(right, f"{told} ends with {status}")
        given = [int(bits, 16) for line in answer.splitlines()[1:] for bits in line.split()[1:]]
        insist(bits_back(told[4:]) == given, f"{answer} is told as {told}")
        insist([line.split()[0] for line in told[4:]] == ["x", *names[1:], "h"], f"the names are others: {told}")
        for wrong in (answer[:-1], answer + answer, answer.replace("x ", "z "), answer[: answer.index("y")],
                      answer[: answer.index("h")], answer.replace("h ", "y "), answer[:-18] + "\n"):
            try_no_answer(wrong, names)
        try_no_answer(answer, names + ["more"])


def try_no_answer(text, names):
    try:
        told = sheet.answer_in_words(text, names)
    except sheet.Refused:
        return
    insist(False, f"{text} is told as {told}")


def try_cylinders():
    """Each sheet and its readable form; none stands alone."""
    names = sorted({file.stem for suffix in ("sheet", "txt") for file in CYLINDERS.glob(f"*.{suffix}")})
    for name in names:
        data, text = (CYLINDERS / f"{name}.sheet").read_bytes(), (CYLINDERS / f"{name}.txt").read_text()
        insist(sheet.sheet_of(sheet.model_of_text(text)) == data,
               f"cylinders/{name}.txt makes another sheet than stands beside it")
        insist(refusal(data) is None, f"cylinders/{name}.sheet is refused")
        try_model(sheet.model_of(data))
    return len(names)


def changed(draw, data):
    """A sheet with one to three bytes put in, taken out or changed."""
    for _ in range(draw.between(1, 3)):
        at = draw.between(0, len(data))
        byte = bytes([draw.choice([10, 13, 0, 32, 48, 49, 50, 57, 65, 97, 102, 103, draw.between(0, 255)])])
        data = data[:at] + draw.choice([byte, b"", byte + data[at : at + 1]]) + data[at + 1 :]
    return data


def try_changed(draw):
    bases = [*BASES, *(file.read_bytes() for file in sorted(CYLINDERS.glob("*.sheet"))),
             *(sheet.sheet_of(drawn_model(draw)) for _ in range(20))]
    for _ in range(CHANGED):
        try_tool(changed(draw, draw.choice(bases)))


def try_command():
    """The command itself, both ways, and a refusal."""
    def done(act, data):
        gave = subprocess.run([sys.executable, str(TOOL), act], input=data, capture_output=True)
        return gave.returncode, gave.stdout, gave.stderr.decode()

    code, text, _ = done("text", EXAMPLE)
    insist(code == 0 and done("sheet", text)[:2] == (0, EXAMPLE),
           "the command makes another sheet of document 01's example")
    code, made, told = done("text", EXAMPLE[:-1])
    insist(code == 1 and made == b"" and told.startswith("refused 20 10"),
           f"a sheet without its last LF is told as {told}")
    code, made, told = done("text", b"6" * 4097)
    insist(code == 1 and made == b"" and told.startswith("refused 21"), f"a sheet that is too long is told as {told}")
    model = str(CYLINDERS / "robertson.txt")
    stored = dict(records_of(STORED.read_bytes()))[(CYLINDERS / "robertson.sheet").read_bytes()]
    for printed, wanted in ((stored, 0), (stored.replace("status 0", "status 2"), 1), ("refused 20 7\n", 3), ("", 3)):
        gave = subprocess.run([sys.executable, str(TOOL), "answer", model], input=printed.encode(),
                              capture_output=True)
        insist(gave.returncode == wanted, f"{printed} in words ends with {gave.returncode}")
        insist(wanted or b"\nA 0.7158" in gave.stdout, f"robertson is told as {gave.stdout}")
    code, made, told = done("sheet", b"x0 0.0\nxend one\n")
    insist(code == 1 and made == b"" and told.startswith("line 2"), f"a float that is none is told as {told}")


def try_table():
    """tools/table draws a point for each number of a table, under the names of a model, and nothing of another."""
    model, first = str(CYLINDERS / "robertson.txt"), "x,y1,y2,y3\r\n0x0p+0,0x1p+0,0x0p+0,0x0p+0\r\n"
    tables = ((first + "0x1p+2,0x1.8p-1,0x1p-16,nan\r\n", 0, 5), (first.replace(",y3", ""), 1, 0), ("", 1, 0),
              (first.replace("0x1p+0", "1/2"), 1, 0))
    for table, wanted, dots in tables:
        gave = subprocess.run([str(TABLE), model], input=table.encode(), capture_output=True)
        insist(gave.returncode == wanted, f"of {table!r} the picture ends with {gave.returncode}: {gave.stderr}")
        insist(gave.stdout.count(b"<circle ") == dots, f"the picture of {table!r} has another number of dots")
        insist(bool(dots) == all(f">{name}<".encode() in gave.stdout for name in "ABC"), "a picture without names")
        insist(not dots or b"1 numbers are not finite" in gave.stdout, "a NaN is not told")


def main():
    command.nothing(__doc__, sys.argv[1:])
    draw = Draw(7)
    for bits in STRANGE + [drawn_float(draw) for _ in range(MODELS)]:
        try_digits(bits)
    for model in strange_models():
        try_model(model)
    for _ in range(MODELS):
        try_model(drawn_model(draw))
    insist(sheet.model_of_text(BY_HAND) == BY_HAND_SHEET, "a form written by hand is read otherwise")
    try_refusals()
    try_instead()
    try_answers()
    cylinders = try_cylinders()
    try_changed(draw)
    try_command()
    try_table()
    print(f"{MODELS} models, {len(STRANGE)} special floats and {cylinders} cylinders go from sheet to readable form "
          f"and back; two readers agree on {CHANGED} changed sheets")


if __name__ == "__main__":
    main()
