"""A shelf of drawn cylinders for the tests and the bench of `night`: sheets, readable models, labels, and some that can
have no forecast. The same on every machine."""

import pathlib
import sys

ROOT = pathlib.Path(__file__).resolve().parents[2]
sys.path[:0] = [str(ROOT / "tools"), *(str(each) for each in (ROOT / "tests").iterdir() if each.is_dir())]
import replay_sheet  # noqa: E402
import sheet  # noqa: E402
from draw import Draw  # noqa: E402

SEED = 38
MOST_STEPS = 1_000
# Of ten cylinders one is a readable model, one has a label, and one may be faulty.
READABLE, LABELLED, FAULTY = 3, 6, 9
NITRIC_OXIDE = ROOT / "cylinders" / "nitric_oxide.sheet"


def drawn(draw, rules=2):
    """A model of 1 to 8 species, under one of the rules."""
    model = replay_sheet.drawn_model(draw, draw.between(1, 8), draw.choice((2, 8, 32)), MOST_STEPS)
    return model.copy(rule=draw.between(0, rules - 1))


def faulty(draw, model):
    """A name's end and the bytes behind it, None for a file that is lost."""
    return draw.choice((
        ("sheet", sheet.sheet_of(model)),
        ("sheet", sheet.sheet_of(model.copy(max_steps=0))),
        ("sheet", sheet.sheet_of(model.copy(max_steps=3))),
        ("sheet", sheet.sheet_of(model).replace(b"\n", b"\r\n", 3)),
        ("sheet", sheet.sheet_of(model) * 50),
        ("txt", sheet.text_of(model).encode().replace(b"rule", b"role")),
        ("sheet", None),
    ))


def dates(draw):
    """A filling and a label's day up to two years later, and now and then beyond the sheet's end."""
    filled = (2024 + draw.between(0, 2), draw.between(1, 12), draw.between(1, 28))
    label = (filled[0] + draw.between(1, 2), draw.between(1, 12), draw.between(1, 28))
    return [f"{year:04}-{month:02}-{day:02}" for year, month, day in (filled, label)]


def cylinder(draw, place):
    """A name's end, the bytes, and what the list says behind the sheet."""
    model = drawn(draw)
    if place % 10 == LABELLED:
        filled = sheet.model_of(NITRIC_OXIDE.read_bytes())
        filled.amounts[0] = model.amounts[0]
        return "sheet", sheet.sheet_of(filled), dates(draw)
    if place % 10 == READABLE:
        return "txt", sheet.text_of(model).encode(), []
    if place % 10 == FAULTY:
        return *faulty(draw, model), []
    return "sheet", sheet.sheet_of(model), []


def quick():
    """A sheet of one species that does not react."""
    return sheet.sheet_of(replay_sheet.model([1.0], []))


def put(folder, count):
    """Writes the cylinders below a folder, and gives the path of their list."""
    draw, lines = Draw(SEED), [f"# {count} cylinders, drawn\n"]
    (folder / "sheets").mkdir(parents=True)
    for place in range(count):
        end, data, more = cylinder(draw, place)
        name = f"sheets/{place:06}.{end}"
        if data is not None:
            (folder / name).write_bytes(data)
        lines.append(" ".join([f"C-{place:06}", name, *more]) + "\n")
    path = folder / "shelf.list"
    path.write_text("".join(lines))
    return path
