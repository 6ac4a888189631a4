#!/usr/bin/env python3
"""Tables of the reported points of sheets, as the Rust's own `solve` reports them, beside the program `points`.

    tests/replays/replay_points.py write [FOLDER]         write crates/points/stdin and stdout
    tests/replays/replay_points.py check [FOLDER]         make both anew and compare them with what is stored
    tests/replays/replay_points.py run PROGRAM            run it on every cylinder under both rules, and on the stored
                                                          sheets that are refused; the text is looked for. The gate
                                                          runs target/unproved/points, the sources compiled by the kit

FOLDER holds the Rust's text; tests/support/rust_text.py says where it is looked for otherwise.

Exit status: 0 nothing differs; 1 a table differs, and its sheet is named; 2 wrong use; 4 nothing was compared: the
Rust's text, rustc or PROGRAM is not there.

The runs are had as tests/replays/replay_sheet.py has them; tests/replays/replay_points.rs prints the x and the amounts
of each report. The numbers of a table are Python's float.hex, as tests/replays/replay_csv.py puts it into 02's form. Of
a refused sheet `points` is to print the stored answer of `decay`."""

import subprocess
import sys

import pathlib
sys.path[:0] = [str(each) for each in pathlib.Path(__file__).resolve().parents[1].iterdir() if each.is_dir()]
import command
import replay_sheet
import runs
import rust_text
from replay_csv import double_of, text_of

sys.path.append(str(rust_text.ROOT / "tools"))
import sheet  # noqa: E402

CRATE = rust_text.ROOT / "crates" / "points"
PROGRAM = rust_text.ROOT / "tests" / "replays" / "replay_points.rs"
STORED = rust_text.ROOT / "cylinders" / "nitric_oxide.sheet"


def insist(fact, words):
    if not fact:
        sys.exit(f"replay_points: {words}")


def tables_of(folder, sheets):
    """The table of each sheet's run."""
    program = runs.build(folder, PROGRAM)
    asked = "".join(replay_sheet.run_of(data).line(number) + "\n" for number, data in enumerate(sheets, 1))
    done = subprocess.run([program], input=asked, capture_output=True, text=True)
    insist(done.returncode == 0, f"the Rust's program stopped:\n{done.stderr}")
    found = done.stdout.split("\n\n")[: len(sheets)]
    return [table_of(points.split("\n")) for points in found]


def table_of(points):
    rows = [[text_of(double_of(int(word, 16))) for word in point.split()] for point in points if point]
    header = ["x", *(f"y{number}" for number in range(1, len(rows[0])))]
    return "".join(",".join(row) + "\r\n" for row in [header, *rows]).encode()


def made(folder):
    data = STORED.read_bytes()
    return {"stdin": data, "stdout": tables_of(folder, [data])[0]}


def write(folder):
    for name, data in made(folder).items():
        (CRATE / name).write_bytes(data)


def check(folder):
    for name, data in made(folder).items():
        insist((CRATE / name).read_bytes() == data, f"crates/points/{name} is another than the Rust gives")
    print(f"{data.count(bytes([10])) - 1} reports of the Rust's run are the stored table")


def sheets_to_run():
    """Every cylinder, under its own rule and under the other."""
    models = [sheet.model_of(path.read_bytes()) for path in sorted(replay_sheet.CYLINDERS.glob("*.sheet"))]
    return [sheet.sheet_of(model.copy(rule=rule)) for model in models for rule in (0, 1)]


def run(program, folder):
    sheets = sheets_to_run()
    wanted = list(zip(sheets, tables_of(folder, sheets)))
    records = replay_sheet.records_of(replay_sheet.STORED.read_bytes())
    wanted += [(data, answer.encode()) for data, answer in records if answer.startswith("refused")]
    for data, table in wanted:
        gave = subprocess.run([program], input=data, capture_output=True)
        insist(gave.returncode == 0 and gave.stdout == table, f"another table than the Rust's is printed of {data!r}")
    print(f"{len(sheets)} tables are the Rust's, and {len(wanted) - len(sheets)} refusals those of decay")


def main(words):
    name, given = command.act(__doc__, words, ("write", "check", "run"))
    if name == "run" and not given:
        command.wrong("which program?")
    if name == "run" and not pathlib.Path(given).is_file():
        command.nothing_compared(f"there is no program {given}")
    folder = rust_text.find(None if name == "run" else given)
    rust_text.compared(folder)
    if name == "run":
        run(given, folder)
    else:
        {"write": write, "check": check}[name](folder)


if __name__ == "__main__":
    main(sys.argv[1:])
