"""The page of a night as Chromium shows it: the text of its parts is compared, not its pixels."""

import html.parser
import os
import subprocess
import sys
import tempfile
import urllib.parse

SHOWN = 200
# How the names of cylinders with a label end (tests/night/shelf.py).
LABELLED = "6"


def insist(fact, words):
    if not fact:
        sys.exit(f"night: the page {words}")


class Parts(html.parser.HTMLParser):
    """The text of each part that has an id, and of each row of the list."""

    VOID = ("meta", "br", "input", "line", "path", "rect")

    def __init__(self, text):
        super().__init__()
        self.open, self.texts, self.rows, self.paths = [], {}, [], 0
        self.feed(text)

    def handle_starttag(self, tag, attributes):
        self.paths += tag == "path"
        if tag not in self.VOID:
            self.open.append((tag, dict(attributes).get("id")))
        if tag == "tr" and "list" in self.names():
            self.rows.append([])
        if tag == "td" and "list" in self.names():
            self.rows[-1].append("")

    def handle_endtag(self, tag):
        while tag not in self.VOID and self.open and self.open.pop()[0] != tag:
            pass

    def names(self):
        return [name for _, name in self.open if name]

    def handle_data(self, data):
        for name in self.names():
            self.texts[name] = self.texts.get(name, "") + data
        if "list" in self.names() and any(tag == "td" for tag, _ in self.open):
            self.rows[-1][-1] += data


def chromium(page, searched, *words):
    """What Chromium prints of the page with this searched for."""
    address = f"file://{page}#{urllib.parse.quote(searched)}"
    with tempfile.TemporaryDirectory() as profile:
        call = ["chromium", "--headless=new", "--no-sandbox", "--disable-gpu", "--virtual-time-budget=5000",
                f"--user-data-dir={profile}", *words, address]
        done = subprocess.run(call, capture_output=True, text=True, timeout=300, env={**os.environ, "HOME": profile})
    insist(done.returncode == 0, f"is not shown: {done.stderr[-1000:]}")
    return done.stdout


def shown(page, searched=""):
    return Parts(chromium(page, searched, "--dump-dom"))


def check_all(page, rows, totals, is_proved):
    """Unsearched: the totals, and all rows, those without a forecast first."""
    found = shown(page)
    without = [row for row in rows if row[4].startswith("no forecast: ")]
    words = f"{len(rows)} cylinders, {len(rows) - len(without)} with a forecast, {len(without)} without"
    insist(found.texts["words"] == words, f"says {found.texts['words']}, not {words}")
    for line in totals.decode().splitlines()[0 if is_proved else 1 : -1]:
        name, number = line.rsplit(" ", 1)
        insist(any(part.startswith(name) and part.endswith(number) for part in found.texts["totals"].splitlines()),
               f"lacks the totals' line {line}")
    insist(found.texts["found"] == f"{len(rows)} of {len(rows)}, of which the first {SHOWN} are shown",
           f"says {found.texts['found']}")
    listed = found.rows[1:]
    first = [(row[1], row[4].removeprefix("no forecast: ") + row[2]) for row in without]
    insist(len(listed) == SHOWN and [(cells[0], cells[3]) for cells in listed[: len(first)]] == first,
           "does not have the rows without a forecast first, each with its reason")
    insist(listed[len(first)][0] == next(row[1] for row in rows if row not in without), "has another row behind them")


def check_one(page, rows, has_label):
    """One cylinder searched for: its row, and its amounts over time up to the label's day, or to the sheet's end."""
    row = next(row for row in rows
               if row[1].endswith(LABELLED) == has_label and not row[4].startswith("no forecast: "))
    found = shown(page, row[1])
    insist(found.texts["found"] == f"1 of {len(rows)}" and [cells[0] for cells in found.rows[1:]] == [row[1]],
           f"finds {found.texts['found']} for {row[1]}")
    amounts = [field.split(" ") for field in row[4:]]
    insist(found.paths == len(amounts), f"has {found.paths} curves for {len(amounts)} species")
    label = found.rows[1][1]
    for name, decimals, _ in amounts:
        insist(f"{name}: {decimals}" in found.texts["one"], f"does not show {name} as {decimals}")
    insist(bool(label) == has_label, f"has the label {label} for {row[1]}")
    day = f"label: {label}, day {row[3].split('.')[0]}" if has_label else "end, day "
    insist(day in found.texts["one"], f"does not show {day} for {row[1]}")
    return row[1]


def check_reason(page, rows):
    """A reason searched for: its rows alone; and of a cylinder without a forecast no picture."""
    wanted = [row[1] for row in rows if "refused (4)" in row[4]]
    found = shown(page, "refused (4)")
    insist(wanted and [cells[0] for cells in found.rows[1:]] == wanted, "does not find rows by their reason")
    found = shown(page, wanted[0])
    insist(found.paths == 0 and "No forecast, so no picture: refused (4)" in found.texts["one"],
           "has a picture of a cylinder without a forecast")


def check(program, is_proved, made, target):
    folder, page, picture = made.parent, made.parent / "page.html", target / "page.png"
    words = [program, "--rows", folder / "rows", "--html", page, made]
    totals = subprocess.run(words, capture_output=True).stdout
    rows = [line.split("\t") for line in (folder / "rows").read_text().splitlines()]
    check_all(page, rows, totals, is_proved)
    check_one(page, rows, has_label=False)
    name = check_one(page, rows, has_label=True)
    check_reason(page, rows)
    picture.unlink(missing_ok=True)
    chromium(page, name, "--window-size=1200,1500", f"--screenshot={picture}")
    insist(picture.is_file() and picture.read_bytes().startswith(b"\x89PNG"), "has no screenshot")
    print(f"Chromium shows the totals, {len(rows)} rows, those without a forecast first, and a cylinder's picture")
