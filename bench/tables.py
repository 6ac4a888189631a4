"""The tables of bench/README.md about whole runs and the nightly job. For bench/whole.py and bench/nightly.py."""

import platform
import re
import subprocess
import sys
import textwrap

OURS, RUST, SAME, FORTRAN = "ours", "rust", "rust_with_our_powers", "fortran"
# Heads of columns, so short that no line is wider than a page; the tables' first words say what Rust' is.
NAMES = {OURS: "ours", RUST: "Rust", SAME: "Rust'", FORTRAN: "Fortran"}
PLAIN = ("host", "none")
# The goals for whole runs with the host's Jacobian: of the Rust's time and instructions, per attempt of the
# Fortran's, and per operation.
OF_THE_RUST = {"decay": 1.0, "Robertson": 0.5, "HIRES": 0.35, "chain16": 0.27, "chain32": 0.2}
OF_THE_FORTRAN = 1.1
PER_OPERATION = 4.0
WIDE = 120


def put(text, made, which):
    """The text with what was made between the marks of this measurement."""
    begin, end = f"<!-- made by bench/run {which} -->", f"<!-- end of what bench/run {which} makes -->"
    if text.count(begin) != 1 or text.count(end) != 1:
        sys.exit(f"bench/README.md has not one place for the tables of {which}")
    return text[: text.index(begin)] + f"{begin}\n\n{made}\n{end}" + text[text.index(end) + len(end):]


def table(head, lines):
    rule = "|" + "---|" * len(head)
    return "\n".join(["| " + " | ".join(head) + " |", rule, *("| " + " | ".join(line) + " |" for line in lines)]) + "\n"


def way_words(row):
    jacobian, dense = row["way"]
    return [row["model"], str(row["n"]), jacobian, "100 points" if dense == "dense" else "none"]


def ratio(above, below):
    return f"{above / below:.2f}"


def measured(row, what):
    """Time or instructions of each contestant."""
    return {name: found[0] if what == "ns" else found for name, found in row[what].items()}


def of_runs(rows, what, scale):
    """Of each run time or instructions, and the ratios."""
    contestants = list(rows[0]["ends"])
    pairs = [(OURS, RUST), (OURS, SAME), (OURS, FORTRAN), (FORTRAN, RUST)]
    pairs = [pair for pair in pairs if set(pair) <= set(contestants)]
    head = ["model", "n", "Jacobian", "dense", *(NAMES[name] for name in contestants)]
    lines = []
    for row in rows:
        found = measured(row, what)
        lines.append(way_words(row) + [f"{found[name] / scale:,.1f}" for name in contestants]
                     + [ratio(found[a], found[b]) for a, b in pairs])
    return table(head + [("" if a == OURS else f"{NAMES[a]} ") + f"of {NAMES[b]}" for a, b in pairs], lines)


def counts(rows):
    """Accepted, rejected, total, ode, jac and lu of each contestant; dense output changes none."""
    contestants = [name for name in rows[0]["ends"] if name != SAME]
    head = ["model", "n", "Jacobian"] + [f"{NAMES[name]}" for name in contestants]
    lines = [way_words(row)[:3] + [" ".join(f"{x:.0f}" for x in row["ends"][name][1:7]) for name in contestants]
             for row in rows if row["way"][1] == "none"]
    return table(head, lines)


def operations(row, name):
    """What the run of a contestant needs. The Fortran's decompositions are taken to need what
    ours need on the average."""
    (pairs, together), (rounds, of_round), (attempts, of_attempt), (accepted, of_acceptance), (ode,
        of_derivative) = row["needed"]
    if name == FORTRAN:
        _, accepted, _, attempts, ode, _, made, rounds = row["ends"][name]
        together = together / pairs * made
    return together + rounds * of_round + attempts * of_attempt + accepted * of_acceptance + ode * of_derivative


def per_attempt(rows, what):
    """Of an attempt time or instructions."""
    contestants = list(rows[0]["ends"])
    head = ["model", "n", *(NAMES[name] for name in contestants)]
    head += ["ours / Fortran"] if FORTRAN in contestants else []
    lines = []
    for row in rows:
        found = {name: value / row["ends"][name][3] for name, value in measured(row, what).items()}
        last = [ratio(found[OURS], found[FORTRAN])] if FORTRAN in found else []
        lines.append([row["model"], str(row["n"])] + [f"{found[name]:,.0f}" for name in contestants] + last)
    return table(head, lines)


def shares(row, name):
    """Decompositions and rounds of an attempt."""
    (pairs, _), (rounds, _), (attempts, _) = row["needed"][:3]
    if name == FORTRAN:
        attempts, pairs, rounds = (row["ends"][name][place] for place in (3, 6, 7))
    return f"{pairs / attempts:.2f}, {rounds / attempts:.2f}"


def per_operation(rows):
    """Operations that a run needs, and the instructions of each contestant for one."""
    contestants = [name for name in rows[0]["ends"]]
    apart = [OURS] + [name for name in contestants if name == FORTRAN]
    head = ["model", "n", *(f"attempt, {NAMES[name]}" for name in apart), "needed"]
    head += [f"one, {NAMES[name]}" for name in contestants]
    lines = []
    for row in rows:
        each = [row["instructions"][name] / operations(row, name) for name in contestants]
        lines.append([row["model"], str(row["n"])] + [shares(row, name) for name in apart]
                     + [f"{operations(row, OURS):,.0f}"] + [f"{x:.2f}" for x in each])
    return table(head, lines)


def memory(rows):
    """Of each contestant what a run holds at most: resident, above a process that runs nothing; and heap and stack."""
    contestants = list(rows[0]["ends"])
    head = ["model", "n", *(NAMES[name] for name in contestants)]
    lines = [[row["model"], str(row["n"])] + [f"{kb}; {asked:,}" for kb, asked in row["memory"].values()]
             for row in rows]
    return table(head, lines)


def verdict(found, goal):
    return [f"{found:.2f}", f"{goal:g}", "met" if found <= goal else "not met"]


def goals(rows):
    """Each goal with what was found."""
    lines = []
    for what, word in (("ns", "time"), ("instructions", "instructions")):
        for row in rows:
            found, ends = measured(row, what), row["ends"]
            if row["model"] in OF_THE_RUST:
                lines.append([f"{word} of a run, {row['model']} (n = {row['n']}), of the Rust's"]
                             + verdict(found[OURS] / found[RUST], OF_THE_RUST[row["model"]]))
            if FORTRAN in found:
                of_attempts = found[OURS] / ends[OURS][3] / (found[FORTRAN] / ends[FORTRAN][3])
                lines.append([f"{word} of an attempt, {row['model']} (n = {row['n']}), of the Fortran's"]
                             + verdict(of_attempts, OF_THE_FORTRAN))
    for row in rows:
        if row["n"] >= 8:
            each = row["instructions"][OURS] / operations(row, OURS)
            lines.append([f"instructions for a needed operation, {row['model']} (n = {row['n']})"]
                         + verdict(each, PER_OPERATION))
    return table(["goal", "found", "at most", "verdict"], lines)


def machine():
    """The processor, the compilers, and how steady the times were."""
    about = subprocess.run(["lscpu"], capture_output=True, text=True).stdout
    name = re.search(r"^Model name: *(.*)$", about, re.M)
    version = subprocess.run(["rustc", "--version"], capture_output=True, text=True).stdout.split("(")[0].strip()
    return f"{platform.machine()}, {name.group(1) if name else 'processor unknown'}, {version}"


def spread(rows):
    """By how much the median of a contestant's times lies above the least, at most and in the middle."""
    above = sorted(median / least - 1 for row in rows for median, least in row["ns"].values())
    return (f"The median of a time lies above the least by {above[len(above) // 2]:.1%} in the middle and "
            f"{above[-1]:.1%} at most.")


def in_short(rows):
    """Ours as a share of each other contestant's, model by model; above 1 ours loses."""
    asked = [(what, other) for what in ("ns", "instructions") for other in rows[0]["ends"] if other != OURS]
    head = [f"{'time' if what == 'ns' else 'instr.'} of {NAMES[other]}" for what, other in asked]
    lines = [[row["model"], str(row["n"]), *(ratio(measured(row, what)[OURS], measured(row, what)[other])
                                             for what, other in asked)] for row in rows]
    return table(["model", "n", *head], lines)


def said(text):
    """A paragraph within the width of a page, and a line that is left out."""
    return textwrap.fill(text, WIDE) + "\n\n"


def all_of(rows):
    plain = [row for row in rows if row["way"] == PLAIN]
    without = ("" if FORTRAN in rows[0]["ends"]
               else said("The published Fortran was not given, so its columns are not there."))
    parts = [
        said(f"Made on {machine()}. {spread(rows)} Ours and the Rust with our powers, Rust' in the tables, ended with "
             "the same bits and counts in every run.") + without,
        "### In short\n\n" + said("Ours as a share of the others', for a run with the host's Jacobian and no dense "
                                  "output; above 1 ours loses.") + in_short(plain),
        "### The goals\n\n" + goals(plain),
        "### Time of a run\n\n" + said("Median, in microseconds of the processor's time, and ours of the others'.")
        + of_runs(rows, "ns", 1e3),
        "### Instructions of a run\n\n" + said("By callgrind, in thousands, likewise.")
        + of_runs(rows, "instructions", 1e3),
        "### An attempt\n\n" + said("Host's Jacobian, no dense output. Time in ns:") + per_attempt(plain, "ns"),
        said("Instructions:") + per_attempt(plain, "instructions"),
        "### Operations\n\n" + said("Host's Jacobian, no dense output: decompositions and rounds of an attempt, the "
                                    "operations that our run needs, and the instructions for one.")
        + per_operation(plain),
        "### Memory\n\n" + said("One run, host's Jacobian, no dense output: the resident size at its most, above that "
                                "of a process that runs nothing, in kB; and heap and stack together, in bytes.")
        + memory(plain),
        "### Counts\n\n" + said("Accepted, rejected, total, ode, jac, lu. The Fortran's lu are pairs of "
                                "decompositions, and its ode has the calls for differences (docs/DEPARTURES.md, D34).")
        + counts(rows),
    ]
    return "\n".join(part.rstrip("\n") + "\n" for part in parts)


# ---- the nightly job

SPELLED = {"n": "species", "reactions": "reactions"}
STATUSES = ("success", "interrupted", "too many steps", "step too small", "", "singular matrix", "")


def night_row(row):
    """Sheets a second of both, and ours as a share of the Rust's."""
    time, count = measured(row, "ns"), row["instructions"]
    return ([str(row["n"]), str(row["reactions"])] + [f"{1e9 / time[name]:,.0f}" for name in (OURS, RUST)]
            + [ratio(time[OURS], time[RUST])] + [f"{count[name]:,.0f}" for name in (OURS, RUST)]
            + [ratio(count[OURS], count[RUST])])


def together(rows, what):
    """The mean over the rows, which have the same number of sheets, and so over all sheets."""
    found = [measured(row, what) for row in rows]
    return {name: sum(each[name] for each in found) / len(found) for name in (OURS, RUST)}


def night_total(rows):
    time, count = together(rows, "ns"), together(rows, "instructions")
    return (f"Over all sheets ours takes {time[OURS] / 1e3:.1f} µs and the Rust {time[RUST] / 1e3:.1f}: "
            f"{ratio(time[OURS], time[RUST])} of its time, and {ratio(count[OURS], count[RUST])} of its instructions.")


def night_ends(rows):
    ended = [sum(each) for each in zip(*(row["ended"] for row in rows))]
    return ", ".join(f"{name} {count:,}" for name, count in zip(STATUSES, ended) if count)


def shares_by(rows, what):
    """Ours as a share of the Rust's, over the sheets of each number of species, or of reactions."""
    groups = [[row for row in rows if row[what] == number] for number in sorted({row[what] for row in rows})]
    return table([SPELLED[what], *(str(each[0][what]) for each in groups)], [
        [word, *(ratio(*(together(each, measure)[name] for name in (OURS, RUST))) for each in groups)]
        for measure, word in (("ns", "time"), ("instructions", "instructions"))])


def of_nights(rows, sheets, goal):
    head = ["species", "reactions", "sheets a second", "the Rust", "time, share", "instructions", "the Rust", "share"]
    time = together(rows, "ns")
    met = "met" if time[OURS] <= goal * time[RUST] else "not met"
    words = [
        f"Made on {machine()}. {spread(rows)} {sheets} sheets in each row, {sheets * len(rows):,} in all; of every one "
        f"ours printed what the Rust came to with document 01's powers. They ended so: {night_ends(rows)}.",
        f"{night_total(rows)} The goal is {goal} of its time: {met}.",
        "Ours as a share of the Rust's, by species and by reactions; above 1 ours loses:",
    ]
    parts = [*(textwrap.fill(each, WIDE) for each in words), shares_by(rows, "n"), shares_by(rows, "reactions"),
             table(head, [night_row(row) for row in rows])]
    return "\n\n".join(part.rstrip("\n") for part in parts) + "\n"
