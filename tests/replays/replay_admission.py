#!/usr/bin/env python3
"""States of runs and replies to them, with the verdicts of document 01 on an advance.

    tests/replays/replay_admission.py write   write crates/replay_admission/stdin and stdout
    tests/replays/replay_admission.py check   make both anew and compare them with what is stored

The Rust has no such tests, so nothing here is held against it.

Exit status: 0 nothing differs; 1 a line differs, and the first is shown; 2 wrong use.

How the verdicts are made. Nothing here is a translation of the port. UNFIT below has the clauses of 01's paragraph
'Unfit means one of', each in its own words, on whole numbers without bounds and Python's floats; what it takes from
rows 1, 2 and 4 to 8 of 01's table are the functions of tests/replays/replay_opening.py. 13 is told where a clause
holds, else 14 where the run has ended, else 15 where the reply is not of the kind asked for, else 0. The cases are
made by altering a state that no clause refuses; for each it is said which clauses are to hold, and a case in which
others do stops the script.

A case is a block of twelve lines, each of four words of 16 hex digits with a space between. Doubles are bit patterns; a
NaN is always 7ff8000000000000.

    1-5  as in tests/replays/replay_opening.py, x in the place of x0, with further choices, a bit for each of FLAGS
         behind those there; in the place of the outcome the row of the summary and 01's number, four digits each
    6-7  the lengths of the 22 parts, four digits each; then nind1, nind2
    8    nind3, newt_iter, singular_count, ode
    9    jac, lu, total, accepted
    10   rejected; the stage by its place in STAGES, the status, the reply by its place in REPLIES, of four digits
         each; the column; the float of the reply
    11   for each list of pivots the place of one entry (ffff: none) and what the others are, four digits each; what
         that entry is in each list; the pattern of every float of the state that has no word of its own
    12   1 if there are strides, else 0; the smallest, the largest; 0"""

import sys

import pathlib
sys.path[:0] = [str(each) for each in pathlib.Path(__file__).resolve().parents[1].iterdir() if each.is_dir()]
import command
import rust_text
from draw import INFINITY, LARGEST, NAN, SIGN, SMALLEST, pattern_of
from replay_scalar import number
from replay_opening import NAMES, PARTS, Opening, compare, head_words, insist, packed, text_of
from replay_opening import ROWS as OPENING_ROWS

STDIN = rust_text.ROOT / "crates" / "replay_admission" / "stdin"
STDOUT = rust_text.ROOT / "crates" / "replay_admission" / "stdout"

# The stages with what each asks for; an ended run asks for nothing.
STAGES = {
    "first derivative": "filled",
    "first report": "report",
    "first derivative again": "filled",
    "jacobian": "filled",
    "column": "filled",
    "newton 1": "filled",
    "newton 2": "filled",
    "newton 3": "filled",
    "refinement": "filled",
    "accepted": "filled",
    "report": "report",
    "derivative again": "filled",
    "ended": None,
}
STATUSES = (0, 1, 2, 3, 5)

# The replies with the kind of each.
REPLIES = {"filled": "filled", "continue": "report", "interrupt": "report", "modified": "report", "mark": "report"}

# What else a state holds that is on or off.
FLAGS = ("first", "last", "reject", "call_jac", "call_decomp", "xout", "made_here")

# The program has this much room for a part and for a list of pivots, and reads no more cases than this.
MOST_ENTRIES, MOST_PIVOTS = 1090, 34
MOST_CASES = 20_000
MOST_WHOLE = 2**64 - 1


# --- A state ---------------------------------------------------------------------------------


class State(Opening):
    """The state of a run, with the reply. The settings and the lengths are those of an opening; x0 is the point."""

    def __init__(self, n=2):
        super().__init__(n)
        self.partition = (n, 0, 0)
        self.newt_iter, self.singular_count = 1, 1
        self.ode, self.jac, self.lu, self.total, self.accepted, self.rejected = 5, 2, 4, 1, 1, 1
        self.stage, self.column, self.status = "newton 2", 0, 0
        self.reply, self.reply_float = "filled", 0.5
        # For each list: one place, what stands there, and what stands elsewhere.
        self.pivots = ((0xFFFF, 0, max(n - 1, 0) % 64), (0xFFFF, 0, 0))
        self.first = self.last = self.reject = self.call_jac = self.call_decomp = self.xout = self.made_here = False
        self.filling = 0.25
        # The smallest and the largest, or None.
        self.strides = (0.125, 0.5)

    def at(self, stage, **changes):
        """At another stage, with a reply that fits it."""
        reply = "continue" if STAGES[stage] == "report" else "filled"
        return self.copy(stage=stage, reply=reply, **changes)

    def pivots_of(self, side):
        place, odd, others = self.pivots[side]
        length = self.lengths[("ip1", "ip2")[side]]
        return [odd if at == place else others for at in range(length)]


# --- Document 01's clauses -------------------------------------------------------------------


def has_ended(s):
    return s.stage == "ended"


def has_stray_pivot(s):
    """A pivot (first n-1 of either list) not below n."""
    return any(pivot >= s.n for side in (0, 1) for pivot in s.pivots_of(side)[: max(s.n - 1, 0)])


def has_large_count(s):
    """ode, jac or lu above 2+3(K+1)M, 6(M+1), 13M+12; accepted above M; rejected above 2M."""
    m, k = s.max_steps, s.newton_maxiter
    evaluations = s.ode > 2 + 3 * (k + 1) * m or s.jac > 6 * (m + 1) or s.lu > 13 * m + 12
    return evaluations or s.accepted > m or s.rejected > 2 * m


UNFIT = {
    # n or lengths wrong
    "n": lambda s: OPENING_ROWS[1](s) is not None,
    "lengths": lambda s: OPENING_ROWS[2](s) is not None,
    # settings failing 4 to 8
    "settings": lambda s: any(OPENING_ROWS[row](s) is not None for row in range(4, 9)),
    # a partition not summing to n
    "partition": lambda s: sum(s.partition) != s.n,
    # attempts above max_steps in a run not ended
    "attempts": lambda s: s.total > s.max_steps and not has_ended(s),
    # Newton rounds above newton_maxiter
    "rounds": lambda s: s.newt_iter > s.newton_maxiter,
    # a difference column above n
    "column": lambda s: s.stage == "column" and s.column > s.n,
    # a singular count above 5 in a run not ended
    "singular count": lambda s: s.singular_count > 5 and not has_ended(s),
    "pivots": has_stray_pivot,
    "counts": has_large_count,
    # neither stride is negative (02, [7])
    "strides": lambda s: s.strides is not None and any(stride < 0 for stride in s.strides),
}


def clauses_of(s):
    return {name for name, test in UNFIT.items() if test(s)}


def verdict(s):
    """Advancing tests 13, 14, 15."""
    if clauses_of(s):
        return 13
    if has_ended(s):
        return 14
    return 0 if REPLIES[s.reply] == STAGES[s.stage] else 15


# --- The text of a case ----------------------------------------------------------------------

# The rows of the summary: each clause kept and broken, then what else is tried.
SUMMARY = [f"{name} {word}" for name in UNFIT for word in ("fit", "unfit")]
SUMMARY += ["two clauses", "13 before 14", "13 before 15", "ended 14", "replies admitted", "replies 15", "untested"]
# Fitting lengths are tried with every n.
SUMMARY.remove("lengths fit")


def words_of(s, row):
    insist(all(length <= MOST_ENTRIES for length in s.lengths.values()),
           "a part is longer than the program has room for")
    insist(max(s.lengths["ip1"], s.lengths["ip2"]) <= MOST_PIVOTS, "pivots are more than the program has room for")
    (place1, odd1, others1), (place2, odd2, others2) = s.pivots
    words = head_words(s, FLAGS) + packed((SUMMARY.index(row), verdict(s)))
    words += packed(s.lengths[name] for name in NAMES) + [*s.partition, s.newt_iter, s.singular_count]
    words += [s.ode, s.jac, s.lu, s.total, s.accepted, s.rejected]
    words += packed((list(STAGES).index(s.stage), s.status, list(REPLIES).index(s.reply)))
    words += [s.column, pattern_of(s.reply_float)]
    words += packed((place1, others1, place2, others2)) + [odd1, odd2, pattern_of(s.filling)]
    return words + [int(s.strides is not None), *map(pattern_of, s.strides or (0.0, 0.0)), 0]


# --- The cases -------------------------------------------------------------------------------
# Each maker gives pairs of a row of the summary and a state.

TINY, HUGE, INF = number(SMALLEST), number(LARGEST), number(INFINITY)
MINUS_ZERO, NOT_A_NUMBER = number(SIGN), number(NAN)

# Each clause broken, alone where the run has not ended, in a way or two.
BREAKERS = {
    "n": [{"n": 33, "partition": (33, 0, 0), "lengths": {name: length(33) for name, length in PARTS.items()}}],
    "lengths": [{"lengths": {"f0": 1}}, {"lengths": {"e2i": 5}}],
    "settings": [{"uround": 1.0}, {"scale_max": NOT_A_NUMBER}],
    "partition": [{"partition": (2**63, 2**63, 2)}, {"partition": (1, 0, 0)}],
    "attempts": [{"total": 100_001}],
    "rounds": [{"newt_iter": 8}],
    "column": [{"stage": "column", "column": 34}],
    "singular count": [{"singular_count": 6}],
    "pivots": [{"pivots": ((0, 34, 0), (0xFFFF, 0, 0))}, {"pivots": ((0xFFFF, 0, 0), (0, 34, 1))}],
    "counts": [{"lu": 1_300_013}, {"accepted": 100_001}],
    "strides": [{"strides": (-TINY, 1.0)}, {"strides": (NOT_A_NUMBER, -INF)}],
}


def around(*numbers):
    return sorted({k + d for k in numbers for d in (-1, 0, 1) if 0 <= k + d <= MOST_WHOLE} | {MOST_WHOLE})


def neighbours(x):
    """A positive double with those before and after it, and the ends of all doubles."""
    near = [number(pattern_of(x) + d) for d in (-1, 0, 1)]
    return near + [-x, 0.0, MINUS_ZERO, TINY, -TINY, HUGE, INF, -INF, NOT_A_NUMBER]


def alone(clause, states):
    """Each state breaks this clause and no other, or none."""
    for s in states:
        found = clauses_of(s)
        insist(found <= {clause}, f"{found} hold where only {clause} may")
        yield f"{clause} {'unfit' if found else 'fit'}", s


def cases_of_n():
    for n in (*range(34), 34, 64, 2**32, 2**63, MOST_WHOLE):
        s = State(n)
        # From 34 on no fitting lengths have room here, so that lengths are wrong too.
        yield from alone("n", [s]) if n <= 33 else [("n unfit", s)]


def cases_of_lengths():
    for n in (1, 2, 32):
        s = State(n)
        for name, length in PARTS.items():
            for wrong in {length(n) - 1, length(n) + 1, 0}:
                yield from alone("lengths", [s.copy(lengths={name: wrong})])


def cases_of_settings():
    s = State()
    changes = [{"max_steps": k} for k in (2**63, *around(1, 1_000_000))]
    changes += [{"newton_maxiter": k} for k in (2**63, *around(1, 16))]
    for name, low in (("uround", 1e-35), ("safety_factor", 1e-4), ("scale_min", 8.0), ("scale_max", 0.2)):
        changes += [{name: x} for x in (*neighbours(low), *neighbours(1.0))]
    changes += [{"scale_min": x, "scale_max": y} for x,
                y in ((1.0, 1.0), (TINY, 2 * TINY), (-2.0, -1.0), (INF, INF), (HUGE, INF))]
    for change in changes:
        # A setting that is out of range may break a clause that is counted by it, but is unfit all the same.
        made = s.copy(**change)
        broken = bool(OPENING_ROWS[4](made) or OPENING_ROWS[8](made))
        yield from [("settings unfit", made)] if broken else alone("settings", [made])


def cases_of_partitions():
    for n in (1, 2, 32):
        parts = {(n, 0, 0), (0, n, 0), (0, 0, n), (n - 1, 1, 0), (n - 1, 0, 1), (0, 0, 0), (n, n, n)}
        parts |= {(n - 1, 0, 0), (n + 1, 0, 0), (0, n + 1, 0), (0, 0, n + 1), (n, 1, 0), (n, 0, 1), (0, n - 1, 0)}
        # Sums of 2^64 + n and of 2^65 + n, which wrap to n.
        parts |= {(n, 2**63, 2**63), (2**63, n, 2**63), (2**63, 2**63, n), (MOST_WHOLE, n + 1, 0),
                  (n + 1, 0, MOST_WHOLE)}
        parts |= {(0, MOST_WHOLE, n + 1), (MOST_WHOLE, MOST_WHOLE, n + 2), (MOST_WHOLE, 1, n), (MOST_WHOLE, 1, n - 1)}
        for part in sorted(parts):
            yield from alone("partition", [State(n).copy(partition=part)])


def cases_of_attempts():
    for m in (1, 2, 100_000, 1_000_000):
        for total in around(m):
            s = State().copy(max_steps=m, total=total)
            yield from alone("attempts", [s, s.at("report"), s.copy(stage="ended", status=2), s.copy(stage="ended")])
    for total in (100_000, 100_001):
        yield from alone("attempts", [State().at(stage, total=total) for stage in STAGES])


def cases_of_rounds():
    for k in (1, 7, 16):
        for rounds in around(k):
            s = State().copy(newton_maxiter=k, newt_iter=rounds)
            yield from alone("rounds", [s, s.at("first report"), s.copy(stage="ended")])


def cases_of_columns():
    for n in (1, 2, 31, 32):
        for column in around(0, 1, n):
            yield from alone("column", [State(n).copy(stage="column", column=column)])


def cases_of_singular_counts():
    for count in (0, 1, 4, 5, 6, 7, MOST_WHOLE):
        yield from alone("singular count",
                         [State().copy(singular_count=count), State().copy(singular_count=count, stage="ended")])
    for count in (5, 6):
        yield from alone("singular count", [State().at(stage, singular_count=count) for stage in STAGES])
        yield from alone("singular count",
                         [State().copy(stage="ended", status=status, singular_count=count) for status in STATUSES])


def cases_of_pivots():
    for n in (1, 2, 5, 32):
        fine = (0xFFFF, 0, n - 1)
        for place in {0, n - 2, n - 1} - {-1}:
            for pivot in (n - 1, n, MOST_WHOLE):
                odd = (place, pivot, 0)
                yield from alone("pivots", [State(n).copy(pivots=lists) for lists in ((odd, fine), (fine, odd))])
        every = (0xFFFF, 0, n)
        for lists in ((every, fine), (fine, every)):
            yield from alone("pivots", [State(n).copy(pivots=lists), State(n).copy(pivots=lists, stage="ended")])


def bounds_of(s):
    m, k = s.max_steps, s.newton_maxiter
    return {"ode": 2 + 3 * (k + 1) * m, "jac": 6 * (m + 1), "lu": 13 * m + 12, "accepted": m, "rejected": 2 * m}


def cases_of_counts():
    for m, k in ((1, 1), (1, 16), (100_000, 7), (1_000_000, 16)):
        s = State().copy(max_steps=m, newton_maxiter=k)
        bounds = bounds_of(s)
        yield from alone("counts", [s.copy(**bounds), s.copy(stage="ended", **bounds)])
        for name, bound in bounds.items():
            for count in (0, bound, bound + 1, MOST_WHOLE):
                yield from alone("counts", [s.copy(**{name: count})])
            yield from alone("counts", [s.copy(stage="ended", **{name: bound + 1})])


def cases_of_strides():
    """Each alone, whatever the other is, in a run that goes on and in one that has ended."""
    strides = (0.0, MINUS_ZERO, TINY, -TINY, 1.0, -1.0, HUGE, -HUGE, INF, -INF, NOT_A_NUMBER)
    for pair in (None, *((one, other) for one in strides for other in strides)):
        s = State().copy(strides=pair)
        yield from alone("strides", [s, s.copy(stage="ended")])
    for stage in STAGES:
        pairs = (None, (MINUS_ZERO, 1.0), (1.0, -TINY))
        yield from alone("strides", [State().at(stage, strides=pair) for pair in pairs])


def broken(*breakers):
    made = State()
    for breaker in breakers:
        made = made.copy(**breaker)
    return made


def cases_of_orders():
    """13 goes before 14 and before 15; two clauses are 13 as well."""
    for clause, breakers in BREAKERS.items():
        for breaker in breakers:
            s = broken(breaker)
            yield from alone(clause, [s])
            yield "13 before 15", s.copy(reply="continue")
            yield "13 before 15", s.copy(reply="mark")
            ended = s.copy(stage="ended")
            for made in (ended, ended.copy(reply="interrupt")):
                # What is said of a run not ended, or of the stage of a column, breaks no clause there.
                yield "13 before 14" if clauses_of(made) else "ended 14", made
    names = list(BREAKERS)
    for place, one in enumerate(names):
        for other in names[place + 1 :]:
            yield "two clauses", broken(BREAKERS[one][0], BREAKERS[other][-1])


def cases_of_replies():
    """Every stage with every reply. An ended run asks for nothing, so that each reply to it is 14 and could be 15."""
    for stage in STAGES:
        for reply in REPLIES:
            for status in STATUSES if stage == "ended" else (0,):
                s = State().copy(stage=stage, reply=reply, status=status)
                yield {0: "replies admitted", 14: "ended 14", 15: "replies 15"}[verdict(s)], s
    for x in (NOT_A_NUMBER, INF, -INF, MINUS_ZERO):
        for stage, reply in (("report", "modified"), ("first report", "mark")):
            yield "replies admitted", State().copy(stage=stage, reply=reply, reply_float=x)


def cases_untested():
    """What no clause looks at may hold anything: other settings, tolerances, points, steps and switches."""
    s = State()
    for x in (NOT_A_NUMBER, INF, -INF, MINUS_ZERO, HUGE, -1.0):
        yield "untested", s.copy(x0=x, xend=x, rtol=x, atol=x, filling=x)
        yield "untested", s.copy(max_step=x, min_step=x, newton_tol=x, first_step=x, filling=x, xout=True)
    yield "untested", s.copy(max_step=1.0, min_step=2.0, first_step=0.0)
    for count in (0, 3, MOST_WHOLE):
        yield "untested", s.copy(nind1=count, nind2=count, nind3=count)
    switches = ("predictive", "dense_output", "full", "host", "book", "lists", *FLAGS)
    for on in (False, True):
        yield "untested", s.copy(**{name: on for name in switches})
        for name in switches:
            yield "untested", s.copy(**{name: on})


def every_case():
    makers = (cases_of_n, cases_of_lengths, cases_of_settings, cases_of_partitions, cases_of_attempts, cases_of_rounds)
    makers += (cases_of_columns, cases_of_singular_counts, cases_of_pivots, cases_of_counts, cases_of_strides,
               cases_of_orders, cases_of_replies)
    found = {}
    for make in (*makers, cases_untested):
        for row, s in make():
            insist(row != "untested" or verdict(s) == 0, "what no clause looks at is refused")
            insist(row != "two clauses" or len(clauses_of(s)) >= 2, "two clauses are to hold")
            # The same state under two rows is one case, under the first.
            found.setdefault(text_of(words_of(s, SUMMARY[0])), (row, s))
    return {text_of(words_of(s, row)): (row, s) for row, s in found.values()}


def summary(cases):
    """What the program writes where every verdict is met."""
    counts = {row: 0 for row in SUMMARY}
    for row, _ in cases.values():
        counts[row] += 1
    return "".join(f"{row}: {count} agree 0 differ\n" for row, count in counts.items()) + "malformed 0\n"


def main(words):
    name, _ = command.act(__doc__, words, ("write", "check"), more=0)
    cases = every_case()
    insist(len(cases) <= MOST_CASES, f"{len(cases)} cases are more than the program reads")
    if name == "write":
        STDIN.write_text("".join(cases))
        STDOUT.write_text(summary(cases))
    compare(STDIN, "".join(cases))
    compare(STDOUT, summary(cases))
    verdicts = [verdict(s) for _, s in cases.values()]
    told = ", ".join(f"{verdicts.count(each)} refused by {each}" for each in (13, 14, 15))
    print(f"{len(cases)} cases are as stored: {verdicts.count(0)} admitted, {told}")


if __name__ == "__main__":
    main(sys.argv[1:])
