"""`solve`: a problem of the caller's own, from its opening to its end."""

import bisect
import dataclasses
import itertools

from . import _numbers as numbers
from ._errors import BrokenOff, Refused, ending_words, refusal_words, singular_words
from ._run import Opening, Run, whole

RULES = {"rust": 0, "book": 1}
SINGULARS = {numbers.SINGULAR_NONE: "none", numbers.SINGULAR_REAL: "real", numbers.SINGULAR_COMPLEX: "complex"}
# Settings that go by other arguments, or that say of another whether it is given.
APART = {"MASS", "SOURCE", "RULE", "DENSE_OUTPUT"}
INTERRUPT = object()  # what `report` answers to end the run


@dataclasses.dataclass(frozen=True)
class Modified:
    """What `report` answers to have the run go on from another point and other amounts."""

    x: float
    y: list


@dataclasses.dataclass(frozen=True)
class Mark:
    """What `report` answers to be offered steps from x on, where `dense_output` is off."""

    x: float


@dataclasses.dataclass(frozen=True)
class Result:
    """How a run ended. Of one whose opening was refused, `status`, the counts, `x` and `h` are None."""

    success: bool
    message: str
    t: list  # the points of t_eval that were passed, else the start and the end of each accepted step
    y: list  # of each amount a list, one number for each point of t
    status: int | None = None
    refused: int | None = None  # document 01's number
    accepted: int | None = None
    rejected: int | None = None
    total: int | None = None
    nfev: int | None = None  # derivatives, without those that differences took
    njev: int | None = None
    nlu: int | None = None  # decompositions that were tried, real and complex, and first error solves
    x: float | None = None  # the point reached
    h: float | None = None  # the step that the run held there
    singular: str | None = None  # with status 5: "real" or "complex", the matrix that was singular latest, or "none"
    column: int | None = None  # its column without a pivot, from 0; None where there is none
    smallest: float | None = None  # |h| over the accepted steps, NaN passed over; both are 0.0 where there is none
    largest: float | None = None
    sol: object = None  # a Solution, where dense_output asked for one


class Solution:
    """The amounts anywhere between the start and the point reached."""

    def __init__(self, t0, xend, y0):
        self._t0, self._y0, self._steps = t0, y0, []
        self._sign = -1.0 if xend < t0 else 1.0
        self._passed = []  # the ends of the steps, rising

    def add(self, step):
        self._steps.append(step)
        self._passed.append(self._sign * step.x)

    def extend(self, xend):
        """The last step is aimed at the end, and rounding may leave its point a little before it."""
        if self._passed:
            self._passed[-1] = max(self._passed[-1], self._sign * xend)

    def __call__(self, t):
        """The amounts at t, or of a list of points a list for each amount."""
        if hasattr(t, "__iter__"):
            return by_amount([self(point) for point in t], len(self._y0))
        if t == self._t0:
            return list(self._y0)
        place = bisect.bisect_left(self._passed, self._sign * t)
        if place == len(self._steps) or not self._sign * t > self._sign * self._t0:
            raise ValueError(f"the run did not pass {t!r}")
        return self._steps[place](t)


def by_amount(points, n):
    return [[point[i] for point in points] for i in range(n)]


# --- What is given -------------------------------------------------------------------------------


def flat(rows, n, what):
    """The entries of a matrix, row by row."""
    entries = [[float(entry) for entry in row] for row in rows]
    if len(entries) != n or any(len(row) != n for row in entries):
        raise ValueError(f"{what} is not {n} rows of {n}")
    return list(itertools.chain(*entries))


def set_tolerances(opening, rtol, atol):
    """Two numbers, or two lists; beside a list a number stands for each amount."""
    several = [hasattr(given, "__iter__") for given in (rtol, atol)]
    if not any(several):
        opening.rtol, opening.atol = float(rtol), float(atol)
        return
    opening.lists = 1
    for name, given, is_list in zip(("rtol", "atol"), (rtol, atol), several):
        values = [float(number) for number in given] if is_list else [float(given)] * opening.n
        opening.given[name] = values


def set_setting(opening, name, value):
    """One setting under its name in the header, in small letters."""
    upper = name.upper()
    place, number = getattr(numbers, f"FLOAT_{upper}", None), getattr(numbers, f"NUMBER_{upper}", None)
    if upper in APART or upper.endswith("_GIVEN") or (place is None and number is None):
        raise TypeError(f"solve() has no setting {name!r}")
    if value is None:
        return
    if place is not None:
        opening.floats[place] = float(value)
    else:
        opening.numbers[number] = whole(name, value)
    given = getattr(numbers, f"NUMBER_{upper}_GIVEN", None)
    if given is not None:
        opening.numbers[given] = 1


def opening_of(span, y0, rtol, atol, rule, mass, settings):
    x0, xend = span
    opening = Opening(x0, xend, y0)
    if rule not in RULES:
        raise ValueError(f"rule is {rule!r}, and not one of {', '.join(RULES)}")
    opening.numbers[numbers.NUMBER_RULE] = RULES[rule]
    opening.numbers[numbers.NUMBER_MASS] = mass is not None
    if mass is not None:
        opening.given["mass"] = flat(mass, opening.n, "mass")
    set_tolerances(opening, rtol, atol)
    for name, value in settings.items():
        set_setting(opening, name, value)
    return opening


def points_of(t_eval, x0, xend):
    """The points to be told of, which must lie between the ends and go on from the start."""
    points = [float(point) for point in t_eval]
    way = [x0, *points, xend] if xend >= x0 else [xend, *reversed(points), x0]
    if not all(first <= second for first, second in itertools.pairwise(way)):
        raise ValueError("t_eval does not go from one end of the span to the other")
    return points


# --- What is collected ---------------------------------------------------------------------------


class Seen:
    """What is noted at the reports of a run."""

    def __init__(self, opening, t_eval, dense_output):
        self.wanted = None if t_eval is None else points_of(t_eval, opening.x0, opening.xend)
        self.t, self.amounts, self.last, self.begun = [], [], None, False
        self.sol = Solution(opening.x0, opening.xend, opening.y0) if dense_output else None
        self.xend = opening.xend

    def note(self, point, amounts):
        self.t.append(point)
        self.amounts.append(amounts)

    def next_wanted(self):
        return self.wanted[len(self.t)] if len(self.t) < len(self.wanted) else None

    def report(self, x, amounts, step):
        if step and self.sol:
            self.sol.add(step)
        if self.wanted is None:
            self.note(x, amounts)
            return
        self.last = step
        point = self.next_wanted()
        while point is not None and (step.passes(point) if step else point == x):
            self.note(point, step(point) if step else amounts)
            point = self.next_wanted()

    def modify(self):
        """From here on there is no one course of the amounts to read points off."""
        if self.wanted is not None:
            raise ValueError("a run whose points are modified has no t_eval")
        self.sol = None

    def succeed(self):
        """Points that rounding has left behind the last step are its own."""
        if self.sol:
            self.sol.extend(self.xend)
        while self.wanted and self.next_wanted() is not None:
            point = self.next_wanted()
            self.note(point, self.last(point))


# --- The run -------------------------------------------------------------------------------------


def derivative(run, f):
    source, target = run.place
    values = [float(value) for value in f(run.at[0], run.amounts(source))]
    if len(values) != run.n:
        raise ValueError(f"f gives {len(values)} derivatives of {run.n} amounts")
    run.fill(target, values)
    run.advance(numbers.REPLY_FILLED)


def jacobian(run, jac):
    run.fill("jac", flat(jac(run.at[0], run.amounts()), run.n, "the Jacobian"))
    run.advance(numbers.REPLY_FILLED)


def modified(run, answer, seen):
    seen.modify()
    values = [float(value) for value in answer.y]
    if len(values) != run.n:
        raise ValueError(f"report gives {len(values)} amounts for {run.n}")
    run.fill("y", values)
    run.advance(numbers.REPLY_MODIFIED, float(answer.x))


def shelve(run, shelf, seen):
    """Each report but the first tells of a step, which is kept whether or not it is offered."""
    if shelf is not None and seen.begun:
        shelf.put(run.held())
    elif shelf is not None:
        shelf.empty()
    seen.begun = True


def reported(run, report, shelf, seen):
    step, (xold, x) = run.step(), run.at
    shelve(run, shelf, seen)
    seen.report(x, run.amounts(), step)
    answer = report(xold, x, run.amounts(), step) if report else None
    if answer is None:
        run.advance(numbers.REPLY_CONTINUE)
    elif answer is INTERRUPT:
        run.advance(numbers.REPLY_INTERRUPT)
    elif isinstance(answer, Mark):
        run.advance(numbers.REPLY_MARK, float(answer.x))
    elif isinstance(answer, Modified):
        modified(run, answer, seen)
        if shelf is not None:
            shelf.empty()
    else:
        raise TypeError(f"report answers {answer!r}, which is not None, INTERRUPT, a Mark or Modified")


def to_its_end(run, f, jac, report, shelf, seen):
    while run.kind != numbers.KIND_ENDED:
        if run.kind == numbers.KIND_DERIVATIVE:
            derivative(run, f)
        elif run.kind == numbers.KIND_JACOBIAN:
            jacobian(run, jac)
        else:
            reported(run, report, shelf, seen)


def singular_of(counts):
    """Which matrix was singular latest, and its column: told with status 5 alone."""
    if counts[numbers.RESULT_STATUS] != numbers.STATUS_SINGULAR_MATRIX:
        return None, None
    singular = SINGULARS[counts[numbers.RESULT_SINGULAR]]
    return singular, None if singular == "none" else counts[numbers.RESULT_COLUMN]


def result_of(run, seen):
    counts, floats = run.result()
    status, x = counts[numbers.RESULT_STATUS], floats[numbers.RESULT_X]
    accepted, rejected = counts[numbers.RESULT_ACCEPTED], counts[numbers.RESULT_REJECTED]
    success = status == numbers.STATUS_SUCCESS
    singular, column = singular_of(counts)
    if success:
        seen.succeed()
    return Result(
        success=success,
        message=ending_words(status, x, seen.xend, accepted, rejected) + singular_words(singular, column),
        t=seen.t,
        y=by_amount(seen.amounts, run.n),
        status=status,
        accepted=accepted,
        rejected=rejected,
        total=counts[numbers.RESULT_TOTAL],
        nfev=counts[numbers.RESULT_ODE],
        njev=counts[numbers.RESULT_JAC],
        nlu=counts[numbers.RESULT_LU],
        x=x,
        h=floats[numbers.RESULT_H],
        singular=singular,
        column=column,
        smallest=floats[numbers.RESULT_SMALLEST],
        largest=floats[numbers.RESULT_LARGEST],
        sol=seen.sol,
    )


def solve(
    f,
    span,
    y0,
    *,
    jac=None,
    t_eval=None,
    dense_output=False,
    report=None,
    shelf=None,
    rtol=1e-3,
    atol=1e-6,
    rule="rust",
    mass=None,
    check=True,
    **settings,
):
    """Solve M y' = f(x, y) from span[0] and y0 to span[1]. README.md says what the arguments are.

    Raises Refused where the opening is refused, and BrokenOff where the run did not succeed; with `check=False` the
    Result says so instead. What f, jac or report raises comes through, and the run is dropped."""
    try:
        opening = opening_of(span, y0, rtol, atol, rule, mass, settings)
        opening.numbers[numbers.NUMBER_SOURCE] = jac is None
        opening.numbers[numbers.NUMBER_DENSE_OUTPUT] = dense_output or t_eval is not None
        run = Run(opening)
    except Refused as refused:
        if check:
            raise
        return Result(False, refusal_words(refused.number), [], [], refused=refused.number)
    seen = Seen(opening, t_eval, dense_output)
    to_its_end(run, f, jac, report, shelf, seen)
    result = result_of(run, seen)
    if check and not result.success:
        raise BrokenOff(result)
    return result
