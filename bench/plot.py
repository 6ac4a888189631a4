"""bench/whole.svg: the time of a run as a share of the Rust's, model by model, on a logarithmic
scale. For bench/whole.py."""

import math

import tables

WIDTH, HEIGHT, LEFT, TOP, RIGHT, BOTTOM = 760, 440, 60, 50, 170, 60
SERIES = [(tables.SAME, "the Rust, our powers", "#8a8a8a"), (tables.FORTRAN, "published Fortran", "#c8641e"),
          (tables.OURS, "ours", "#1f5fa8")]
GOAL = "#3c8c3c"
LINE = list(tables.OF_THE_RUST)
MARKS = [0.05, 0.1, 0.2, 0.5, 1, 2, 5, 10, 20, 50]


def label(x, y, words, more=""):
    return f'<text x="{x:.0f}" y="{y:.0f}" {more}>{words}</text>'


def across(k):
    return LEFT + (WIDTH - LEFT - RIGHT) * (k + 0.5) / len(LINE)


class Scale:
    """Where a share stands."""

    def __init__(self, shares):
        self.marks = [mark for mark in MARKS if min(shares) / 2 < mark < max(shares) * 2.5]
        self.low, self.high = math.log(self.marks[0]), math.log(self.marks[-1])

    def down(self, share):
        return HEIGHT - BOTTOM - (HEIGHT - TOP - BOTTOM) * (math.log(share) - self.low) / (self.high - self.low)


def frame(scale, sizes):
    """The grid, the models below it, and the goals."""
    for mark in scale.marks:
        y, colour = scale.down(mark), "#333333" if mark == 1 else "#dddddd"
        yield f'<line x1="{LEFT}" y1="{y:.1f}" x2="{WIDTH - RIGHT}" y2="{y:.1f}" stroke="{colour}"/>'
        yield label(LEFT - 10, y + 4, f"{mark:g}", 'text-anchor="end"')
    for k, model in enumerate(LINE):
        yield label(across(k), HEIGHT - BOTTOM + 24, model, 'text-anchor="middle"')
        yield label(across(k), HEIGHT - BOTTOM + 42, f"n = {sizes[model]}", 'text-anchor="middle"')
        y = scale.down(tables.OF_THE_RUST[model])
        yield (f'<line x1="{across(k) - 24:.1f}" y1="{y:.1f}" x2="{across(k) + 24:.1f}" y2="{y:.1f}" stroke="{GOAL}" '
               f'stroke-width="3"/>')


def curve(scale, shares, colour):
    """A line through the shares, which are written beside it unless they are about 1."""
    places = [(across(k), scale.down(share)) for k, share in enumerate(shares)]
    points = " ".join(f"{x:.1f},{y:.1f}" for x, y in places)
    yield f'<polyline fill="none" stroke="{colour}" stroke-width="2" points="{points}"/>'
    for (x, y), share in zip(places, shares):
        yield f'<circle cx="{x:.1f}" cy="{y:.1f}" r="4" fill="{colour}"/>'
        if abs(share - 1) > 0.1:
            yield label(x, y - 9 if share > 1 else y + 20, f"{share:.2f}", f'text-anchor="middle" fill="{colour}"')


def drawn(rows):
    plain = {row["model"]: row for row in rows if row["way"] == tables.PLAIN}
    found = [tables.measured(plain[model], "ns") for model in LINE]
    series = [([each[name] / each[tables.RUST] for each in found], words, colour) for name, words,
              colour in SERIES if name in found[0]]
    scale = Scale([share for shares, _, _ in series for share in shares] + [1])
    parts = [f'<svg xmlns="http://www.w3.org/2000/svg" viewBox="0 0 {WIDTH} {HEIGHT}" font-family="sans-serif" '
             f'font-size="13">',
             f'<rect width="{WIDTH}" height="{HEIGHT}" fill="#ffffff"/>',
             label(LEFT, 26, "Time of a run, the Rust = 1 (host's Jacobian, no dense output)", 'font-size="15"')]
    parts += frame(scale, {model: row["n"] for model, row in plain.items()})
    for shares, _, colour in series:
        parts += curve(scale, shares, colour)
    names = [(words, colour) for _, words, colour in reversed(series)] + [("goal for ours", GOAL)]
    parts += [label(WIDTH - RIGHT + 14, TOP + 14 + 22 * k, words, f'fill="{colour}"') for k,
              (words, colour) in enumerate(names)]
    return "\n".join(parts + ["</svg>"]) + "\n"
