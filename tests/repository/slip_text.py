"""The slips that can be planted in a text of the Rust's, and the text with all of them behind one switch.

A slip exchanges a piece of one site (tests/repository/slip_parse.py). The text with slips has at each site a `match` on
the number of the slip that is planted: `match crate::slips::on() { 17 => .., 18 => .., _ => the site as it stands }`.
So one program holds them all, and one at a time is switched on."""

import dataclasses
import difflib
import math
import re

import pathlib
import sys
sys.path[:0] = [str(each) for each in pathlib.Path(__file__).resolve().parents[1].iterdir() if each.is_dir()]
from slip_parse import COMPARISONS, Node, Parser, insist

# What a comparison may be taken for: the other strictness, the other direction, its opposite.
TAKEN_FOR = {
    "<": ("<=", ">", ">="),
    "<=": ("<", ">=", ">"),
    ">": (">=", "<", "<="),
    ">=": (">", "<=", "<"),
    "==": ("!=",),
    "!=": ("==",),
}
OPPOSITE = {"+": "-", "-": "+", "*": "/", "/": "*", "+=": "-=", "-=": "+=", "*=": "/=", "/=": "*="}

# Names of whole numbers; all other names are doubles, truths or lists.
WHOLE = set("n i j k m r c kb kp1 nm1 dim row col nind1 nind2 nind3 newt_iter max_newton provided nmax turns".split())
WHOLE.add("singular_count")
WHOLE |= {"evals.ode", "evals.jac", "evals.lu", "steps.total", "steps.accepted", "steps.rejected", "ip[k]", "ip[0]"}
LENGTHS = ("len", "nrows", "ncols")

# Each power with one that it may be taken for.
OTHER_POWER = {"two_thirds": "four_fifths", "four_fifths": "two_thirds", "quarter": "two_thirds"}

# What is bound and then not used any more, since powers are directed to 01's.
UNUSED = ("let expm", "let remaining_iters", "let exponent")


@dataclasses.dataclass
class Slip:
    """What is exchanged, where, and of which kind it is; `key` names it on paper."""

    kind: str
    start: int
    end: int
    new: str
    key: str = ""
    number: int = 0


class Lined:
    """A text, and of each character the line that it had in the Rust's file; where an edit put it in, the line of what
    stands before it, or of 01's changes none."""

    def __init__(self, text):
        self.text = text
        self.lines = []
        for number, line in enumerate(text.splitlines(keepends=True), 1):
            self.lines += [number] * len(line)

    def edit(self, name, edits, changes=False):
        for old, new in edits:
            insist(self.text.count(old) == 1, f"{name} has these words {self.text.count(old)} times, not once:\n{old}")
            at = self.text.index(old)
            lines = [0] * len(new)
            for piece in difflib.SequenceMatcher(None, old, new, autojunk=False).get_matching_blocks():
                lines[piece.b : piece.b + piece.size] = self.lines[at + piece.a : at + piece.a + piece.size]
            for place in range(len(new) if not changes else 0):
                lines[place] = lines[place] or (lines[place - 1] if place else self.lines[at])
            self.text = self.text[:at] + new + self.text[at + len(old) :]
            self.lines[at : at + len(old)] = lines
        return self


def is_whole(node):
    """Whether an expression is a whole number."""
    if node.kind == "number":
        return not any(mark in node.mark for mark in ".ef")
    if node.kind == "group" and len(node.parts) == 1 or node.kind == "unary":
        return is_whole(node.parts[0])
    if node.kind == "binary":
        return all(map(is_whole, node.parts))
    if node.kind == "cast":
        return node.mark in ("u8", "usize")
    return node.kind == "name" and node.mark in WHOLE or node.kind == "method" and node.mark in LENGTHS


def bare(node):
    """Without the brackets around it."""
    return bare(node.parts[0]) if node.kind == "group" and len(node.parts) == 1 else node


class Planter:
    """The slips of one site."""

    def __init__(self, text, site, constants):
        self.text, self.site, self.constants = text, site, constants
        self.found = []
        if site.kind == "act":
            self.act(site.node)
        elif self.is_truth(site.node):
            self.truth(site.node, "flag" if site.kind == "value" else "test")
        if site.node:
            self.walk(site.node)

    def said(self, node):
        return self.text[node.start : node.end]

    def slip(self, kind, node, new):
        self.found.append(Slip(kind, node.start, node.end, new))

    def is_truth(self, node):
        inner = bare(node)
        return inner.kind == "binary" and inner.mark in (*COMPARISONS, "&&", "||") or inner.mark == "matches"

    def truth(self, node, kind):
        self.slip(kind, node, "true")
        self.slip(kind, node, "false")

    # --- Statements ---

    def act(self, node):
        whole = Node("act", "", [], self.site.start, self.site.end)
        if node is None:
            self.slip("jump left out", whole, "")
            return
        if node.kind != "assign":
            self.slip("call left out", whole, "")
            return
        left, right = node.parts
        counts = node.mark == "+=" and is_whole(right) and right.kind == "number"
        flag = self.is_truth(right) or right.mark in ("true", "false")
        self.slip("count" if counts else "flag" if flag else "assignment left out", whole, "")
        if counts:
            self.slip("count", whole, self.said(whole) + self.said(whole))
        elif self.is_truth(right):
            self.truth(right, "flag")

    # --- Expressions ---

    def walk(self, node):
        act = getattr(self, f"in_{node.kind}", None)
        if act:
            act(node)
        counted = node.kind == "assign" and node.mark == "+=" and node.parts[1].kind == "number"
        once = counted and node.parts[1].mark == "1"
        for part in node.parts[: 1 if once else None]:
            self.walk(part)

    def in_assign(self, node):
        left, right = node.parts
        if node.mark not in OPPOSITE:
            return
        self.slip("operation", node, f"{self.said(left)} {OPPOSITE[node.mark]} {self.said(right)}")
        if not is_whole(right):
            plain = Node("binary", node.mark[0], node.parts, node.start, node.end)
            for new in self.regrouped(plain):
                self.slip("association", node, f"{self.said(left)} = {new}")

    def in_binary(self, node):
        left, right = map(self.said, node.parts)
        if node.mark in COMPARISONS:
            for mark in TAKEN_FOR[node.mark]:
                self.slip("comparison", node, f"{left} {mark} {right}")
        elif node.mark in ("&&", "||"):
            self.slip("test", node, f"{left} {'||' if node.mark == '&&' else '&&'} {right}")
            self.slip("test", node, left)
            self.slip("test", node, right)
        else:
            self.arithmetic(node)

    def arithmetic(self, node):
        left, right = map(self.said, node.parts)
        self.slip("operation", node, f"({left} {OPPOSITE[node.mark]} {self.wrapped(node.parts[1])})")
        if node.mark in "-/":
            self.slip("order", node, f"({self.wrapped(node.parts[1])} {node.mark} {self.wrapped(node.parts[0])})")
        if is_whole(node):
            return
        if node.mark == "/" and left != "1.0":
            self.slip("reciprocal", node, f"({left} * (1.0 / {self.wrapped(node.parts[1])}))")
        for new in self.regrouped(node):
            self.slip("association", node, f"({new})")

    def wrapped(self, node):
        return f"({self.said(node)})" if node.kind in ("binary", "cast") else self.said(node)

    def regrouped(self, node):
        """The same formula with its brackets elsewhere: a + (b + c) for (a + b) + c, and the other way."""
        left, right = (bare(part) for part in node.parts)
        for side, marks in (("+-", "+-"), ("*/", "*/")):
            if node.mark not in marks:
                continue
            if left.kind == "binary" and left.mark in side:
                mark = node.mark if left.mark == side[0] else OPPOSITE[node.mark]
                one, two, three = map(self.wrapped, (*left.parts, node.parts[1]))
                yield f"{one} {left.mark} ({two} {mark} {three})"
            if right.kind == "binary" and right.mark in side:
                mark = right.mark if node.mark == side[0] else OPPOSITE[right.mark]
                one, two, three = map(self.wrapped, (node.parts[0], *right.parts))
                yield f"({one} {node.mark} {two}) {mark} {three}"

    def in_number(self, node):
        digits, suffix = re.fullmatch(r"(.*?)(f64|usize|u8)?", node.mark.replace("_", "")).groups()
        if is_whole(node):
            others = [value for value in (int(digits) + 1, int(digits) - 1) if value >= 0]
        else:
            value = float(digits)
            others = [math.nextafter(value, math.inf), math.nextafter(value, -math.inf) if value else 1.0]
        for other in others:
            self.slip("constant", node, f"{other!r}{suffix or ''}")

    def in_name(self, node):
        if node.mark in ("true", "false"):
            self.slip("flag", node, "false" if node.mark == "true" else "true")
        elif node.mark == "Float::EPSILON":
            self.slip("constant", node, "(2.0 * Float::EPSILON)")
        elif node.mark in self.constants:
            names = self.constants
            self.slip("constant", node, names[(names.index(node.mark) + 1) % len(names)])

    def in_unary(self, node):
        if node.mark == "-":
            self.slip("sign", node, self.said(node.parts[0]))

    def in_method(self, node):
        receiver, args = node.parts[0], node.parts[1:]
        if node.mark in ("abs", "sqrt", "signum", "clamp"):
            self.slip("call", node, self.wrapped(receiver))
        elif node.mark in ("max", "min"):
            other = {"max": "min", "min": "max"}[node.mark]
            self.slip("call", node, f"{self.said(receiver)}.{other}({', '.join(map(self.said, args))})")
        elif node.mark in ("skip", "take"):
            none = {"skip": "0", "take": "usize::MAX"}[node.mark]
            self.slip("call", node, f"{self.said(receiver)}.{node.mark}({none})")

    def in_call(self, node):
        name = node.mark.split("::")[-1]
        if node.mark.startswith("crate::program::") and name in OTHER_POWER:
            self.slip("constant", node, self.said(node).replace(name, OTHER_POWER[name], 1))


class Planted:
    """The slips of some functions of a text, but for lines that are passed over, and the text with all of them."""

    def __init__(self, file, lined, heads, constants=(), passed=()):
        self.file, self.lined, self.constants, self.passed = file, lined, list(constants), passed
        self.sites, seen = [], {}
        for head in heads:
            insist(lined.text.count(head) >= 1, f"{file} has no {head}")
            start = lined.text.index("{\n", lined.text.index(head))
            for site in Parser(lined.text, start).sites:
                self.add(site, seen)

    def add(self, site, seen):
        text = self.lined.text
        begun = text.rindex("\n", 0, site.start) + 1
        if text[begun : site.start].strip().startswith(UNUSED) or self.lined.lines[site.start] in self.passed:
            return
        found = Planter(text, site, self.constants).found
        for slip in found:
            line = self.lined.lines[slip.start]
            key = f"{self.file}:{line or '01'} {slip.kind}: {exchanged(text[slip.start:slip.end], slip.new)}"
            seen[key] = seen.get(key, 0) + 1
            slip.key = key + (f" ({seen[key]})" if seen[key] > 1 else "")
        if found:
            self.sites.append((site, found))

    def slips(self):
        return [slip for _, found in self.sites for slip in found]

    def switched(self):
        """The text with its slips behind the switch; each must have its number."""
        text = self.lined.text
        for site, found in sorted(self.sites, key=lambda pair: -pair[0].start):
            old = text[site.start : site.end]
            brackets = "{}" if site.kind == "act" else "()"
            arms = []
            for slip in found:
                new = old[: slip.start - site.start] + slip.new + old[slip.end - site.start :]
                arms.append(f"{slip.number} => {brackets[0]}{on_one_line(new)}{brackets[1]},")
            match = f"match crate::slips::on() {{ {' '.join(arms)} _ => {brackets[0]}{on_one_line(old)}{brackets[1]} }}"
            text = text[: site.start] + (match if site.kind == "act" else f"({match})") + text[site.end :]
        return text


def on_one_line(text):
    return re.sub(r"\s*\n\s*", " ", text)


def shown(text):
    return re.sub(r"\s+", " ", re.sub(r"//[^\n]*\n", "", text)).strip()


# So many characters of a piece of text are shown.
MOST_SHOWN = 40


def exchanged(old, new):
    """What is exchanged for what, in few words: of a long piece the beginning, of the new one the part that differs."""
    old, new = shown(old), shown(new) or "left out"
    same = next((at for at, (one, other) in enumerate(zip(old, new)) if one != other), min(len(old), len(new)))
    if len(new) > MOST_SHOWN:
        start = max(0, min(same - 8, len(new) - MOST_SHOWN))
        end = "..." if start + MOST_SHOWN < len(new) else ""
        new = ("..." if start else "") + new[start : start + MOST_SHOWN] + end
    return f"{old if len(old) <= MOST_SHOWN else old[:MOST_SHOWN] + '...'} => {new}"


class Constants:
    """Slips in the definitions of a file's constants: each a double higher and lower. A constant's uses become calls of
    a function that knows the switch."""

    def __init__(self, file, raw):
        self.defined = re.findall(r"^const (\w+): Float = (.*);$", raw, re.M)
        self.names = [name for name, _ in self.defined]
        self.slips = []
        for line, text in enumerate(raw.splitlines(), 1):
            found = re.fullmatch(r"const (\w+): Float = (.*);", text)
            for end in (math.inf, -math.inf) if found else ():
                other = math.nextafter(float(found[2].replace("_", "")), end)
                key = f"{file}:{line} constant: {found[1]} => {other!r}"
                self.slips.append(Slip("constant", 0, 0, repr(other), key))

    def switched(self, text, end):
        """The text, whose constants are used before `end` alone."""
        at = text.index(end)
        used = re.sub(rf"\b({'|'.join(self.names)})\b", r"slipped_\1()", text[:at])
        functions = []
        for place, name in enumerate(self.names):
            up, down = self.slips[2 * place : 2 * place + 2]
            arms = f"{up.number} => {up.new}, {down.number} => {down.new}, _ => {name}"
            functions.append(f"fn slipped_{name}() -> Float {{ match crate::slips::on() {{ {arms} }} }}\n")
        return used + text[at:] + "".join(functions)
