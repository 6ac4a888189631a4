"""As much of Rust's grammar as the Rust's solver is written in: tokens, expressions, statements.

`Parser` goes through a function's body and gathers its sites: the places whose text can be exchanged as a whole, an
expression or a statement, without touching another site. What our edits put into the text (calls of `crate::program`
that trace and count) makes no site."""

import dataclasses
import re
import sys

TOKEN = re.compile(
    r"(?P<skip>\s+|//[^\n]*)"
    r'|(?P<string>"[^"]*")'
    r"|(?P<label>'[a-z_]+\b(?!'))"
    r"|(?P<number>\d[\d_]*(?:\.(?!\.)[\d_]*(?:[eE][+-]?[\d_]+)?|[eE][+-]?\d+)?(?:f64|usize|u8)?)"
    r"|(?P<word>[A-Za-z_]\w*)"
    r"|(?P<mark>::|->|=>|==|!=|<=|>=|&&|\|\||\+=|-=|\*=|/=|\.\.|[-+*/%<>=!&|.,;:(){}\[\]?#])"
)

COMPARISONS = ("<", "<=", ">", ">=", "==", "!=")
LEVELS = {"||": 1, "&&": 2, **dict.fromkeys(COMPARISONS, 3), "+": 4, "-": 4, "*": 5, "/": 5, "%": 5}
ASSIGNS = ("=", "+=", "-=", "*=", "/=")

# The calls that our edits put in.
TRACE = re.compile(
    r"\s*crate::(?:program::(?:hit|note|snap|end|differences|mass_made)|stopped::told|strides::accepted)\(.*?\);\s*",
    re.S)
COUNTING = re.compile(r"\{(?:\s*crate::program::hit\([^)]*\);)+\s*\}")


def insist(fact, words):
    if not fact:
        sys.exit(f"slips: {words}")


@dataclasses.dataclass
class Token:
    kind: str
    text: str
    start: int

    @property
    def end(self):
        return self.start + len(self.text)


@dataclasses.dataclass
class Node:
    """An expression: its kind, its mark or name, its parts, and where its text stands."""

    kind: str
    mark: str
    parts: list
    start: int
    end: int


@dataclasses.dataclass
class Site:
    """A text to be exchanged as a whole: `value` is an expression, `test` that of an `if`, `act` a statement."""

    kind: str
    node: Node | None
    start: int
    end: int


def tokens_of(text, start, end):
    found, at = [], start
    while at < end:
        match = TOKEN.match(text, at)
        insist(match, f"no token of Rust: {text[at:at + 40]!r}")
        if match.lastgroup != "skip":
            found.append(Token(match.lastgroup, match.group(), at))
        at = match.end()
    return found


class Parser:
    """The sites of the block that begins at `start`."""

    def __init__(self, text, start):
        self.text = text
        self.tokens = tokens_of(text, start, block_end(text, start))
        self.at = 0
        self.sites = []
        self.block()

    # --- Tokens ---

    def peek(self, ahead=0):
        place = self.at + ahead
        return self.tokens[place].text if place < len(self.tokens) else ""

    def take(self, wanted=None):
        token = self.tokens[self.at]
        found = self.text[token.start : token.start + 60]
        insist(wanted is None or token.text == wanted, f"{wanted} is wanted, not {found!r}")
        self.at += 1
        return token

    def here(self):
        return self.tokens[self.at].start

    def behind(self):
        return self.tokens[self.at - 1].end

    def pass_to(self, *marks):
        """Passes over tokens up to one of the marks outside of brackets."""
        depth = 0
        while depth or self.peek() not in marks:
            depth += self.peek() in ("(", "[", "{")
            depth -= self.peek() in (")", "]", "}")
            self.at += 1

    # --- Statements ---

    def block(self):
        self.take("{")
        while self.peek() != "}":
            self.statement()
        self.take("}")

    def statement(self):
        found = TRACE.match(self.text, self.here())
        if found:
            while self.at < len(self.tokens) and self.here() < found.end():
                self.at += 1
            return
        word = self.peek()
        acts = {"let": self.binding, "if": self.branching, "for": self.counting, "match": self.matching}
        acts |= {"{": self.block} | dict.fromkeys(("return", "break", "continue"), self.leaving)
        if self.tokens[self.at].kind == "label" or word == "loop":
            self.pass_to("{")
            self.block()
        elif word in acts:
            acts[word]()
        elif self.peek(1) == "!":
            self.pass_to(";")
            self.take(";")
        else:
            self.acting()

    def binding(self):
        self.pass_to("=", ";")
        if self.take().text == "=":
            self.worth()
            self.take(";")

    def worth(self):
        """A value: of the branches of an `if` or `match` each, else the expression."""
        if self.peek() in ("if", "match"):
            {"if": self.branching, "match": self.matching}[self.peek()]()
            return
        node = self.expression()
        self.sites.append(Site("value", node, node.start, node.end))

    def branching(self):
        """An `if`; one in which branches are only counted is ours."""
        begun, known = self.here(), len(self.sites)
        self.take("if")
        if self.peek() == "let":
            self.pass_to("{")
        else:
            node = self.expression(plain=True)
            self.sites.append(Site("test", node, node.start, node.end))
        bodies = self.here()
        self.block()
        while self.peek() == "else":
            self.take()
            if self.peek() == "if":
                self.branching()
            else:
                self.block()
        body = self.text[bodies:self.behind()]
        if all(COUNTING.fullmatch(part.strip()) for part in body.split(" else ")):
            del self.sites[known:]
            insist(begun < bodies, "an `if` without a test")

    def counting(self):
        self.pass_to("in")
        self.take("in")
        node = self.expression(plain=True)
        self.sites.append(Site("value", node, node.start, node.end))
        self.block()

    def matching(self):
        self.pass_to("{")
        self.take("{")
        while self.peek() != "}":
            self.pass_to("=>")
            self.take("=>")
            if self.peek() == "{":
                self.block()
            else:
                self.worth()
            if self.peek() == ",":
                self.take()
        self.take("}")

    def leaving(self):
        start = self.here()
        self.pass_to(";")
        self.take(";")
        self.sites.append(Site("act", None, start, self.behind()))

    def acting(self):
        node = self.expression()
        if self.peek() == ";":
            self.take(";")
            self.sites.append(Site("act", node, node.start, self.behind()))
        else:
            self.sites.append(Site("value", node, node.start, node.end))

    # --- Expressions ---

    def node(self, kind, mark, parts, start):
        return Node(kind, mark, parts, start, self.behind())

    def expression(self, plain=False):
        """An assignment or a range or what is above; `plain` where a brace begins the block behind it."""
        start = self.here()
        left = self.node("rest", "..", [], start) if self.peek() == ".." else self.level(1, plain)
        if self.peek() in ASSIGNS:
            mark = self.take().text
            return self.node("assign", mark, [left, self.expression(plain)], start)
        if self.peek() == "..":
            self.take()
            right = [] if self.peek() in ("]", ")", "{", ";", ",") else [self.level(4, plain)]
            return self.node("range", "..", [*([] if left.kind == "rest" else [left]), *right], start)
        return left

    def level(self, least, plain):
        start = self.here()
        left = self.cast(plain)
        while LEVELS.get(self.peek(), 0) >= least:
            mark = self.take().text
            right = self.level(LEVELS[mark] + 1, plain)
            left = self.node("binary", mark, [left, right], start)
        return left

    def cast(self, plain):
        start = self.here()
        node = self.unary(plain)
        while self.peek() == "as":
            self.take()
            node = self.node("cast", self.take().text, [node], start)
        return node

    def unary(self, plain):
        start = self.here()
        if self.peek() in ("-", "!", "*", "&"):
            mark = self.take().text
            if mark == "&" and self.peek() == "mut":
                self.take()
            inner = self.unary(plain)
            return self.node("unary", mark, [inner], start)
        return self.postfix(self.primary(plain), start)

    def postfix(self, node, start):
        while self.peek() in (".", "(", "["):
            mark = self.take().text
            if mark == ".":
                name = self.take().text
                args = self.arguments("(", ")") if self.peek() == "(" else None
                node = self.node("field" if args is None else "method", name, [node, *(args or [])], start)
            else:
                self.at -= 1
                args = self.arguments(mark, {"(": ")", "[": "]"}[mark])
                name = self.text[node.start : node.end]
                node = self.node("call" if mark == "(" else "index", name, [node, *args], start)
        return node

    def arguments(self, opening, closing):
        self.take(opening)
        found = []
        while self.peek() != closing:
            found.append(self.expression())
            if self.peek() == ",":
                self.take()
        self.take(closing)
        return found

    def primary(self, plain):
        start, token = self.here(), self.take()
        if token.text == "(":
            self.at -= 1
            return self.node("group", "(", self.arguments("(", ")"), start)
        if token.text in ("|", "||"):
            if token.text == "|":
                self.pass_to("|")
                self.take("|")
            body = self.expression(plain)
            return self.node("closure", "|", [body], start)
        if token.kind == "word":
            return self.named(start, plain)
        insist(token.kind in ("number", "string"), f"no expression: {self.text[start:start + 60]!r}")
        return self.node(token.kind, token.text, [], start)

    def named(self, start, plain):
        """A name or a path, a macro's call, or a struct with its fields."""
        while self.peek() == "::":
            self.take()
            self.take()
        name = self.text[start:self.behind()]
        if self.peek() == "!" and self.peek(1) in ("(", "["):
            self.take()
            return self.macro(name, start)
        if self.peek() == "{" and not plain and name.split("::")[-1][0].isupper():
            self.pass_over()
            return self.node("struct", name, [], start)
        return self.node("name", name, [], start)

    def macro(self, name, start):
        """Of a `vec!` the entry and the count are its parts."""
        parts = []
        if name == "vec":
            self.take("[")
            parts.append(self.expression())
            self.take(";")
            parts.append(self.expression())
            self.take("]")
        else:
            self.pass_over()
        return self.node("macro", name, parts, start)

    def pass_over(self):
        """Passes over brackets and what they hold."""
        self.take()
        self.pass_to(")", "]", "}")
        self.take()


def block_end(text, start):
    """Where the block that begins at `start` ends."""
    depth, at = 0, start
    while True:
        match = TOKEN.match(text, at)
        insist(match, f"no token of Rust: {text[at:at + 40]!r}")
        depth += match.group() == "{"
        depth -= match.group() == "}"
        at = match.end()
        if depth == 0 and match.group() == "}":
            return at
