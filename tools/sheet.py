#!/usr/bin/env python3
"""A model as people read it, and as a sheet for `decay`: from one to the other, both ways; and what `decay` prints,
in words and decimals.

    tools/sheet.py sheet [FILE]          read the readable form, write the sheet
    tools/sheet.py text [FILE]           read a sheet, write the readable form
    tools/sheet.py answer MODEL [FILE]   read what `decay` prints of MODEL, a sheet or a readable form, and write it in
                                         words and decimals, as in:

    tools/decay cylinders/robertson.txt | tools/sheet.py answer cylinders/robertson.txt

FILE is standard input where it is not given; what is made goes to standard output. What can't be read is told on
standard error, with its line and, where there is one, with what to write instead; a sheet is refused with document
01's number, 20 or 21, as `decay` refuses it.

Exit status: 0 it is written; 1 what was read is neither a sheet nor a readable form, or can't be read; 2 wrong use.
`answer` ends as `decay` does, so that a pipe has the same status: 0 for status 0 alone, 1 for any other end of a
run, 3 for a refusal, an unreadable sheet, or what is no answer to MODEL.

The readable form, a line at a time; a # and what comes after it is a comment:

    x0 0.0
    xend 730.0
    rtol 1e-06
    atol 1e-12
    max_steps 100000
    rule rust                  or book
    species                    one to 32, each with a name of its own and its amount
    NO 2.0
    site 0.001
    held 0.0
    reactions                  up to 64: the rate, what is used up, an arrow, what comes of it; at most two on a side
    50.0 NO + site -> held
    0.5 none + held -> none    `none` is a side without species, or a place left empty before the one that is taken

A float is a decimal number, read as the nearest double, and written with the fewest digits that are read as the same
double. What has no such number, an infinity or any of the NaNs, is written by its bits, 0x and 16 lowercase hex
digits; all doubles may be. So every sheet that document 01's rules allow has a readable form, and comes back from it
byte for byte. Names and comments are not in a sheet: out of one the species are called s1, s2 and so on.

Where the proved library is at hand (python/README.md says where it is looked for), a sheet goes through its reader and
writer as well, and what is written is what the proved writer gives."""

import pathlib
import re
import struct
import sys

MOST_BYTES = 4096
MOST_SPECIES = 32
MOST_REACTIONS = 64
SETTINGS = 6
RULES = ("rust", "book")
NONE = "none"

BITS = re.compile(rb"[0-9a-f]{16}")
WHOLE = re.compile(rb"0|[1-9][0-9]{0,9}")
DECIMAL = re.compile(r"[+-]?[0-9]+(\.[0-9]*)?([eE][+-]?[0-9]+)?")
WRITTEN_BITS = re.compile(r"0x[0-9a-f]{16}")
NAME = re.compile(r"[A-Za-z][A-Za-z0-9_]*")


# Of each first line of an answer what it says: `status` or `refused` with its number, or one word.
TABLE = pathlib.Path(__file__).resolve().parent / "lib" / "meanings.txt"
MEANINGS = dict(line.split(": ", 1) for line in TABLE.read_text().splitlines())


class Refused(Exception):
    """What was read can't be taken: document 01's number or None, the line from 1 or None, and why."""

    def __init__(self, number, line, why):
        super().__init__(why)
        self.number, self.line, self.why = number, line, why

    def told(self):
        if self.number:
            place = f"refused {self.number}" + (f" {self.line}" if self.line else "")
        else:
            place = f"line {self.line}" if self.line else "readable form"
        return f"{place}: {self.why}"


class Model:
    """Floats are bits; a reaction is its rate's bits and the numbers of two reactants and two products, 0 for none."""

    def __init__(self, x0, xend, rtol, atol, max_steps, rule, amounts, reactions):
        self.x0, self.xend, self.rtol, self.atol = x0, xend, rtol, atol
        self.max_steps, self.rule = max_steps, rule
        self.amounts, self.reactions = list(amounts), [tuple(reaction) for reaction in reactions]

    def __eq__(self, other):
        return vars(self) == vars(other)

    def copy(self, **changes):
        made = Model(**vars(self))
        for name, value in changes.items():
            if name not in vars(made):
                raise TypeError(f"a model has no {name}")
            setattr(made, name, value)
        return made


# --- The sheet -----------------------------------------------------------------------------------


def sheet_of(model):
    """The bytes of the sheet."""
    lines = [str(SETTINGS)]
    lines += [f"{bits:016x}" for bits in (model.x0, model.xend, model.rtol, model.atol)]
    lines += [str(model.max_steps), str(model.rule)]
    lines += [str(len(model.amounts))] + [f"{bits:016x}" for bits in model.amounts]
    lines += [str(len(model.reactions))]
    lines += [" ".join([f"{rate:016x}"] + [str(place) for place in places]) for rate, *places in model.reactions]
    return "".join(line + "\n" for line in lines).encode("ascii")


class Lines:
    """The lines of a sheet, taken one after the other."""

    def __init__(self, data):
        *self.whole, self.rest = data.split(b"\n")
        self.number = 0

    def wrong(self, why):
        raise Refused(20, self.number, why)

    def take(self):
        self.number += 1
        if self.number > len(self.whole):
            self.wrong("the line has no end" if self.rest else "the line is missing")
        return self.whole[self.number - 1]

    def bits(self, words):
        if not BITS.fullmatch(words):
            self.wrong("not 16 lowercase hex digits")
        return int(words, 16)

    def integer(self, words, low, high):
        if not WHOLE.fullmatch(words):
            self.wrong("not a decimal number of one to ten digits without leading zeros")
        if not low <= int(words) <= high:
            self.wrong(f"not {low} to {high}")
        return int(words)

    def reaction(self, species):
        fields = self.take().split(b" ")
        if len(fields) != 5:
            self.wrong("not five fields with one space between")
        return (self.bits(fields[0]), *(self.integer(field, 0, species) for field in fields[1:]))

    def end(self):
        self.number += 1
        if self.number <= len(self.whole):
            self.wrong("a further line")
        if self.rest:
            self.wrong("the line has no end")


def model_of(data):
    """The model of a sheet's bytes, or Refused with 21 or 20."""
    if len(data) > MOST_BYTES:
        raise Refused(21, None, f"more than {MOST_BYTES} bytes")
    lines = Lines(data)
    lines.integer(lines.take(), SETTINGS, SETTINGS)
    x0, xend, rtol, atol = (lines.bits(lines.take()) for _ in range(4))
    max_steps = lines.integer(lines.take(), 0, 10**10 - 1)
    rule = lines.integer(lines.take(), 0, len(RULES) - 1)
    species = lines.integer(lines.take(), 1, MOST_SPECIES)
    amounts = [lines.bits(lines.take()) for _ in range(species)]
    count = lines.integer(lines.take(), 0, MOST_REACTIONS)
    reactions = [lines.reaction(species) for _ in range(count)]
    lines.end()
    return Model(x0, xend, rtol, atol, max_steps, rule, amounts, reactions)


# --- The proved reader and writer ----------------------------------------------------------------


def proved():
    """`Sheet` of python/elchepur, where its library is at hand and proved; else None."""
    sys.path.append(str(pathlib.Path(__file__).resolve().parents[1] / "python"))
    try:
        import elchepur

        elchepur.load(unproved=False)
        return elchepur.Sheet
    except Exception as trouble:
        if type(trouble).__name__ in ("NoLibrary", "Unproved", "ModuleNotFoundError"):
            return None
        raise


def through_proved(model, data):
    """The sheet of a model as the proved writer gives it; what is written here stands where there is none."""
    sheet = proved()
    if sheet is None:
        return data
    given = sheet(**{**vars(model), "amounts": tuple(model.amounts), "reactions": tuple(model.reactions)})
    again = given.write()
    if again != data or sheet.read(again) != given:
        raise Refused(None, None, "the proved writer gives another sheet: this is a fault of tools/sheet.py")
    return again


# --- The readable form ---------------------------------------------------------------------------


def written(bits):
    """A float as it is read: decimal where it is finite, else its bits."""
    if bits >> 52 & 0x7FF == 0x7FF:
        return f"0x{bits:016x}"
    return repr(struct.unpack("<d", struct.pack("<Q", bits))[0])


def side_of(first, second, names):
    if second:
        return f"{names[first]} + {names[second]}"
    return names[first]


def numbered(model):
    """Names for the species of a sheet, which has none, behind `none`."""
    return [NONE] + [f"s{number + 1}" for number in range(len(model.amounts))]


def text_of(model):
    """The readable form, with species called s1, s2 and so on."""
    names = numbered(model)
    lines = [f"{name} {written(getattr(model, name))}" for name in ("x0", "xend", "rtol", "atol")]
    lines += [f"max_steps {model.max_steps}", f"rule {RULES[model.rule]}", "species"]
    lines += [f"{name} {written(bits)}" for name, bits in zip(names[1:], model.amounts)]
    lines += ["reactions"]
    for rate, r1, r2, p1, p2 in model.reactions:
        lines.append(f"{written(rate)} {side_of(r1, r2, names)} -> {side_of(p1, p2, names)}")
    return "".join(line + "\n" for line in lines)


def instead_of_float(word):
    """What may have been meant by a word that is no float, as what is to be written."""
    plain = word.replace("_", "").replace(",", ".").replace("d", "e").replace("D", "e")
    sign, digits = (plain[:1], plain[1:]) if plain[:1] in ("+", "-") else ("", plain)
    plain = sign + ("0" + digits if digits.startswith(".") else digits)
    if plain != word and DECIMAL.fullmatch(plain):
        return f": write {plain}"
    if re.fullmatch(r"0[xX][0-9a-fA-F]{1,16}", word):
        return f": write 0x{word[2:].lower():0>16}"
    meant = {"nan": "0x7ff8000000000000", "inf": "0x7ff0000000000000"}.get(word.lower()[:3])
    return f": write {meant}" if meant else ": write a decimal number as 0.5 or 1e-06"


def instead_of_side(words, names):
    """What may have been meant by words that are no side of a reaction, as what is to be written."""
    if not words:
        return f": write {NONE}"
    twice = re.fullmatch(r"2 ?([A-Za-z]\w*)", " ".join(words))
    apart = re.findall(r"[A-Za-z]\w*|[^A-Za-z\s]+", " ".join(words))
    if twice and twice.group(1) in names:
        return f": write {twice.group(1)} + {twice.group(1)}"
    if len(apart) == 3 and apart[1] == "+" and apart != words and all(name in names for name in apart[::2]):
        return f": write {' '.join(apart)}"
    alike = [name for word in words for name in names if name.lower() == word.lower() and name != word]
    if alike:
        return f": write {alike[0]}"
    return f": write a species, or two with + between; the species are {', '.join(names[1:])}"


class Words:
    """The lines of a readable form that hold anything, each as its number and its words."""

    def __init__(self, text):
        bare = [(number, line.split("#")[0].split()) for number, line in enumerate(text.split("\n"), 1)]
        self.lines = [(number, words) for number, words in bare if words]
        self.at, self.number = 0, 0

    def wrong(self, why):
        raise Refused(None, self.number, why)

    def there(self):
        return self.at < len(self.lines)

    def take(self):
        if not self.there():
            raise Refused(None, None, "ends too soon")
        self.number, words = self.lines[self.at]
        self.at += 1
        return words

    def setting(self, name):
        words = self.take()
        if len(words) != 2 or words[0] != name:
            value = words[-1] if len(words) > 1 and words[-1] != "=" else "0.0"
            self.wrong(f"not `{name}` and its value: write `{name} {value}`")
        return words[1]

    def heading(self, name):
        if self.take() != [name]:
            self.wrong(f"not `{name}` alone: write a line `{name}` before this one")

    def is_heading(self, name):
        return self.there() and self.lines[self.at][1] == [name]

    def bits(self, word):
        if WRITTEN_BITS.fullmatch(word):
            return int(word, 16)
        if not DECIMAL.fullmatch(word):
            self.wrong(f"{word} is no float{instead_of_float(word)}")
        (bits,) = struct.unpack("<Q", struct.pack("<d", float(word)))
        if bits >> 52 & 0x7FF == 0x7FF:
            self.wrong(f"{word} is larger than all doubles: write 0x7ff0000000000000 if an infinity is meant")
        return bits

    def side(self, words, names):
        """One side of a reaction: a name, or two with a + between."""
        formed = len(words) == 1 or (len(words) == 3 and words[1] == "+")
        if not formed or any(name not in names for name in words[::2]):
            self.wrong(f"{' '.join(words) or 'nothing'} is no side{instead_of_side(words, names)}")
        places = [names.index(name) for name in words[::2]]
        return places if len(places) == 2 else places + [0]

    def species(self):
        names, amounts = [NONE], []
        self.heading("species")
        while not self.is_heading("reactions"):
            words = self.take()
            if len(words) != 2 or not NAME.fullmatch(words[0]):
                self.wrong("not a species' name (a letter, then letters, digits and _) and its amount: write `NO 2.0`")
            if words[0] in names:
                self.wrong(f"{words[0]} is taken: write another name")
            names.append(words[0])
            amounts.append(self.bits(words[1]))
        if not 1 <= len(amounts) <= MOST_SPECIES:
            raise Refused(None, None, f"{len(amounts)} species are not 1 to {MOST_SPECIES}")
        return names, amounts

    def reactions(self, names):
        found = []
        self.heading("reactions")
        while self.there():
            rate, *words = self.take()
            if words.count("->") != 1:
                self.wrong("not one arrow with a space on each side: write `50.0 NO + site -> held`, the rate first")
            arrow = words.index("->")
            found.append((self.bits(rate), *self.side(words[:arrow], names), *self.side(words[arrow + 1 :], names)))
        if len(found) > MOST_REACTIONS:
            raise Refused(None, None, f"{len(found)} reactions are more than {MOST_REACTIONS}")
        return found


def model_with_names(text):
    """The model of a readable form with the names of its species behind `none`, or Refused."""
    words = Words(text)
    x0, xend, rtol, atol = (words.bits(words.setting(name)) for name in ("x0", "xend", "rtol", "atol"))
    steps = words.setting("max_steps")
    if not WHOLE.fullmatch(steps.encode()):
        words.wrong("not a decimal number of one to ten digits without leading zeros: write `max_steps 100000`")
    rule = words.setting("rule")
    if rule not in RULES:
        words.wrong(f"{rule} is no rule: write `rule rust` or `rule book`")
    names, amounts = words.species()
    return Model(x0, xend, rtol, atol, int(steps), RULES.index(rule), amounts, words.reactions(names)), names


def model_of_text(text):
    """The model of a readable form, or Refused."""
    return model_with_names(text)[0]


# --- What `decay` prints --------------------------------------------------------------------------

COUNTS = ("accepted", "rejected", "total", "ode", "jac", "lu")
STATUS_LINE = re.compile(" ".join([r"status ([0-5])"] + [rf"{name} (0|[1-9][0-9]*)" for name in COUNTS]))
REFUSED_LINE = re.compile(r"refused ([1-9][0-9]?)(?: ([1-9][0-9]*))?")
UNPROVED = "unproved"


def is_sheet(data):
    """Whether these bytes begin as a sheet does, and no readable form."""
    return data.startswith(b"%d\n" % SETTINGS)


def model_and_names(data):
    """Of a sheet or a readable form the model, and the names of its species behind `none`."""
    if is_sheet(data):
        model = model_of(data)
        return model, numbered(model)
    return model_with_names(data.decode("utf-8"))


def run_in_words(lines, names):
    """An answer of a run: its status in words, the counts, the point, the amounts and the strides as decimals, or
    Refused."""
    status, *counts = map(int, STATUS_LINE.fullmatch(lines[0]).groups())
    found = [re.fullmatch(rf"{letter}((?: [0-9a-f]{{16}})+)", line) for letter, line in zip("xyh", lines[1:])]
    if not all(found) or f"status {status}" not in MEANINGS:
        raise Refused(None, None, "this is no answer of `decay`")
    point, amounts, strides = (each.group(1).split() for each in found)
    if (len(point), len(strides)) != (1, 2):
        raise Refused(None, None, "this is no answer of `decay`")
    if len(amounts) != len(names) - 1:
        raise Refused(None, None, f"the answer has {len(amounts)} amounts, and the model {len(names) - 1} species")
    told = [f"status {status}", MEANINGS[f"status {status}"]]
    told += [", ".join(f"{name} {count}" for name, count in zip(COUNTS, counts))]
    told += [f"{name} {written(int(bits, 16))}" for name, bits in zip(["x", *names[1:]], [*point, *amounts])]
    told += ["h " + " ".join(written(int(bits, 16)) for bits in strides)]
    return told, 0 if status == 0 else 1


def answer_in_words(text, names):
    """The lines that say in words what `decay` printed, and the status to end with; or Refused."""
    *lines, rest = text.split("\n")
    head = lines[:1] if lines[:1] == [UNPROVED] else []
    lines = lines[len(head) :]
    refused = REFUSED_LINE.fullmatch(lines[0]) if len(lines) == 1 else None
    if not rest and lines == ["unreadable"]:
        return head + [f"unreadable: {MEANINGS['unreadable']}"], 3
    if not rest and refused:
        number, line = refused.groups()
        why = MEANINGS.get(f"refused {number}", "document 01 has the number")
        return head + [f"refused {number}: {why}" + (f" {line}" if line else "")], 3
    if rest or len(lines) != 4 or not STATUS_LINE.fullmatch(lines[0]):
        raise Refused(None, None, "this is no answer of `decay` to one sheet")
    told, status = run_in_words(lines, names)
    return head + told, status


# --- The command ---------------------------------------------------------------------------------


def wrong(why):
    print(f"sheet.py: {why} (--help says what it takes)", file=sys.stderr)
    sys.exit(2)


def read(words):
    if words:
        with open(words[0], "rb") as file:
            return file.read()
    return sys.stdin.buffer.read()


def made(act, words):
    """What is written, and the status to end with."""
    if act == "sheet":
        data = read(words)
        if is_sheet(data):
            raise Refused(None, 1, "this is a sheet already: write `tools/sheet.py text` for its readable form")
        model = model_of_text(data.decode("utf-8"))
        return through_proved(model, sheet_of(model)), 0
    if act == "text":
        data = read(words)
        model = model_of(data)
        through_proved(model, data)
        return text_of(model).encode("ascii"), 0
    _, names = model_and_names(read(words[:1]))
    lines, status = answer_in_words(read(words[1:]).decode("ascii", "replace"), names)
    return "".join(line + "\n" for line in lines).encode("ascii"), status


def main(words):
    if words and words[0] in ("--help", "-h"):
        print(__doc__)
        return
    if not words or words[0] not in ("sheet", "text", "answer"):
        wrong("the first word is sheet, text or answer")
    least = 1 if words[0] == "answer" else 0
    if not least <= len(words) - 1 <= least + 1 or any(word.startswith("-") for word in words):
        wrong(f"{words[0]} takes {'MODEL, and ' if least else ''}one file at most")
    try:
        written_out, status = made(words[0], words[1:])
    except Refused as refused:
        print(refused.told(), file=sys.stderr)
        sys.exit(3 if words[0] == "answer" else 1)
    except (OSError, UnicodeDecodeError) as trouble:
        print(trouble, file=sys.stderr)
        sys.exit(3 if words[0] == "answer" else 1)
    sys.stdout.buffer.write(written_out)
    sys.stdout.buffer.flush()
    sys.exit(status)


if __name__ == "__main__":
    main(sys.argv[1:])
