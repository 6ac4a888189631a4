#!/usr/bin/env python3
"""Every offered function, and the theorem that its contract settles its call: it asks nothing, and two outcomes that it
allows for one input coincide.

    tests/repository/offered.py list     the table: each function, the theorem, its file
    tests/repository/offered.py check    complain, and end with status 1, where a function has no such theorem; first
                                         the script is tried on theorems that are about something else

A function is offered where another crate can name it: it is `pub`, and so is each module on the way to it. Its theorem
is NAME-once of its crate's proofs/Determinism.antt, of a method also TYPE-NAME-once, and states `Settles`
(crates/words/specs/Contract.antt) of what the kit reads off that very function, its `Kinds` and `Reads`; where it is
over a number or a type, at each of them. So the kit ties the theorem to the contract in src/: where a contract asks
something or leaves a part open, the crate is not proved. Here it is seen that no theorem is missing.

Exit status: 0 every offered function has its theorem; 1 one has none; 2 wrong use."""

import pathlib
import re
import sys

sys.path[:0] = [str(each) for each in pathlib.Path(__file__).resolve().parents[1].iterdir() if each.is_dir()]
import command

ROOT = pathlib.Path(__file__).resolve().parents[2]
SETTLES = "use Rattle.words.specs.Contract.{Settles}"
FILE = "crates/{}/proofs/Determinism.antt"
# What the first answer depends on standard input, which is no argument: their contracts are relations, or say as much
# as is known of any reader. `new` and `end` of `Out` hand on to standard output, of which no contract speaks. The last
# three ask that the run is fit, or what a plan is, and are for crates here, which prove it; what users call refuses
# (docs/DECISIONS.md).
UNSETTLED = {
    "replay::word::read_word": "reads standard input",
    "replay::word::read_words": "reads standard input",
    "replay::word::read_block": "reads standard input",
    "replay::input::read_full": "reads standard input",
    "replay::input::read_text": "reads standard input",
    "replay::out::Out::new": "writes to standard output",
    "replay::out::Out::end": "writes to standard output",
    "sheet_input::reading::read_all": "reads standard input",
    "piece_input::reading::read_piece": "reads standard input",
    "piece_input::answering::answer": "reads standard input",
    "radau_core::advance::advanced": "asks that the run is fit",
    "model::planned::Plan::new": "makes a plan, which says what it is for and not what stands in it",
    "model::planned::derivative_by_plan": "asks that the plan is the model's",
}

FUNCTION = re.compile(r'^( *)pub (?:extern "C" )?fn (\w+(?:<T: Copy>)?)', re.M)
MENTIONED = re.compile(r"\bpub\b[^\n]*\bfn (\w+)")
OWNER = re.compile(r"^impl(?:<[^>]*>)? (\w+(?:<\w+>)?)(?:<'[^>]*>)? \{", re.M)
# A method of a type with a const parameter settles its call at each number that memory has room for.
AT_EACH = "\nmodule _ (n : ℕ) (fits : Fits w64 n) (few : n < 2 ^ 62) where\n"
# A function over a type settles its call at every type that is Copy, where the type's values live as long as the call,
# which the language asks of each call.
AT_TYPE = "\nmodule _ (T : RattleType) (laws : Laws T) (copy : IsCopy T) (clone : Ghosts T.Denot) (dict : Dict) where\n"
LIVES = "use contract.BorrowLft.{◌⊑◌}"
PARTS = ("Kinds.ps", "Kinds.r", "Reads.Asked", "Reads.Post")


class Complaint(Exception):
    pass


def insist(fact, words):
    if not fact:
        raise Complaint(words)


# ---- offered functions

def module_file(folder, path):
    files = (folder.joinpath(*path).with_suffix(".rt"), folder.joinpath(*path, "mod.rt"))
    return next((file for file in files if file.is_file()), None)


def joined(text):
    """Each clause in one line, however many it was broken into."""
    lines, depth = [], 0
    for line in text.split("\n"):
        if depth:
            lines[-1] += " " + line.strip()
        else:
            lines.append(line)
        if depth or re.match(r"\s*(?:requires|ensures)\b", line):
            depth += line.count("{") - line.count("}")
    return "\n".join(lines)


def modules(folder, path=()):
    """The modules that another crate can name, each with its path and text."""
    file = module_file(folder, path) if path else folder / "lib.rt"
    text = joined(re.sub(r"//[^\n]*|pub\(crate\) ", "", file.read_text()))
    yield path, text
    public, private = (re.findall(rf"^{word}mod (\w+);", text, re.M) for word in ("pub ", ""))
    for passed in re.findall(r"^pub use (?:crate::)?(\w+)::", text, re.M):
        insist(passed not in private, f"{folder.parent.name} passes on what stands in the private module {passed}")
    for part in public:
        yield from modules(folder, (*path, part))


def functions(text):
    """The public functions of a module, each with the type that it is a method of before it, where it is one."""
    found = list(FUNCTION.finditer(text))
    insist(len(found) == len(MENTIONED.findall(text)), "has a function in a form that is not expected")
    for it in found:
        owner = [impl.group(1) for impl in OWNER.finditer(text, 0, it.start())][-1:] if it.group(1) else []
        yield (*owner, it.group(2))


def offered():
    """The offered functions, each by its crate and by its path there."""
    for root in sorted(ROOT.glob("crates/*/src/lib.rt")):
        for path, text in modules(root.parent):
            for own in functions(text):
                yield root.parent.parent.name, (*path, *own)


# ---- theorems

def name_of(crate, path):
    return "::".join((crate, *(part.split("<")[0] for part in path)))


def text_in(file):
    return (ROOT / file).read_text() if (ROOT / file).is_file() else ""


def title(path, text):
    """The name of its theorem: of a method it begins with its type where types share the method's name."""
    short = path[-1].replace("_", "-") + "-once"
    owner = path[-2] if path[:-1] and path[-2][0].isupper() else ""
    whole = re.sub(r"(?<=.)(?=[A-Z])", "-", owner).lower() + "-" + short
    return whole if owner and re.search(rf"^ *pub {re.escape(whole)}\s*:", text, re.M) else short


def statement(alias, over):
    """What a function's theorem states, the function going by `alias`, over a number, a type or nothing."""
    ps, r, asked, post = (f"{alias}.{part}" for part in PARTS)
    if over == AT_EACH:
        ps, r, asked, post = (f"({part} n fits)" for part in (ps, r, asked, post))
    if over == AT_TYPE:
        ps, r, post = f"({ps} T laws copy)", f"({r} T laws copy)", f"({post} T laws copy clone dict)"
        asked = f"(λ κs a. κs.0 ⊑ T.lives → {asked} T laws copy clone dict κs a)"
    return f"Settles {ps} {r} {asked} {post}"


def theorem(crate, path, text_of=text_in):
    """The theorem that the contract settles its call, and its file; or that there is none, and why."""
    over = AT_TYPE if "<T: Copy>" in path[-1] else AT_EACH if any("<" in part for part in path) else ""
    name = name_of(crate, path)
    if name in UNSETTLED:
        return "none", UNSETTLED[name]
    path = tuple(part.split("<")[0] for part in path)
    file = FILE.format(crate)
    text = text_of(file)
    by = title(path, text)
    module = re.escape(f"use Rattle.{crate}.proofs.{'.'.join(path)} as ")
    alias = re.findall(rf"^{module}(\S+)$", text, re.M)
    insist(len(alias) == 1, f"is not named once in {file}")
    alone = over in text and len(re.findall(r"^ *module ", text, re.M)) == 1
    insist(not over or alone, f"has no theorem at each of its kind in {file}")
    lives = f"\n{LIVES}\n" in text and text.count("◌⊑◌") == 1
    insist(over != AT_TYPE or lives, f"has another `⊑` in {file}")
    head = "  " if over else ""
    begun = f"{head}{re.escape(by)}"
    stated = re.findall(rf"^{head}pub {re.escape(by)}\s*:((?:.|\n(?!{begun}\b))*)\n{begun}\b", text, re.M)
    insist(len(stated) == 1, f"has no theorem {by}")
    insist(stated[0].split() == statement(alias[0], over).split(), f"has a theorem {by} of something else")
    brought = re.findall(r"^use \S+ as (\S+)$|^ *(?:abbrev |unfoldable |pub )*(\S+) :", text, re.M)
    insist([each for pair in brought for each in pair].count(alias[0]) == 1, f"shares the name {alias[0]} in {file}")
    named = re.findall(r"\bSettles\b *[,}:]", text)
    insist(len(named) == 1 and f"\n{SETTLES}\n" in text, f"has another `Settles` in {file}")
    listed = text_of(str(pathlib.PurePosixPath(file).parent / "Lib.antt"))
    insist("pub mod Determinism\n" in listed, f"has its theorem in {file}, which is not listed beside it")
    return by, file


# ---- theorems that don't apply: each must be complained of

LIBRARY = "pub mod Determinism\n"
HELD = f"""-- A sample.
{SETTLES}
use Rattle.samples.proofs.part.held as held
use Rattle.samples.proofs.part.kept as kept

pub held-once : Settles held.Kinds.ps held.Kinds.r held.Reads.Asked held.Reads.Post
held-once κs a = (tt, λ o p. one-result (o .1))
"""
KEPT = "samples.proofs.part.held"
SAMPLES = [
    ("no theorem", HELD.replace("held-once", "kept-once")),
    ("a private theorem", HELD.replace("pub held-once", "held-once")),
    ("another function's contract", HELD.replace("held.Reads.Post", "kept.Reads.Post")),
    ("what another function asks", HELD.replace("held.Reads.Asked", "kept.Reads.Asked")),
    ("another function under this one's name", HELD.replace("part.held as", "part.other as")),
    ("a function of that name in another module", HELD.replace("proofs.part.held as", "proofs.whole.held as")),
    ("a function of that name in another crate", HELD.replace(KEPT, "others.proofs.part.held")),
    ("two functions under one name", HELD.replace("kept as kept", "kept as held")),
    ("a name that is defined anew", HELD.replace("\npub held", "\nabbrev held : Type 0\n\npub held")),
    ("a premise more", HELD.replace(": Settles", ": (n : ℕ) → Settles")),
    ("another conclusion", HELD.replace(": Settles", ": Allows")),
    ("a definition of that name from elsewhere", HELD.replace("words.specs.Contract", "samples.specs.Contract")),
    ("a definition of that name beside it", HELD.replace("\npub held", "\nabbrev Settles : Type 0\n\npub held")),
]


def sample(text, library=LIBRARY):
    return theorem("samples", ("part", "held"), lambda file: library if file.endswith("Lib.antt") else text)


def complained(attempt):
    try:
        attempt()
    except Complaint:
        return True
    return False


def tried_over(over, place, path, wrongs):
    """The same of a function over a number or a type, by changes that each make a right theorem wrong."""
    head = HELD[:HELD.index("\npub held")].replace("part.held as", f"part.{place} as")
    head = head.replace(SETTLES, f"{LIVES}\n{SETTLES}")
    right = f"{head}{over}  pub held-once :\n      {statement('held', over)}\n  held-once κs a = one\n"
    tell = lambda text: theorem("samples", path, lambda file: LIBRARY if "Lib" in file else text)
    tell(right)
    for old, new in wrongs:
        wrong = right.replace(old, new)
        insist(wrong != right and complained(lambda: tell(wrong)), f"a theorem with {new} in place of {old} passes")


def tried():
    """Sees that the right sample passes and that every wrong one is complained of."""
    sample(HELD)
    sample(HELD.replace("once : Settles", "once\n    : Settles"))
    for what, wrong in SAMPLES:
        insist(wrong != HELD and complained(lambda: sample(wrong)), f"{what} passes")
    insist(complained(lambda: sample(HELD, "pub mod Wrong\n")), "a file that is not listed passes")
    insist(complained(lambda: list(functions("pub const fn held() {}\n"))), "a function in another form passes")
    method = "impl Held {\n    pub fn of() {}\n}\nimpl Lent<'_> {\n    pub fn by() {}\n}\npub fn by() {}\n"
    insist(list(functions(method)) == [("Held", "of"), ("Lent", "by"), ("by",)], "a method is misread")
    right = HELD.replace("part.held as", "part.LentOut.held as").replace("held-once", "lent-out-held-once")
    tell = lambda text: theorem("samples", ("part", "LentOut", "held"), lambda file: LIBRARY if "Lib" in file else text)
    insist(tell(right)[0] == "lent-out-held-once", "a method's theorem under its type's name is not found")
    for wrong in (right.replace("lent-out", "kept"), right.replace("LentOut", "Kept"), right.replace("held.", "kept.")):
        insist(complained(lambda: tell(wrong)), "a theorem about another type's method passes")
    method = "impl<const N: usize> Held<N> {\n    pub fn of() {}\n}\n"
    insist(list(functions(method)) == [("Held<N>", "of")], "a method of a type with a parameter is misread")
    tried_over(AT_EACH, "Held.held", ("part", "Held<N>", "held"),
               [("2 ^ 62", "2"), (" n fits)", " 3 fits)"), ("held.", "kept.")])
    method = "pub fn of<T: Copy>(x: T) {}\npub fn by<T: Copy + Drop>(x: T) {}\npub fn at<R: Read>(r: R) {}\n"
    insist(list(functions(method)) == [("of<T: Copy>",), ("by",), ("at",)], "a function over a type is misread")
    tried_over(AT_TYPE, "held", ("part", "held<T: Copy>"),
               [("(dict : Dict)", "(dict : Dict) (static : T.lives ≡ [])"), ("module _ (T : RattleType)", "module _"),
                (".ps T ", ".ps F64 "), (".Post T ", ".Post F64 "), ("⊑ T.lives", "⊑ []"), ("a. κs.0", "a. ⊥ → κs.0"),
                (LIVES, f"{LIVES}\n◌⊑◌ : ℕ → ℕ → Type 0"), (LIVES, "use other.BorrowLft.{◌⊑◌}"),
                ("  pub held", "  abbrev held : Type 0\n\n  pub held"),
                ("  pub held", "  module held where\n\n  pub held")])


def main():
    act, _ = command.act(__doc__, sys.argv[1:], ("list", "check"), more=0)
    tried()
    rows, complaints = [], []
    for crate, path in offered():
        name = name_of(crate, path)
        try:
            rows.append((name, *theorem(crate, path)))
        except Complaint as complaint:
            complaints.append(f"{name} {complaint}")
    complaints += [f"{name} is listed here and is not offered" for name in UNSETTLED.keys() - {row[0] for row in rows}]
    if act == "list":
        for name, by, where in rows:
            print(f"{name:45} {by:35} {where}")
    for complaint in complaints:
        print(f"offered: {complaint}")
    unsettled = sum(by == "none" for _, by, _ in rows)
    settled = len(rows) - unsettled
    print(f"{len(rows)} offered functions: of {settled} a theorem over the contract itself says that it asks nothing")
    why = ", ".join(sorted(set(UNSETTLED.values())))
    print(f"and allows one outcome for one input; {unsettled} are none such: {why}")
    sys.exit(1 if complaints else 0)


try:
    main()
except Complaint as complaint:
    sys.exit(f"offered: {complaint}")
