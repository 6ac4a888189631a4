"""What the commands of this repository share: how they take their words, and how they end.

`--help` prints what a script says of itself, its exit status with it, and does nothing else. Wrong use is one line on
standard error and status 2. Status 4 says that nothing wrong was found because nothing was compared: `tests/run`
passes over it by name."""

import argparse
import pathlib
import sys

WRONG_USE, NOTHING_COMPARED = 2, 4


def wrong(why):
    """Wrong use, told in one line."""
    called = pathlib.Path(sys.argv[0]).resolve()
    print(f"{called.parent.name}/{called.name}: {why} (--help says what it takes)", file=sys.stderr)
    sys.exit(WRONG_USE)


def helped(doc, words):
    """Prints what the script says of itself, where that is asked for."""
    if words and words[0] in ("--help", "-h"):
        print(doc.strip())
        sys.exit(0)


def nothing(doc, words):
    """For a script that takes no words."""
    helped(doc, words)
    if words:
        wrong(f"it takes no words, and got {words[0]}")


def act(doc, words, acts, more=1):
    """The first word, which is one of `acts`, and the second, None where it is not given and `more` allows one."""
    helped(doc, words)
    if not words or words[0] not in acts:
        wrong(f"the first word is {' or '.join(acts)}")
    if len(words) > 1 + more or any(word.startswith("-") for word in words[1:]):
        wrong(f"it takes no word {words[-1]}")
    return words[0], words[1] if len(words) > 1 else None


class Arguments(argparse.ArgumentParser):
    """Options and words, with the script's own text as the help."""

    def __init__(self, doc):
        super().__init__(description=doc)

    def format_help(self):
        return self.description.strip() + "\n"

    def error(self, message):
        wrong(message)


def nothing_compared(why):
    """Ends a script that had nothing to compare with."""
    print(f"nothing compared: {why}", file=sys.stderr)
    sys.exit(NOTHING_COMPARED)
