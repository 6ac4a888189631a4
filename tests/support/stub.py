"""A tree like this repository's in which no proof is made: its tools as they are, a kit whose `rt` says what it is told
to, and programs `decay`, `totals`, `joined` and `points` that print what they are told to. So what the tools do with an
answer is tried in milliseconds, and no tool needs a way around the proof for its tests."""

import os
import pathlib
import shutil
import subprocess

ROOT = pathlib.Path(__file__).resolve().parents[2]

RT = """#!/bin/sh
echo "$* ${PWD##*/}" >>"{tree}/asked"
case $1 in
run) [ ! -f "{tree}/refuse" ] || {{ echo "fn main: not proved" >&2; exit 1; }}
    echo "rt: nothing has changed since the last proved build, by out/program.stamp, so nothing is checked now" >&2
    echo "rt: running out/program; to give it other input, run that file yourself" >&2 ;;
doc) echo "{tree}/kit/START-HERE.md" ;;
version) echo "stub-kit logic 0" ;;
*) exit 2 ;;
esac
"""
PROGRAM = """#!/bin/sh
# rattle logic=stub
cat >/dev/null
cat "{tree}/answer"
exit "$(cat "{tree}/ends")"
"""
ARCHIVE = '#!/bin/sh\nprintf "rattle logic=stub" >"$1"\n'
# What is installed.
PROGRAMS = ("decay", "totals", "joined", "points")


def executable(file, text):
    file.write_text(text)
    file.chmod(0o755)


class Tree:
    """The tree in a folder."""

    def __init__(self, folder):
        self.folder = pathlib.Path(folder).resolve()
        shutil.copytree(ROOT / "tools", self.folder / "tools", ignore=shutil.ignore_patterns("__pycache__"))
        shutil.copytree(ROOT / "include", self.folder / "include")
        for name in ("crates.txt", "VERSION", "Makefile", "LICENSE", "NOTICE", "CHANGELOG.md"):
            shutil.copy(ROOT / name, self.folder / name)
        (self.folder / ".gitignore").write_text("/target/\nout/\n/kit/\n/asked\n/answer\n/ends\n/refuse\n")
        self.script("kit/bin/rt", RT)
        self.script("kit/START-HERE.md", "")
        for name in PROGRAMS:
            self.program(name)
        self.script("tools/archive", ARCHIVE)
        self.says("status 0 ")

    def script(self, name, text):
        file = self.folder / name
        file.parent.mkdir(parents=True, exist_ok=True)
        executable(file, text.replace("{tree}", str(self.folder)).replace("{{", "{").replace("}}", "}"))

    def program(self, name, text=PROGRAM):
        """A program of the tree, as `rt run` leaves it in its crate's folder."""
        self.script(f"crates/{name}/out/{name}", text)
        return self.folder / "crates" / name / "out" / name

    def says(self, answer, ends=0):
        """What the program prints from now on, and its status."""
        (self.folder / "answer").write_bytes(answer if isinstance(answer, bytes) else answer.encode())
        (self.folder / "ends").write_text(str(ends))

    def asked(self):
        """What `rt` was asked since the last time."""
        file = self.folder / "asked"
        lines = file.read_text().splitlines() if file.is_file() else []
        file.unlink(missing_ok=True)
        return lines

    def run(self, *words, path=None, **more):
        """Runs a command of the tree, found first by the stub kit."""
        found = f"{self.folder / 'kit' / 'bin'}:{os.environ['PATH']}" if path is None else path
        more = {"capture_output": True, "cwd": self.folder, "env": {**os.environ, "PATH": found}, **more}
        return subprocess.run([str(word) for word in words], **more)
