"""The mark that the kit leaves in what it builds of a proved crate: `rattle logic=` and the logic's name, in the
section .comment.

Only `rattle build` writes it, and only of a crate that is proved; what another compiler makes of the same sources
lacks it. It says what a file claims of itself, so it tells a mix-up and not a forgery."""

import pathlib
import re
import struct
import sys

MARK = re.compile(rb"rattle logic=([0-9a-f]{64})\0")


def members(data):
    """The members of an archive that hold code, by name; a file that is no archive is its own member."""
    if not data.startswith(b"!<arch>\n"):
        return {"": data}
    found, at = {}, 8
    while at + 60 <= len(data):
        name, size = data[at : at + 16].decode("ascii").strip(), int(data[at + 48 : at + 58])
        if name not in ("/", "//", "/SYM64/"):
            found[f"{name.rstrip('/')} at byte {at}"] = data[at + 60 : at + 60 + size]
        at += 60 + size + size % 2
    return found


def comment(code):
    """The section .comment of an object file or a program of 64 bits, empty where there is none."""
    if code[:6] != b"\x7fELF\x02\x01":
        return b""
    (table,), (size, count, names) = struct.unpack_from("<Q", code, 40), struct.unpack_from("<HHH", code, 58)
    headers = [struct.unpack_from("<IIQQQQ", code, table + size * place) for place in range(count)]
    strings = headers[names][4] if headers else 0
    for name, _, _, _, start, length in headers:
        if code.startswith(b".comment\0", strings + name):
            return code[start : start + length]
    return b""


def unmarked(path):
    """The members of a file that no proved crate was built into; and what is no ELF file is none."""
    return [name for name, code in members(pathlib.Path(path).read_bytes()).items() if not MARK.search(comment(code))]


def logics(path):
    """The logics in which the crates of a file were proved."""
    found = (MARK.search(comment(code)) for code in members(pathlib.Path(path).read_bytes()).values())
    return sorted({mark.group(1).decode() for mark in found if mark})


def insist(path):
    """Stops where a file that is to be proved is not."""
    if not pathlib.Path(path).is_file():
        sys.exit(f"there is no {path}")
    count = len(unmarked(path))
    if count or not logics(path):
        sys.exit(f"UNPROVED: {path} lacks the kit's mark of a proved crate in {count or 'all'} of its members")
