"""The shared library: where it is looked for, the kit's mark on it, and its functions as the header declares them."""

import ctypes
import os
import pathlib
import re
import struct
import sysconfig

from . import _numbers as numbers
from ._errors import NoLibrary, Unproved

NAME = "libelchepur.so"
BESIDE = pathlib.Path(__file__).resolve().with_name(NAME)
MARK = re.compile(rb"rattle logic=[0-9a-f]{64}")
C_TYPES = {"double": ctypes.c_double, "uint64_t": ctypes.c_uint64, "size_t": ctypes.c_size_t, "uint8_t": ctypes.c_uint8}


# --- The mark ------------------------------------------------------------------------------------


def comment_of(data):
    """The section `.comment` of an ELF file of 64 bits, least byte first; empty where there is none."""
    if data[:6] != b"\x7fELF\x02\x01":
        return b""
    (table,) = struct.unpack_from("<Q", data, 40)
    size, count, names = struct.unpack_from("<HHH", data, 58)
    sections = [struct.unpack_from("<IIQQQQ", data, table + size * k) for k in range(count)]
    for name, _, _, _, offset, length in sections:
        start = sections[names][4] + name
        if data[start : start + 9] == b".comment\0":
            return data[offset : offset + length]
    return b""


def mark_in(data):
    """The mark that the kit puts on proved code, or None. Anyone can write it: it tells builds apart, and no more."""
    try:
        found = MARK.search(comment_of(data))
    except (IndexError, struct.error):
        return None
    return found.group().decode() if found else None


# --- The file ------------------------------------------------------------------------------------


def system_folders():
    folders = [folder for folder in os.environ.get("LD_LIBRARY_PATH", "").split(":") if folder]
    several = sysconfig.get_config_var("MULTIARCH")
    folders += ["/usr/local/lib", *([f"/usr/lib/{several}", f"/lib/{several}"] if several else []), "/usr/lib", "/lib"]
    return [pathlib.Path(folder) for folder in folders]


def find():
    """The library's file: the one that ELCHEPUR_LIBRARY names, else the one beside this module, else the system's."""
    named = os.environ.get("ELCHEPUR_LIBRARY")
    if named:
        return pathlib.Path(named)
    for file in (BESIDE, *(folder / NAME for folder in system_folders())):
        if file.is_file():
            return file
    raise NoLibrary(f"there is no {NAME} beside the module or in the system, and ELCHEPUR_LIBRARY is not set")


# --- Its functions -------------------------------------------------------------------------------


def c_type(words):
    """The type that C writes so; an array goes as a pointer."""
    item = C_TYPES[words.removeprefix("const ").removesuffix(" *")]
    return ctypes.POINTER(item) if words.endswith(" *") else item


class Library:
    """A library that was loaded, with its functions as attributes, without their prefix."""

    def __init__(self, path, unproved=False):
        self.path = pathlib.Path(path)
        if not self.path.is_file():
            raise NoLibrary(f"there is no library {self.path}")
        data = self.path.read_bytes()
        if data.startswith(b"!<arch>"):
            raise NoLibrary(f"{self.path} is an archive; python/library makes a shared library of it")
        self.mark = mark_in(data)
        if not (self.mark or unproved):
            words = "does not carry the kit's mark of proved code; load(path, unproved=True) takes it"
            raise Unproved(f"{self.path} {words}")
        try:
            loaded = ctypes.CDLL(str(self.path.resolve()))
            for name, (result, *parameters) in numbers.FUNCTIONS.items():
                function = getattr(loaded, name)
                function.restype = None if result == "void" else c_type(result)
                function.argtypes = [c_type(words) for words in parameters]
                setattr(self, name.removeprefix("elchepur_"), function)
        except (OSError, AttributeError) as error:
            raise NoLibrary(f"{self.path} is no library of this header: {error}") from error


_used = None


def load(path=None, unproved=None):
    """Take a library for all later calls, and give it. Without a path it is looked for; without this call it is, too.

    A library without the kit's mark raises Unproved, unless `unproved` says that it is wanted all the same, or, where
    that is not given, the variable ELCHEPUR_ALLOW_UNPROVED is set."""
    global _used
    if unproved is None:
        unproved = bool(os.environ.get("ELCHEPUR_ALLOW_UNPROVED"))
    _used = Library(find() if path is None else path, unproved)
    return _used


def library():
    return _used or load()
