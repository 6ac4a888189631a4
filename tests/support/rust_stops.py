"""The Rust's lu.rs, changed so that it tells where an elimination stops. The Rust's routines say only that the matrix
is singular; here, before each of the six returns that say so, `told` of tests/support/stopped.rs is given which routine
it is and the column k that the loop stands at. Each change must find its words exactly once, and nothing else of the
text moves."""

import pathlib
import sys

sys.path[:0] = [str(each) for each in pathlib.Path(__file__).resolve().parents[1].iterdir() if each.is_dir()]
import rust_text

MODULE = rust_text.ROOT / "tests" / "support" / "stopped.rs"

# The tests of lu.rs for a zero pivot: the words, the routine (1 real, 2 complex), and the column in the Rust's names.
TESTS = [
    ("        if a[(0, 0)] == 0.0 {\n", 1, "0"),
    ("        if pivot == 0.0 {\n", 1, "k"),
    ("    if a[(n - 1, n - 1)] == 0.0 {\n", 1, "n - 1"),
    ("        if ar[(0, 0)].abs() + ai[(0, 0)].abs() == 0.0 {\n", 2, "0"),
    ("        if tr.abs() + ti.abs() == 0.0 {\n", 2, "k"),
    ("    if ar[(n - 1, n - 1)].abs() + ai[(n - 1, n - 1)].abs() == 0.0 {\n", 2, "n - 1"),
]

EDITS = [(words, f"{words}crate::stopped::told({routine}, {column});\n") for words, routine, column in TESTS]
RETURNS = "return Err(Error::LinearAlgebra(LinearAlgebraError::SingularMatrix));"


def telling(text):
    """The text of lu.rs, which tells."""
    if text.count(RETURNS) != len(TESTS):
        sys.exit(f"lu.rs says {text.count(RETURNS)} times that a matrix is singular, not {len(TESTS)}")
    for words, told in EDITS:
        if text.count(words) != 1:
            sys.exit(f"lu.rs has these words {text.count(words)} times, not once:\n{words}")
        text = text.replace(words, told)
    return text


def write(source, target):
    """Writes the telling text of `source`, the folder of the Rust's files, into `target`. Gives its path."""
    made = (target / "lu_telling.rs").resolve()
    text = (source / "matrix" / "lu.rs").read_text()
    # tests/repository/slips.py hands in a text that tells already.
    made.write_text(text if "crate::stopped::told(" in text else telling(text))
    return made
