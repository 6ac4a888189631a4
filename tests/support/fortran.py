"""The published RADAU5 in Fortran, as the source package of Debian's r-cran-desolve has it: radau5.f, and radau5a.f
beside it. For bench/run and compare/judge/run.

It is compiled by gfortran at -O3 without fused multiply-add. Nothing of it is stored here."""

import pathlib
import shutil
import subprocess
import sys

# How the package's text calls a Jacobian: the authors' own has two arguments fewer.
JACOBIAN = "CALL JAC(N,X,Y,MLJAC,MUJAC,FJAC,LDJAC,RPAR,IPAR)"


def texts_of(path):
    """The two texts, by their names. `path` is that of radau5.f or of its folder."""
    path = pathlib.Path(path)
    if not path.exists():
        sys.exit(f"there is no {path}")
    folder = path if path.is_dir() else path.parent
    files = [folder / "radau5.f", folder / "radau5a.f"]
    missing = [file for file in files if not file.is_file()]
    if missing:
        sys.exit(f"there is no {missing[0]}")
    texts = {file.stem: file.read_text(errors="replace") for file in files}
    if texts["radau5"].count(JACOBIAN) != 1:
        sys.exit(f"{files[0]} is not that of r-cran-desolve: it calls a Jacobian otherwise")
    return texts


def objects(texts, target):
    """Compiles the texts below `target`. Gives the objects' paths."""
    if not shutil.which("gfortran"):
        sys.exit("there is no gfortran")
    target.mkdir(parents=True, exist_ok=True)
    return [compiled(target / f"{name}.f", text) for name, text in texts.items()]


def compiled(file, text):
    made = file.with_suffix(".o")
    if not (made.is_file() and file.is_file() and file.read_text() == text):
        file.write_text(text)
        done = subprocess.run(["gfortran", "-std=legacy", "-w", "-fPIC", "-O3", "-ffp-contract=off", "-c", file, "-o",
                               made], capture_output=True, text=True)
        if done.returncode:
            sys.exit(f"gfortran does not take {file.name}:\n{done.stderr[:2000]}")
    return made


def linked(paths):
    """The words by which rustc links the objects, and knows that they are there."""
    words = [word for path in paths for word in ("-C", f"link-arg={path}")]
    return words + ["-C", "link-arg=-lgfortran", "-C", "link-arg=-lm", "--cfg", "fortran"]
