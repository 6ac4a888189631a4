"""The matrix routines of the port beside the Rust's own: instructions by callgrind, and times. For bench/run.

Both are in one program, bench/matrix.rs: ours in the archive that tools/archive makes of the proved crate export,
the Rust's from its own files by rustc -O, once as it is, as a release build has it, and once with -C
codegen-units=1, which lets rustc inline more. Before anything is timed, the program sees at every order from 1 to
32 that both sides leave the same bits.

A turn copies the matrix or the right side afresh and calls the routine. Instructions are by callgrind: what the whole
program takes with 8 turns, less with 4, over 4, less the same of turns that call nothing. A time is the median of 41
samples of about a millisecond, again less that of turns that call nothing. The tables go to standard output."""

import platform

import measure
import rust_crate

ROUTINES = ("lu_decomp", "lu_decomp_complex", "lin_solve", "lin_solve_complex")
ORDERS = (1, 3, 8, 16, 32)


def collected(program, routine, side, n, turns):
    return measure.instructions([program, "count", routine, side, n, turns])


def of_a_turn(program, routine, side, n):
    return (collected(program, routine, side, n, 8) - collected(program, routine, side, n, 4)) / 4


def instructions(program, routine, side, n):
    """Those of one call."""
    return of_a_turn(program, routine, side, n) - of_a_turn(program, routine, "nothing", n)


def times(program):
    """For each routine and order the times of our routine and of the Rust's."""
    found = {}
    for line in measure.said([program, "times"]).splitlines():
        routine, n, ours, rust = line.split()
        found[routine, int(n)] = float(ours), float(rust)
    return found


def cells(ours, rust, one_unit, digits):
    numbers = " | ".join(f"{x:,.{digits}f}" for x in (ours, rust, one_unit))
    return f"{numbers} | {ours / rust:.2f} | {ours / one_unit:.2f}"


def main(folder, given):
    archive = measure.archive(given)
    link = ["-C", f"link-arg={archive}"]
    one_unit = rust_crate.build(folder, measure.HERE / "matrix.rs", link + ["-C", "codegen-units=1"])
    one_unit = one_unit.rename(one_unit.with_name("matrix_one_unit"))
    plain = rust_crate.build(folder, measure.HERE / "matrix.rs", link)
    timed, timed_one_unit = times(plain), times(one_unit)
    print(f"Processor: {platform.machine()}\n")
    for name, digits in (("instructions", 0), ("ns", 1)):
        print(f"| routine | n | {name}, ours | the Rust's | in one unit | ours/Rust | ours/one unit |")
        print("|---|---|---|---|---|---|---|")
        for routine in ROUTINES:
            for n in ORDERS:
                if name == "ns":
                    ours, rust = timed[routine, n]
                    other = timed_one_unit[routine, n][1]
                else:
                    ours, rust = (instructions(plain, routine, side, n) for side in ("ours", "rust"))
                    other = instructions(one_unit, routine, "rust", n)
                print(f"| {routine} | {n} | {cells(ours, rust, other, digits)} |", flush=True)
        print()
