"""GNU parallel and Slurm with the commands of docs/NIGHT.md, as they stand there but for the number of shards. For
tests/night/night.py."""

import contextlib
import os
import pathlib
import re
import signal
import subprocess
import time

import shelf
from shards import KILLED, SHARDS, TARGET, Held, bare, check_merged, home, insist, ran, shown, summed, unlinked
from shards import wait_for

CLUSTER = shelf.ROOT / "tests" / "night" / "cluster"
# How many shards the page has.
SHOWN = "40"
# How often GNU parallel tries a job by the page's command.
TRIES = 3
GONE = 2
MACHINES = ("east", "west")
# What stands for ssh: a machine is a folder beside it, and one that is lost does nothing.
REMOTE = """#!/usr/bin/env bash
host=$1
shift
[ "${1-}" != -- ] || shift
[ ! -e "$host.lost" ] || exit 255
cd "$host" && HOME=$PWD exec bash -c "$*"
"""


def command_of(engine):
    """The page's command for an engine, for so many shards as are tried here."""
    found = shown(engine)
    insist(SHOWN in found, f"docs/NIGHT.md has other shards than {SHOWN} for {engine}")
    return found.replace(SHOWN, str(SHARDS))


def processes(folder, word=b""):
    """Those that stand in a folder, and were called with a word where one is given."""
    for about in pathlib.Path("/proc").glob("[0-9]*"):
        try:
            words, place = (about / "cmdline").read_bytes().split(b"\0"), os.readlink(about / "cwd")
        except OSError:  # it has ended
            continue
        if place == str(folder.resolve()) and (not word or word in words):
            yield int(about.name)


def missing(folder):
    """The shards that are missing by the page's command, where one was done and did not come back."""
    for name in ("rows", "totals"):
        (folder / f"{name}.{GONE}").unlink(missing_ok=True)
    found = ran(["bash", "-c", command_of("for")], cwd=folder).decode().split()
    insist(str(GONE) in found, f"the page's command tells {found} for what is missing")
    return found


def kill(number):
    with contextlib.suppress(ProcessLookupError):
        os.kill(number, signal.SIGKILL)


# --- GNU parallel --------------------------------------------------------------------------------


def begun_in(folder, numbers=()):
    """The page's command for GNU parallel, begun in a folder; where numbers are given, for these shards alone."""
    place, line = {"cwd": folder, "env": {**os.environ, "HOME": str(folder)}}, command_of("parallel")
    if numbers:
        line = line.replace(f"{{1..{SHARDS}}}", " ".join(numbers)).replace("--resume-failed ", "")
    with (folder / "said").open("ab") as said:
        return subprocess.Popen(["bash", "-c", line], stdin=subprocess.DEVNULL, stdout=said, stderr=said, **place)


def check_ended(folder, begun):
    insist(begun.wait() == 0, f"GNU parallel ends with {begun.returncode}: {(folder / 'said').read_text()[-2000:]}")


def kill_each(folder, begun):
    """Kills the one job as often as GNU parallel tries it, until the other jobs are done and it gives up."""
    killed = set()
    while begun.poll() is None:
        for number in set(processes(folder, f"rows.{KILLED}".encode())) - killed:
            kill(number)
            killed.add(number)
        time.sleep(0.005)
    insist(len(killed) == TRIES, f"GNU parallel tries a job that is killed {len(killed)} times")


def check_parallel(program, made, wanted, count):
    """Four jobs on the one machine of the file, which is this one; then the same command again."""
    folder, held = home("parallel", program, made), Held(made, count)
    (folder / "machines").write_text(f"{SHARDS}/:\n")
    begun, rows = begun_in(folder), folder / f"rows.{KILLED}"
    wait_for(rows, held.before, lambda: begun.poll() is not None)
    kill_each(folder, begun)
    held.let_go()
    held.tear(rows)
    check_ended(folder, begun_in(folder))
    check_merged(folder, wanted)
    unlinked(folder)
    print(f"GNU parallel with {SHARDS} jobs, one killed half-way and done again, has its rows and totals")
    return folder


def machine_of(folder, begun):
    """The machine on which the shard that is to be killed has begun."""
    while True:
        for name in MACHINES:
            if (folder / name / f"rows.{KILLED}").is_file():
                return folder / name
        insist(begun.poll() is None, f"no machine begins a shard: {(folder / 'said').read_text()[-2000:]}")
        time.sleep(0.005)


def check_lost(program, made, wanted, count):
    """Two jobs on each of two machines, one of which is lost while a shard of it is half-way; then what is missing."""
    folder, held = home("machines", program, made), Held(made, count)
    (folder / "remote").write_text(REMOTE)
    (folder / "remote").chmod(0o755)
    (folder / "machines").write_text("".join(f"{SHARDS // 2}/./remote {name}\n" for name in MACHINES))
    for name in MACHINES:
        (folder / name).mkdir()
        (folder / name / "shelf").symlink_to(made.parent)
    begun = begun_in(folder)
    machine = machine_of(folder, begun)
    wait_for(machine / f"rows.{KILLED}", held.before, lambda: begun.poll() is not None)
    (folder / f"{machine.name}.lost").touch()
    held.let_go()
    for number in processes(machine):
        kill(number)
    check_ended(folder, begun)
    check_ended(folder, begun_in(folder, missing(folder)))
    check_merged(folder, wanted)
    left = [name for name in MACHINES if name != machine.name and os.listdir(folder / name) != ["shelf"]]
    insist(not left, f"something is left behind on {left}")
    unlinked(folder)
    print("GNU parallel over two machines, one lost half-way and its shards done again, has its rows and totals")
    return folder


# --- Slurm ---------------------------------------------------------------------------------------


def array(numbers, place):
    """The page's command for Slurm with these tasks, begun."""
    line = command_of("sbatch").replace("sbatch ", "sbatch --wait ", 1)
    line = line.replace(f"--array=1-{SHARDS} ", f"--array={numbers} ")
    return subprocess.Popen(["bash", "-c", line], stdin=subprocess.DEVNULL, stdout=subprocess.PIPE, **place)


def under_slurm(folder, held, environment):
    """An array, of which one task is taken from its node half-way and put into the queue again, as if it were lost; and
    what is missing then, given again by its number."""
    place = {"cwd": folder, "env": environment}
    begun = array(f"1-{SHARDS}", place)
    number = begun.stdout.readline().split()[-1].decode()
    wait_for(folder / f"rows.{KILLED}", held.before, lambda: begun.poll() is not None)
    held.let_go()
    ran(["scontrol", "requeue", f"{number}_{KILLED}"], statuses=(0,), **place)
    begun.communicate()
    again = array(",".join(missing(folder)), place)
    again.communicate()
    ended = begun.returncode, again.returncode
    insist(ended == (0, 0), f"the arrays end with {ended}")
    told = ran(["scontrol", "show", "job", f"{number}_{KILLED}"], statuses=(0,), **place).decode()
    insist(" Restarts=1 " in told, f"the task was not done again:\n{told}")


def check_slurm(program, made, wanted, count):
    folder, held, cluster = home("slurm", program, made), Held(made, count), TARGET / "cluster"
    configuration = ran([CLUSTER, "start", cluster], statuses=(0,)).decode().strip()
    try:
        under_slurm(folder, held, {**os.environ, "SLURM_CONF": configuration})
    finally:
        ran([CLUSTER, "stop", cluster], statuses=(0,))
    check_merged(folder, wanted)
    unlinked(folder)
    print(f"a Slurm array of {SHARDS}, one task put into the queue again half-way, has its rows and totals")
    return folder


# --- Totals joined -------------------------------------------------------------------------------


def joined(is_proved, folder, order):
    """The totals of the shards, in this order, joined by the program `joined`."""
    files = []
    for number in order:
        files.append(folder / f"bare.{number}")
        files[-1].write_bytes(bare((folder / f"totals.{number}").read_bytes()))
    words = [shelf.ROOT / "tools" / "joined", *([] if is_proved else ["--unproved"]), *files]
    return bare(ran(words, statuses=(0,)))


def placeless(totals):
    return re.sub(rb" line \d+\n$", b"", bare(totals))


def check_joined(is_proved, folders, totals):
    """All engines' totals join to the same bytes; the order of files moves nothing but the largest's place."""
    order = list(range(1, SHARDS + 1))
    found = [joined(is_proved, folder, order) for folder in folders]
    insist(len(set(found)) == 1, "the engines' totals join to different totals")
    rows = b"".join((folders[0] / f"rows.{number}").read_bytes() for number in order)
    insist(found[0] == summed(rows), "joined totals are not those of the shards' rows one after the other")
    for text in (totals, joined(is_proved, folders[0], order[::-1])):
        insist(placeless(text) == placeless(found[0]), "the order of files moves more than the largest's place")
    print("the totals of the shards are joined to the same by `joined`, in whatever order but for the largest's place")
