"""How many instructions a command takes, by valgrind's callgrind: those of a run with the commands less those of the run without them.

They hardly depend on the machine or on what else it does. Beside it stands what the same lines take on an empty table that takes no row: reading
a line, going to the command and a short reply, without the index.
"""
import concurrent.futures
import re
import subprocess
import sys

from . import check, workload
from .programs import INDEXES, PHQ, PLAIN, command, has_dims

ROWS = 20_000
COUNTS = {"get": 20_000, "move": 5_000, "del": 5_000, "window10": 2_000, "near10": 2_000, "within10": 2_000}
IN_MANY_DIMS = {"window10": 100, "near10": 100, "within10": 100}
MANY_DIMS = 6
# All peers but SQLite's are counted on this set, and phq and the plain PH-tree on each.
FOR_ALL = ("uniform", 2)
TOO_LONG = "sqlite"


def counts(dims, kinds):
    wanted = {"put": ROWS, **COUNTS, **(IN_MANY_DIMS if dims >= MANY_DIMS else {})}
    return {phase: wanted[phase] for phase in workload.PHASES if phase == "put" or phase in kinds}


def count(program, scripts):
    """The instructions of a run on files, one behind the other."""
    words = ["valgrind", "--tool=callgrind", "--callgrind-out-file=/dev/null", *command(program)]
    text = b"".join(script if isinstance(script, bytes) else script.read_bytes() for script in scripts)
    run = subprocess.run(words, input=text, stdout=subprocess.DEVNULL, stderr=subprocess.PIPE)
    found = re.search(rb"Collected\s*:\s*(\d+)", run.stderr)
    if not found:
        sys.exit(f"run: valgrind says {run.stderr.decode()[-500:]}")
    return int(found[1])


def runs_of(dims, paths, with_line):
    """The scripts of all runs of a program, by what they are for: without a phase, with it, and its lines on an empty table."""
    opening = workload.opening(dims).encode()
    closed = opening.replace(b"\n", b" max 0\n")
    runs = {("without", "put"): [opening]}
    for phase, path in paths.items():
        runs["with", phase] = [opening, path] if phase == "put" else [opening, paths["put"], path]
        if with_line:
            runs["line", phase] = [closed, path]
    return runs


def of_program(program, dims, paths, wanted, with_line, pool):
    """The instructions of one command of each phase, and of its line alone where that is asked for."""
    runs = runs_of(dims, paths, with_line)
    counted = dict(zip(runs, pool.map(lambda scripts: count(program, scripts), runs.values())))
    empty = counted["without", "put"]
    for phase, number in wanted.items():
        before = empty if phase == "put" else counted["with", "put"]
        line = (counted["line", phase] - empty) / number if with_line else None
        yield phase, number, (counted["with", phase] - before) / number, line


def measure(sets, kinds, programs, jobs, folder):
    for kind, dims in sets:
        wanted = counts(dims, kinds)
        paths = workload.write(folder, workload.Points(kind, dims, ROWS), wanted)
        chosen = [name for name in programs if name in (PHQ, PLAIN) or ((kind, dims) == FOR_ALL and name in INDEXES and name != TOO_LONG)]
        check.compare(chosen, [workload.opening(dims).encode(), *paths.values()], dims, f"{kind} points of {dims} dimensions", folder)
        for program in chosen:
            if not has_dims(program, dims):
                continue
            print(f"run: instructions of {program}, {kind}, {dims} dimensions", file=sys.stderr, flush=True)
            with concurrent.futures.ThreadPoolExecutor(jobs) as pool:
                for phase, number, took, line in of_program(program, dims, paths, wanted, program != "null", pool):
                    yield {"points": kind, "dims": dims, "rows": ROWS, "program": program, "command": phase, "commands": number,
                           "instructions": f"{took:.1f}", "line": "" if line is None else f"{line:.1f}"}
        for path in paths.values():
            path.unlink()
