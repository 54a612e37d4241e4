"""The processor time of a command and the memory of a row, of phq and its peers side by side.

phq and the plain PH-tree run twice in each round, so that it can be seen how far one program is from itself.
"""
import sys

from . import check, workload
from .programs import INDEXES, PHQ, PLAIN, command, has_dims
from .running import Running

COUNTS = {"get": 100_000, "move": 50_000, "del": 50_000, "window10": 20_000, "near10": 10_000, "within10": 10_000}
IN_MANY_DIMS = {"get": 50_000, "move": 20_000, "del": 20_000, "window10": 200, "near10": 200, "within10": 100}
MANY_DIMS = 6
# Up to so many rows the replies of all are compared before the times are taken.
COMPARED = 100_000
# What would take too long: from so many rows on, these are left out.
TOO_LONG = {"sqlite": 2_000_000, "map": 2_000_000}
# The set that all peers are timed on, at each number of rows; on the others only these.
FOR_ALL = ("uniform", 2)
ON_OTHERS = {PHQ, PLAIN, "b_tree", "r_tree"}
AGAIN = {PHQ: f"{PHQ} again", PLAIN: f"{PLAIN} again"}


def counts(dims, rows, kinds):
    wanted = IN_MANY_DIMS if dims >= MANY_DIMS else COUNTS
    halves = {"move": rows // 2, "del": rows // 2}
    # What takes rows away comes last.
    order = ["get", "window10", "near10", "within10", "move", "del"]
    return {"put": rows, **{phase: min(wanted[phase], halves.get(phase, wanted[phase])) for phase in order if phase in kinds}}


def run_once(program, dims, paths, wanted):
    """Nanoseconds of one command of each phase, and the bytes of a row behind the puts."""
    running = Running(command(program))
    running.answer(workload.opening(dims).encode())
    before, took, memory = running.memory(), {}, 0
    for phase, path in paths.items():
        took[phase] = running.answer(path) / wanted[phase]
        if phase == "put":
            memory = (running.memory() - before) / wanted["put"]
    if running.end() != 0:
        sys.exit(f"run: {program} refused a line")
    return took, memory


def least(programs, dims, paths, wanted, repeat):
    """The least time of each phase in several rounds. The programs take turns, so that what disturbs them meets all."""
    turns = [(name, name) for name in programs] + [(AGAIN[name], name) for name in programs if name in AGAIN]
    best, memory = {}, {}
    for _ in range(repeat):
        for label, program in turns:
            took, memory[label] = run_once(program, dims, paths, wanted)
            for phase, nanoseconds in took.items():
                best[label, phase] = min(nanoseconds, best.get((label, phase), nanoseconds))
    return best, memory


def of_set(kind, dims, rows, kinds, programs, repeat, folder):
    wanted = counts(dims, rows, kinds)
    chosen = [name for name in programs if name == PHQ or name in INDEXES]
    chosen = [name for name in chosen if has_dims(name, dims) and rows < TOO_LONG.get(name, rows + 1)]
    if (kind, dims) != FOR_ALL:
        chosen = [name for name in chosen if name in ON_OTHERS]
    print(f"run: times of {rows:,} rows, {kind}, {dims} dimensions", file=sys.stderr, flush=True)
    paths = workload.write(folder, workload.Points(kind, dims, rows), wanted)
    if rows <= COMPARED:
        check.compare(chosen, [workload.opening(dims).encode(), *paths.values()], dims, f"{rows:,} {kind} points of {dims} dimensions", folder)
    best, memory = least(chosen, dims, paths, wanted, repeat)
    for path in paths.values():
        path.unlink()
    for (label, phase), nanoseconds in best.items():
        yield {"points": kind, "dims": dims, "rows": rows, "program": label, "command": phase, "commands": wanted[phase],
               "nanoseconds": f"{nanoseconds:.1f}", "bytes of a row": f"{memory[label]:.1f}"}


def measure(cases, kinds, programs, repeat, folder):
    """Each case is a kind of points, their dimensions and the number of rows."""
    for kind, dims, rows in cases:
        yield from of_set(kind, dims, rows, kinds, programs, repeat if rows < 1_000_000 else 1, folder)
