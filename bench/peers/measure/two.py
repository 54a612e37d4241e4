"""Joins of two tables of boxes and set operations on two tables of points, beside programs that do that alone.

All read their tables from the same files of comma-separated text. What a task takes is that of the run with it less that of a run without it; from
the files on, it is the whole run with what the index or the sorting takes.
"""
import concurrent.futures
import math
import os
import random
import re
import subprocess
import sys

from .programs import OUT, PHQ, command
from .workload import LOW, SPACE

SEED = 5
JOINS = ("uniform", "clustered", "long")
SETS = ("union", "common", "minus")
CENTRES, CENTRE_WIDTH = 1000, 1 << 17
LONGEST_BY = math.e ** 4  # how far the sides of long boxes are from those of a square
# What is run of each program, and without what its task is told: a run that only reads, or reads and builds.
TASKS_OF_JOIN = {PHQ: ("read", "join"), "join_r_tree": ("read", "build", "join"), "join_sweep": ("read", "join")}
TASKS_OF_SETS = {PHQ: ("read", *SETS), "set_operations": ("read", "sort", *SETS)}
COUNTED_ROWS = 20_000


def places(kind, draw):
    """Random places of two coordinates from 0 to 2^32. Those of two tables lie about the same centres."""
    if kind != "clustered":
        while True:
            yield draw() * SPACE, draw() * SPACE
    centre = random.Random(SEED).random
    centres = [[centre() * (SPACE - CENTRE_WIDTH) for _ in range(2)] for _ in range(CENTRES)]
    while True:
        x, y = centres[int(draw() * CENTRES)]
        yield x + draw() * CENTRE_WIDTH, y + draw() * CENTRE_WIDTH


def boxes(kind, count, seed):
    """Different boxes, of which each meets about one of another table of the same kind, or some more where they are long."""
    draw = random.Random(f"{kind} {seed}").random
    side = CENTRE_WIDTH / math.sqrt(max(1, count / CENTRES)) if kind == "clustered" else SPACE / math.sqrt(count)
    made = {}
    for x, y in places(kind, draw):
        by = LONGEST_BY ** (2 * draw() - 1) if kind == "long" else 1.0
        corners = x, y, min(SPACE - 1, x + draw() * side * by), min(SPACE - 1, y + draw() * side / by)
        made[tuple([int(c) + LOW for c in corners])] = None
        if len(made) == count:
            return list(made)


def points(kind, count, seed):
    """Two tables of different points, of which half are in both."""
    draw = random.Random(f"{kind} {seed}")
    made = {}
    for x, y in places(kind, draw.random):
        made[int(x) + LOW, int(y) + LOW] = None
        if len(made) == count + count // 2:
            break
    made = list(made)
    one, other = made[:count], made[count // 2:]
    draw.shuffle(one)
    draw.shuffle(other)
    return one, other


def write(path, rows, first):
    with open(path, "w") as file:
        for value, row in enumerate(rows, first):
            file.write(",".join(map(str, row)) + f",{value}\n")


def script(opened, task):
    lines = [f"open {opened}", "import one.csv", "use b", f"open {opened}", "import other.csv", "use a"]
    return "".join(f"{line}\n" for line in (lines if task == "read" else [*lines, task])).encode()


def start(program, task, opened, result=()):
    """The words and the standard input of a run."""
    if program == PHQ:
        return command(PHQ), script(opened, task)
    return [str(OUT / program), task, "one.csv", "other.csv", *result], b""


def replies(program, task, opened, folder):
    words, text = start(program, task, opened)
    return subprocess.run(words, input=text, cwd=folder, stdout=subprocess.PIPE, check=True).stdout


def seconds(program, task, opened, folder):
    words, text = start(program, task, opened)
    (folder / "script").write_bytes(text)
    with open(folder / "script", "rb") as given:
        run = subprocess.Popen(words, stdin=given, stdout=subprocess.DEVNULL, cwd=folder)
        _pid, status, used = os.wait4(run.pid, 0)
    run.returncode = os.waitstatus_to_exitcode(status)
    if run.returncode != 0:
        sys.exit(f"run: {program} {task} ended with status {run.returncode}")
    return used.ru_utime + used.ru_stime


def instructions(program, task, opened, folder):
    words, text = start(program, task, opened)
    words = ["valgrind", "--tool=callgrind", "--callgrind-out-file=/dev/null", *words]
    told = subprocess.run(words, input=text, cwd=folder, stdout=subprocess.DEVNULL, stderr=subprocess.PIPE).stderr
    return int(re.search(rb"Collected\s*:\s*(\d+)", told)[1])


def check_join(programs, folder):
    """How many pairs there are, where all tell the same ones."""
    before, whole = (replies(PHQ, task, "boxes 2", folder) for task in ("read", "join"))
    wanted = whole[len(before):]
    for program in programs:
        if program != PHQ and replies(program, "join", "boxes 2", folder) != wanted:
            sys.exit(f"run: {program} joins otherwise than {PHQ}")
    return int(wanted.split()[-1])


def check_sets(task, programs, folder):
    """How many rows the result has, where all make the same one."""
    text = script("points 2", task) + b"export wanted.csv\n"
    told = subprocess.run(command(PHQ), input=text, cwd=folder, stdout=subprocess.PIPE, check=True).stdout
    for program in programs:
        if program != PHQ:
            words, _ = start(program, task, "points 2", ["got.csv"])
            subprocess.run(words, cwd=folder, stdout=subprocess.DEVNULL, check=True)
            if (folder / "got.csv").read_bytes() != (folder / "wanted.csv").read_bytes():
                sys.exit(f"run: {program} {task} differs from {PHQ}")
    return int(told.split(b"result ")[1].split()[0])


def make(kind, is_join, rows, folder):
    one, other = (boxes(kind, rows, SEED), boxes(kind, rows, SEED + 1)) if is_join else points(kind, rows, SEED)
    write(folder / "one.csv", one, 0)
    write(folder / "other.csv", other, 10**9)


def tasks(is_join, programs):
    """The programs that there are, with the tasks of each."""
    wanted = TASKS_OF_JOIN if is_join else TASKS_OF_SETS
    return {program: wanted[program] for program in wanted if program == PHQ or program in programs}


def least(runs, unit, opened, repeat, jobs, folder):
    """What each run takes: its instructions, counted side by side, or the least of its times."""
    if unit == "instructions":
        with concurrent.futures.ThreadPoolExecutor(jobs) as pool:
            return dict(zip(runs, pool.map(lambda run: instructions(*run, opened, folder), runs)))
    times = [[seconds(*run, opened, folder) * 1e9 for run in runs] for _ in range(repeat)]
    return {run: min(of_run) for run, of_run in zip(runs, zip(*times))}


def of_case(kind, is_join, rows, unit, repeat, jobs, programs, folder):
    opened = "boxes 2" if is_join else "points 2"
    chosen = tasks(is_join, programs)
    print(f"run: {unit} of {'joins' if is_join else 'set operations'}, {rows:,} rows, {kind}", file=sys.stderr, flush=True)
    make(kind, is_join, rows, folder)
    results = {"join": check_join(chosen, folder)} if is_join else {task: check_sets(task, chosen, folder) for task in SETS}
    runs = [(program, task) for program, its in chosen.items() for task in its]
    for (program, task), took in least(runs, unit, opened, repeat, jobs, folder).items():
        yield {"kind": kind, "about": "boxes" if is_join else "points", "rows": rows, "program": program, "task": task, "unit": unit,
               "amount": round(took), "result": results.get(task, "")}


def measure(sizes, repeat, has_valgrind, jobs, programs, folder):
    """The sizes are how many boxes and how many points each table has where times are taken."""
    for is_join, rows in zip((True, False), sizes):
        for kind in JOINS if is_join else JOINS[:2]:
            if has_valgrind:
                yield from of_case(kind, is_join, COUNTED_ROWS, "instructions", 1, jobs, programs, folder)
            yield from of_case(kind, is_join, rows, "nanoseconds", repeat, jobs, programs, folder)
