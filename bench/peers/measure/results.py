"""Files of results: facts about the run as `# name: value`, a line of names and then a line of each figure, with tabs between the words."""
import datetime
import os
import pathlib
import platform
import resource
import shutil
import subprocess
import time

from . import programs
from .build import compiler

# From so many processors on that others use, a machine is said to be busy.
BUSY = 0.2


def first_line(words):
    try:
        return subprocess.run(words, stdout=subprocess.PIPE, stderr=subprocess.STDOUT, text=True).stdout.splitlines()[0].strip()
    except (OSError, IndexError):
        return "none"


def processor():
    for line in pathlib.Path("/proc/cpuinfo").read_text().splitlines():
        if line.startswith("model name"):
            return " ".join(line.split(":", 1)[1].split())
    return platform.machine()


def memory():
    kilobytes = int(pathlib.Path("/proc/meminfo").read_text().split()[1])
    return f"{kilobytes / 2**20:.0f} GiB"


class Watch:
    """How many of the processors other programs use, from now on."""

    def __init__(self):
        self.start = self.look()

    @staticmethod
    def look():
        """The time, and the seconds of processors that all programs and this one with its own have taken."""
        user, nice, system, _idle, _wait, *interrupts = map(int, pathlib.Path("/proc/stat").read_text().splitlines()[0].split()[1:8])
        of_all = (user + nice + system + sum(interrupts)) / os.sysconf("SC_CLK_TCK")
        used = [resource.getrusage(who) for who in (resource.RUSAGE_SELF, resource.RUSAGE_CHILDREN)]
        return time.monotonic(), of_all, sum(each.ru_utime + each.ru_stime for each in used)

    def others(self):
        passed, of_all, own = (now - then for now, then in zip(self.look(), self.start))
        return max(0.0, (of_all - own) / passed)


def facts(options):
    """What is to be known of a run before it begins."""
    return {
        "date": datetime.datetime.now(datetime.timezone.utc).strftime("%Y-%m-%d %H:%M UTC"),
        "processor": processor(),
        "processors": str(os.cpu_count()),
        "memory": memory(),
        "system": platform.system(),
        "compiler": f"{first_line([compiler(), '--version'])}, {' '.join(programs.FLAGS)}",
        "valgrind": first_line(["valgrind", "--version"]) if shutil.which("valgrind") else "none",
        "program": f"sha256 {programs.sha256(programs.phq())}",
        "toolchain": programs.toolchain(),
        "options": options,
    }


def write(path, told, watch, rows):
    """Writes rows, which are dictionaries with the same names, and how busy the machine was by other programs."""
    path.parent.mkdir(parents=True, exist_ok=True)
    names = list(rows[0])
    with open(path, "w") as file:
        for name, value in {**told, "used by others": f"{watch.others():.1f} processors"}.items():
            print(f"# {name}: {value}", file=file)
        print(*names, sep="\t", file=file)
        for row in rows:
            print(*(row[name] for name in names), sep="\t", file=file)


def read(path):
    """The facts and the rows of a file; nothing of either where it is not there."""
    told, rows, names = {}, [], None
    if not path.exists():
        return told, rows
    for line in path.read_text().splitlines():
        if line.startswith("# "):
            name, value = line[2:].split(": ", 1)
            told[name] = value
        elif names is None:
            names = line.split("\t")
        else:
            rows.append(dict(zip(names, line.split("\t"))))
    return told, rows


def of_others(told):
    """How many processors other programs used meanwhile."""
    return float(told["used by others"].split()[0])


def is_busy(told):
    return of_others(told) > BUSY
