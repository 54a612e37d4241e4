"""The programs that are compared: phq, and the peers that are built of the sources beside this folder."""
import hashlib
import os
import pathlib
import shutil
import subprocess

HERE = pathlib.Path(__file__).resolve().parent.parent
TOP = HERE.parent.parent
SOURCES = HERE / "src"
OUT = TOP / "bench" / "out" / "peers"
FLAGS = ["-std=c++17", "-O3", "-DNDEBUG"]
PHQ, PLAIN = "phq", "ph_tree"

# The numbers of dimensions with which the peers are compiled.
DIMS = (1, 2, 3, 4, 6, 8, 12, 16)
# The peers that answer scripts: what they are called in tables, which numbers of dimensions they have, and the library that they need.
INDEXES = {
    "ph_tree": ("plain PH-tree", DIMS, None),
    "b_tree": ("B+-tree", DIMS, None),
    "map": ("std::map", DIMS, None),
    "r_tree": ("Boost's R-tree", (2, 3, 8), "boost"),
    "sqlite": ("SQLite's R*Tree", (1, 2, 3, 4), "sqlite"),
    "null": ("no index", DIMS, None),
}
# Those that take two tables as files.
ABOUT_TWO = {
    "join_r_tree": ("Boost's packed R-tree", "boost"),
    "join_sweep": ("a plane sweep", None),
    "set_operations": ("sorted arrays", None),
}
# What shows that a library is there: its header, the package that has it, and what is linked.
LIBRARIES = {
    "boost": ("boost/geometry/index/rtree.hpp", "libboost-dev", []),
    "sqlite": ("sqlite3.h", "libsqlite3-dev", ["-lsqlite3"]),
}


def name_of(program):
    if program in ABOUT_TWO:
        return ABOUT_TWO[program][0]
    return INDEXES[program][0] if program in INDEXES else program


def library_of(program):
    return INDEXES[program][2] if program in INDEXES else ABOUT_TWO[program][1]


def has_dims(program, dims):
    return program == PHQ or dims in INDEXES[program][1]


def phq():
    """The program that is measured: the one that is named, the released one, or the one that the script builds."""
    named = os.environ.get("PHQ")
    released = TOP / "release" / "phq"
    return str(pathlib.Path(named or (released if os.access(released, os.X_OK) else TOP / "phq")).resolve())


def command(program):
    """The words that start a program which answers a script."""
    return [phq() if program == PHQ else str(OUT / program), "run"]


def sha256(path):
    return hashlib.sha256(pathlib.Path(path).read_bytes()).hexdigest()


def toolchain():
    """What the measured program was made with, or else the toolchain at hand."""
    made_of = dict(line.split(": ", 1) for line in (TOP / "release" / "made-of").read_text().splitlines())
    if made_of.get("program") == sha256(phq()):
        return made_of["toolchain"]
    if not shutil.which("rt"):
        return "unknown"
    told = subprocess.run(["rt", "version"], stdout=subprocess.PIPE, text=True).stdout.strip()
    return f"{told} at hand; the program is not the released one"
