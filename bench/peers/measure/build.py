"""Builds the peers whose libraries are there. It fetches nothing."""
import concurrent.futures
import os
import re
import subprocess
import sys

from .programs import ABOUT_TWO, FLAGS, INDEXES, LIBRARIES, OUT, SOURCES, library_of

# What each program that answers scripts has beside the file of its index.
COMMON = ["peer", "script"]


def compiler():
    return os.environ.get("CXX", "g++")


def has_library(library):
    header, package, linked = LIBRARIES[library]
    text = f"#include <{header}>\nint main() {{}}\n"
    words = [compiler(), *FLAGS, "-x", "c++", "-", "-o", os.devnull, *linked]
    there = subprocess.run(words, input=text, text=True, stdout=subprocess.DEVNULL, stderr=subprocess.DEVNULL).returncode == 0
    if not there:
        print(f"run: {package} is not there, so what needs it is left out", file=sys.stderr)
    return there


def with_headers(source):
    """A source, and the headers of this folder that it needs."""
    needed = {source}
    for name in re.findall(r'^#include "(.+)"', source.read_text(), re.MULTILINE):
        needed |= with_headers(SOURCES / name)
    return needed


def is_fresh(target, source, objects):
    needed = [*with_headers(source), *objects]
    return target.exists() and target.stat().st_mtime > max(path.stat().st_mtime for path in needed)


def compile_to(target, words, source, objects=()):
    if is_fresh(target, source, objects):
        return
    print(f"run: compiling {target.name}", file=sys.stderr, flush=True)
    if subprocess.run([compiler(), *FLAGS, "-o", target, *words]).returncode != 0:
        sys.exit(f"run: {target.name} could not be compiled")


def compile_program(name, common):
    library = library_of(name)
    source = SOURCES / f"{name}.cpp"
    objects = common if name in INDEXES else []
    compile_to(OUT / name, [source, *objects, *(LIBRARIES[library][2] if library else [])], source, objects)


def build(programs, jobs):
    """Builds those of the programs that can be, so many side by side, and answers their names."""
    OUT.mkdir(parents=True, exist_ok=True)
    try:
        subprocess.run([compiler(), "--version"], stdout=subprocess.DEVNULL, check=True)
    except OSError:
        sys.exit(f"run: the compiler {compiler()} is not there")
    common = [OUT / f"{name}.o" for name in COMMON]
    for name, target in zip(COMMON, common):
        source = SOURCES / f"{name}.cpp"
        compile_to(target, ["-c", source], source)
    there = {library: has_library(library) for library in sorted({library_of(name) for name in programs} - {None})}
    chosen = [name for name in programs if library_of(name) is None or there[library_of(name)]]
    with concurrent.futures.ThreadPoolExecutor(jobs) as pool:
        for done in [pool.submit(compile_program, name, common) for name in chosen]:
            done.result()
    return chosen


def everything():
    return [*INDEXES, *ABOUT_TWO]
