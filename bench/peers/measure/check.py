"""Compares the replies of the peers with those of phq, byte by byte, for the same script."""
import subprocess
import sys

from . import mixed
from .programs import DIMS, PHQ, command, has_dims, name_of


def answer(program, scripts, replies):
    """Runs a program on files, one behind the other, writes its replies to a file and answers its status."""
    with open(replies, "wb") as told:
        run = subprocess.Popen(command(program), stdin=subprocess.PIPE, stdout=told)
        for script in scripts:
            run.stdin.write(script if isinstance(script, bytes) else script.read_bytes())
        run.stdin.close()
        return run.wait()


def first_difference(wanted, got):
    with open(wanted, "rb") as right, open(got, "rb") as told:
        for number, line in enumerate(right, 1):
            other = told.readline()
            if line != other:
                return f"line {number} of the replies is {other[:200]!r}, and {PHQ} says {line[:200]!r}"
        return f"there are more replies: {told.readline()[:200]!r}"


def compare(programs, scripts, dims, what, folder):
    """Ends the run where a peer does not answer as phq does."""
    wanted, got = folder / "replies", folder / "other-replies"
    status = answer(PHQ, scripts, wanted)
    if status > 1:
        sys.exit(f"run: {PHQ} ended with status {status} on {what}")
    right = wanted.read_bytes()
    for program in programs:
        if program in (PHQ, "null") or not has_dims(program, dims):
            continue
        other = answer(program, scripts, got)
        if got.read_bytes() != right:
            sys.exit(f"run: {name_of(program)} differs on {what}: {first_difference(wanted, got)}")
        if other != status:
            sys.exit(f"run: {name_of(program)} ends with status {other} on {what}, and {PHQ} with {status}")
    wanted.unlink()
    got.unlink(missing_ok=True)


def compare_mixed(programs, lines, folder):
    for dims in DIMS:
        compare(programs, [mixed.script(dims, lines).encode()], dims, f"mixed commands in {dims} dimensions", folder)
