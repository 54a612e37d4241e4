"""The memory of a row in 1 to 16 dimensions, as the puts of a table leave it."""
import sys

from . import workload
from .programs import DIMS, INDEXES, PHQ, command, has_dims
from .running import Running

ROWS = 100_000
LEFT_OUT = "null"


def measure(kinds, dims_wanted, programs, folder):
    for kind in kinds:
        for dims in dims_wanted:
            print(f"run: memory of {ROWS:,} rows, {kind}, {dims} dimensions", file=sys.stderr, flush=True)
            paths = workload.write(folder, workload.Points(kind, dims, ROWS), {"put": ROWS})
            for program in programs:
                if program == LEFT_OUT or not (program == PHQ or program in INDEXES) or not has_dims(program, dims):
                    continue
                running = Running(command(program))
                running.answer(workload.opening(dims).encode())
                before = running.memory()
                nanoseconds = running.answer(paths["put"]) / ROWS
                grown = running.memory() - before
                yield {"points": kind, "dims": dims, "rows": ROWS, "program": program, "bytes of a row": f"{grown / ROWS:.1f}",
                       "nanoseconds of a put": f"{nanoseconds:.1f}"}
                running.end()
            paths["put"].unlink()
