"""Scripts for phq and its peers: random, and the same at each run.

Points are uniform, which is all over the space of 32 bits in each dimension, or clustered: a line of clusters of about 1,000 points, of which
only the first coordinate tells them apart. A cluster is 10^-5 of the space wide, and the other coordinates lie about 0, so that each cluster is
cut by the highest bit.

The phases of a script: `put` makes the table; then come the others, each of which could as well come right behind the puts, since rows are moved
from one half of the table and taken away from the other.
"""
import math
import random

LOW, HIGH = -(1 << 31), (1 << 31) - 1
SPACE = 1 << 32
CLUSTER_ROWS = 1000
CLUSTER_WIDTH = SPACE // 100_000
PHASES = ["put", "get", "move", "del", "window10", "near10", "within10"]


def clipped(x):
    return min(HIGH, max(LOW, int(x)))


def words(point):
    return " ".join(map(str, point))


class Points:
    """Random points of a kind, for a table of so many rows."""

    def __init__(self, kind, dims, rows, seed=3):
        self.kind, self.dims, self.rows = kind, dims, rows
        self.random = random.Random(f"{kind} {dims} {rows} {seed}")
        self.clusters = max(1, rows // CLUSTER_ROWS)

    def draw(self):
        if self.kind == "uniform":
            bits = self.random.getrandbits(32 * self.dims)
            return tuple([((bits >> (32 * i)) & 0xFFFFFFFF) + LOW for i in range(self.dims)])
        draw = self.random.random
        first = LOW + (2 * int(draw() * self.clusters) + 1) * SPACE // (2 * self.clusters)
        return tuple([first + int((draw() - 0.5) * CLUSTER_WIDTH)] + [int((draw() - 0.5) * CLUSTER_WIDTH) for _ in range(self.dims - 1)])

    def side(self, wanted):
        """The side of a window that has about so many rows."""
        if self.kind == "uniform":
            return min(1.0, (wanted / self.rows) ** (1 / self.dims)) * SPACE
        return min(1.0, (wanted * self.clusters / self.rows) ** (1 / self.dims)) * CLUSTER_WIDTH

    def middle(self, side):
        """The middle of a window whose sides are not cut by the ends of the space."""
        if self.kind != "uniform":
            return self.draw()
        half = int(side / 2)
        if 2 * half >= SPACE - 1:
            return (0,) * self.dims
        return tuple([self.random.randint(LOW + half, HIGH - half) for _ in range(self.dims)])


class Script:
    """The lines of a script's phases. `put` has to be asked for first."""

    def __init__(self, points):
        self.points = points
        self.stored = []

    def lines(self, phase, count):
        return getattr(self, phase)(count)

    def put(self, count):
        for i in range(count):
            point = self.points.draw()
            self.stored.append(point)
            yield f"put {words(point)} {i}\n"

    def get(self, count):
        """Half of them find their row."""
        for i in range(count):
            point = self.points.random.choice(self.stored) if i % 2 == 0 else self.points.draw()
            yield f"get {words(point)}\n"

    def move(self, count):
        for i in self.points.random.sample(range(len(self.stored) // 2), count):
            yield f"move {words(self.stored[i])} {words(self.points.draw())}\n"

    def delete(self, count):
        half = len(self.stored) // 2
        for i in self.points.random.sample(range(half, len(self.stored)), count):
            yield f"del {words(self.stored[i])}\n"

    def window10(self, count):
        half = self.points.side(10) / 2
        for _ in range(count):
            middle = self.points.middle(2 * half)
            yield f"window {words([clipped(x - half) for x in middle])} {words([clipped(x + half) for x in middle])}\n"

    def near10(self, count):
        for _ in range(count):
            yield f"near {words(self.points.draw())} 10\n"

    def within10(self, count):
        """The ball that is as large as a window of 10 rows."""
        dims = self.points.dims
        ball = math.pi ** (dims / 2) / math.gamma(dims / 2 + 1)
        radius = self.points.side(10) / ball ** (1 / dims)
        for _ in range(count):
            yield f"within {words(self.points.draw())} {int(radius * radius)}\n"


setattr(Script, "del", Script.delete)


def opening(dims):
    return f"open points {dims}\n"


def write(folder, points, counts):
    """Writes each phase to a file of its own, and answers these by their names."""
    script, paths = Script(points), {}
    for phase, count in counts.items():
        paths[phase] = folder / f"{points.kind}{points.dims}-{points.rows}-{phase}"
        with open(paths[phase], "w", buffering=1 << 20) as file:
            file.writelines(script.lines(phase, count))
    return paths
