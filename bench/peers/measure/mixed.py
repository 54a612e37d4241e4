"""Scripts of all commands about points over few coordinates, with ties, edges and lines that are refused: to compare replies, not for times."""
import random

from .workload import HIGH, LOW, SPACE, clipped, words

EDGES = (LOW, HIGH, 0, -1, 1, LOW + 1, HIGH - 1, 1 << 30, -(1 << 30))
LIVE = 5000  # how many points are remembered, to be asked for again


class Mixed:
    def __init__(self, dims, seed=7):
        self.random = random.Random(f"mixed {dims} {seed}")
        self.dims = dims
        self.reach = max(2, round(2000 ** (1 / dims) / 2))
        self.live = [self.point()]

    def coordinate(self, wild):
        t = self.random.random()
        if t < wild:
            return self.random.choice(EDGES)
        if t < 2 * wild:
            return self.random.getrandbits(32) + LOW
        return self.random.randint(-self.reach, self.reach)

    def point(self, wild=0.02):
        return [self.coordinate(wild) for _ in range(self.dims)]

    def known(self):
        return self.random.choice(self.live) if self.random.random() < 0.6 else self.point()

    def remember(self, point):
        if len(self.live) < LIVE:
            self.live.append(point)
        else:
            self.live[self.random.randrange(LIVE)] = point

    def put(self):
        point = self.point(0.02 if self.random.random() < 0.9 else 0.5)
        self.remember(point)
        return f"put {words(point)} {self.random.choice((self.random.randrange(1000), self.random.getrandbits(64)))}\n"

    def move(self):
        start = self.known()
        t = self.random.random()
        end = self.known() if t < 0.3 else start if t < 0.4 else self.point()
        self.remember(end)
        return f"move {words(start)} {words(end)}\n"

    def window(self):
        middle, reach = self.known(), self.random.choice((0, 0, 1, 2, 3, self.reach // 4, 1 << 20))
        if self.random.random() < 0.03:
            reach = SPACE
        corners = [[clipped(x + way * self.random.randint(0, reach)) for x in middle] for way in (-1, 1)]
        if self.random.random() < 0.03:
            corners.reverse()
        return f"window {words(corners[0])} {words(corners[1])}\n"

    def near(self):
        count = self.random.choice((0, 1, 1, 2, 4, 10, 10, 30)) if self.random.random() < 0.999 else 4294967295
        return f"near {words(self.known())} {count}\n"

    def within(self):
        t = self.random.random()
        radius = self.random.choice((0, 1, 2, 3, 5, 9, 25))
        if t < 0.02:
            radius = self.random.getrandbits(self.random.choice((40, 60, 64, 66)))
        if t < 0.001:
            radius = (1 << 128) - 1
        return f"within {words(self.known())} {radius}\n"

    def odd(self):
        """A line that is refused, or read in an unusual form."""
        p = words(self.point())
        return self.random.choice((
            f"put {p}\n", f"put {p} -1\n", f"put {p} 18446744073709551616\n", f"get {p} 1\n", f"near {p} 4294967296\n",
            f"within {p} {1 << 128}\n", f"within {p} -0\n", "fly 1 2\n", "# a note\n", "\n", f"  get\t{p} \r\n",
            f"get {'x ' * self.dims}\n", f"get {'+2147483648 ' * self.dims}\n", f"del {'-2147483649 ' * self.dims}\n",
            f"get {'99999999999999999999999999999999999999999 ' * self.dims}\n", f"put {'0005 ' * self.dims} +7\n", "count 1\n",
            f"get {'--1 ' * self.dims}\n", "open points 17\n", "open points\n", "open lines 2\n", f"# {'x' * 4200}\n", "count\n"))

    def line(self):
        t = self.random.random()
        for limit, make in ((0.40, self.put), (0.50, lambda: f"get {words(self.known())}\n"), (0.64, lambda: f"del {words(self.known())}\n"),
                            (0.74, self.move), (0.84, self.window), (0.91, self.near), (0.985, self.within)):
            if t < limit:
                return make()
        return "count\n" if t < 0.99 else self.odd()


def script(dims, count):
    mixed = Mixed(dims)
    lines = [f"open points {dims}\n", *(mixed.line() for _ in range(count))]
    lines.append(f"count\nwindow {words([LOW] * dims)} {words([HIGH] * dims)}\n")
    lines.append(f"open points {dims} max 1\nput {words([0] * dims)} 1\nput {words([1] * dims)} 1\nput {words([0] * dims)} 2\nclear\ncount\n")
    return "".join(lines)
