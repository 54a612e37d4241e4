#!/usr/bin/env python3
"""Random edits and questions of phtree.py beside a dict.

    bindings/python/trials.py [SEED [ROUNDS]]

Prints what was not tried, since the library has no such call, and ends with status 1 where an answer is another one than that of the dict.
"""
import copy
import math
import pickle
import random
import sys

from phtree import Tree

WIDTHS = 1, 2, 5, 16, 32, 47, 62
STEPS = 60


class Round:
    """A tree and a dict of the same rows, and random points of a kind."""

    def __init__(self, seed):
        self.random = random.Random(seed)
        self.dimensions, self.width = self.random.randint(1, 16), self.random.choice(WIDTHS)
        self.half = 2 ** (self.width - 1)
        self.mask = self.random.choice([2 * self.half - 1, 1, 5 % (2 * self.half), self.half | 1 % self.half if self.half > 1 else 1])
        self.tree, self.rows = Tree(self.dimensions, self.width), {}

    def coordinate(self):
        return (self.random.getrandbits(self.width) & self.mask) - self.half

    def point(self):
        if self.rows and self.random.random() < 0.6:
            point = list(self.random.choice(list(self.rows)))
            if self.random.random() < 0.4:
                point[self.random.randrange(self.dimensions)] = self.coordinate()
            return tuple(point)
        return tuple(self.coordinate() for _ in range(self.dimensions))

    def z_order(self, point):
        """The digits of a point's coordinates, interleaved."""
        kept = [x + self.half for x in point]
        return [x >> place & 1 for place in reversed(range(self.width)) for x in kept]

    def where(self, has):
        return sorted(((p, v) for p, v in self.rows.items() if has(p)), key=lambda row: self.z_order(row[0]))

    def corners(self):
        pairs = [sorted(pair) for pair in zip(self.point(), self.point())]
        return tuple(pair[0] for pair in pairs), tuple(pair[1] for pair in pairs)

    def edit(self):
        p, q, value = self.point(), self.point(), self.random.getrandbits(64)
        kind = self.random.randrange(6)
        if kind < 3:
            self.tree[p] = self.rows[p] = value
        elif kind == 3:
            assert self.tree.pop(p, None) == self.rows.pop(p, None)
        elif kind == 4:
            assert raised(lambda: self.tree.__delitem__(p)) is (None if p in self.rows else KeyError)
            self.rows.pop(p, None)
        else:
            wanted = KeyError if p not in self.rows else ValueError if q != p and q in self.rows else None
            assert raised(lambda: self.tree.move(p, q)) is wanted
            if wanted is None:
                self.rows[q] = self.rows.pop(p)

    def look_up(self):
        p = self.point()
        assert self.tree.get(p) == self.rows.get(p) and (p in self.tree) == (p in self.rows) and len(self.tree) == len(self.rows)
        assert p not in self.rows or self.tree[p] == self.rows[p]

    def window(self):
        low, high = self.corners()
        is_in = lambda p: all(a <= x <= b for a, x, b in zip(low, p, high))
        assert list(self.tree.window(low, high)) == self.where(is_in)
        assert list(self.tree.items()) == self.where(lambda p: True) and list(self.tree) == [p for p, _ in self.where(lambda p: True)]

    def window_beside_edits(self):
        """Rows that stay are listed once, and none that was never there."""
        before, seen, ever = set(self.rows), [], set(self.rows.items())
        for point, value in self.tree.window():
            assert (point, value) in ever
            seen.append(point)
            if len(seen) % 20 == 0:
                self.edit()
                before &= set(self.rows)
                ever |= set(self.rows.items())
        assert len(seen) == len(set(seen)) and before <= set(seen)

    def square(self, p, q):
        return sum((x - y) ** 2 for x, y in zip(p, q))

    def nearest(self):
        middle, n = self.point(), self.random.choice([0, 1, 3, 10, 1000, 5000])
        wanted = sorted(((self.square(p, middle), self.z_order(p), p, v) for p, v in self.rows.items()))[:n]
        assert self.tree.nearest(middle, n, squared=True) == [(d, p, v) for d, _, p, v in wanted]
        assert self.tree.nearest(middle, n) == [(math.sqrt(d), p, v) for d, _, p, v in wanted]

    def ball(self):
        middle, radius = self.point(), self.random.choice([0, 1, self.half // 2, self.half, math.inf, 1.5])
        assert list(self.tree.ball(middle, radius)) == self.where(lambda p: self.square(p, middle) <= radius**2)

    def boxes(self):
        half = self.dimensions // 2
        low, high = (corner[:half] for corner in self.corners())
        if self.dimensions % 2:
            assert raised(lambda: list(self.tree.inside(low, high))) is ValueError
            return
        pairs = lambda p: zip(low, p[:half], p[half:], high)
        assert list(self.tree.overlapping(low, high)) == self.where(lambda p: all(a <= d and b >= c for c, a, b, d in pairs(p)))
        # Most points here are no boxes. Of such a point both halves are held against both corners, which of a box says no more.
        assert list(self.tree.inside(low, high)) == self.where(lambda p: all(c <= a <= d and c <= b <= d for c, a, b, d in pairs(p)))
        assert list(self.tree.covering(low, high)) == self.where(lambda p: all(a <= c and b >= d for c, a, b, d in pairs(p)))

    def sizes(self):
        """The root stands at the highest place, and another node at each place where two rows that are neighbours in Z-order differ first."""
        digits = [self.z_order(p) for p, _ in self.where(lambda p: True)]
        nodes = {()} if digits else set()
        for a, b in zip(digits, digits[1:]):
            first = next(i for i in range(len(a)) if a[i] != b[i]) // self.dimensions * self.dimensions
            nodes.add(tuple(a[:first]))
        sizes = self.tree.sizes()
        assert sizes.rows == len(self.rows) and sizes.nodes == len(nodes) == sizes.linear + sizes.cube
        assert 8 + 8 * sizes.words == len(self.tree.to_bytes())

    def copies(self):
        assert dict(Tree.from_rows(self.dimensions, self.rows, self.width)) == self.rows
        assert dict(pickle.loads(pickle.dumps(self.tree))) == self.rows
        assert self.tree == Tree.from_rows(self.dimensions, list(self.rows.items()) * 2, self.width)

    def sets(self):
        other = {self.point(): 7 for _ in range(20)}
        with Tree(self.dimensions, self.width) as beside:
            beside.update(other)
            assert dict(self.tree | beside) == self.rows | other
            assert dict(self.tree & beside) == {p: v for p, v in self.rows.items() if p in other}
            assert dict(self.tree - beside) == {p: v for p, v in self.rows.items() if p not in other}
            assert (self.tree | self.tree) == self.tree == copy.copy(self.tree) and not self.tree - self.tree

    def snapshots(self):
        data = self.tree.to_bytes()
        assert Tree.from_bytes(self.dimensions, data, self.width) == self.tree
        assert raised(lambda: Tree.from_bytes(self.dimensions, data[:-1], self.width)) is ValueError

    def refusals(self):
        p = self.point()
        assert raised(lambda: self.tree.get(p + (0,))) is ValueError and raised(lambda: self.tree.get((self.half,) * self.dimensions)) is ValueError
        assert raised(lambda: self.tree.get((1.5,) * self.dimensions)) is TypeError
        assert raised(lambda: self.tree.__setitem__(p, -1)) is ValueError and raised(lambda: self.tree.__setitem__(p, 2**64)) is ValueError
        assert raised(lambda: Tree(17)) is ValueError and raised(lambda: Tree(2, 63)) is ValueError and raised(lambda: Tree(2**32 + 2)) is ValueError
        with Tree(self.dimensions, self.width, most=1) as small:
            small[p] = 1
            small[p] = 2
            other = (-1 - p[0],) + p[1:]
            assert raised(lambda: small.__setitem__(other, 1)) is OverflowError and dict(small) == {p: 2} and small.most == 1
        assert raised(lambda: len(small)) is ValueError and raised(small.sizes) is ValueError

    def run(self, missing):
        questions = [self.look_up, self.window, self.window_beside_edits, self.nearest, self.ball, self.boxes, self.copies, self.sizes, self.sets,
                     self.snapshots, self.refusals]
        for _ in range(STEPS):
            for _ in range(self.random.choice([1, 5, 20])):
                try:
                    self.edit()
                except NotImplementedError as error:
                    missing.add(str(error))
            try:
                self.random.choice(questions)()
            except NotImplementedError as error:
                missing.add(str(error))
        self.tree.clear()
        assert self.tree.get(self.point()) is None


def raised(call):
    try:
        call()
    except NotImplementedError:
        raise
    except Exception as error:
        return type(error)
    return None


def main():
    seed = int(sys.argv[1]) if len(sys.argv) > 1 else random.getrandbits(32)
    missing = set()
    for number in range(int(sys.argv[2]) if len(sys.argv) > 2 else 50):
        one = Round(f"{seed} {number}")
        try:
            one.run(missing)
        except AssertionError:
            print(f"FAILED round {number} of seed {seed}: {one.dimensions} dimensions of {one.width} bits", flush=True)
            raise
    for text in sorted(missing):
        print(f"not tried: {text}")


if __name__ == "__main__":
    main()
