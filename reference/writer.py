"""Writes the lines of random scripts.

They are drawn so that much happens in few lines: points come again, or differ in one binary digit, or stand at the ends of the width.
"""
import re
from collections import defaultdict
from dataclasses import dataclass

from table import least

FILES = ['a.pht', 'b.pht', 'c.pht', 't.csv', 'u.csv']


@dataclass
class Case:
    """Files to begin with, and calls of the program in this folder: words, and the script for a run. What stands under the name of a file
    is its bytes, the goal of a link, or None for a folder."""
    files: dict
    calls: list


def greatest(width):
    return -least(width) - 1


class Writer:
    """Writes the lines of a script. It knows what the slots were opened for, and not what they hold."""

    def __init__(self, rng):
        self.rng = rng
        self.slots = {'a': ('points', 2, 32), 'b': ('points', 2, 32)}
        self.name = 'a'
        self.lines = []
        self.files = {}
        # The points that were drawn for slots of a form, and those at which a row was put.
        self.drawn, self.placed = defaultdict(list), defaultdict(list)
        self.marks = [rng.randrange(62) for _ in range(rng.choice((1, 2, 3)))]
        self.style = rng.choice(('small', 'small', 'marks', 'marks', 'ends', 'all', 'mixed'))

    @property
    def slot(self):
        return self.slots[self.name]

    def chance(self, share):
        return self.rng.random() < share

    def add(self, *words):
        self.lines.append(' '.join(map(str, words)).encode())

    def coordinate(self):
        rng, width = self.rng, self.slot[2]
        style = rng.choice(('small', 'marks', 'ends', 'all')) if self.style == 'mixed' else self.style
        low, high = least(width), greatest(width)
        if style == 'small':
            return min(max(rng.randrange(-2, 3), low), high)
        if style == 'marks':
            return low + (rng.choice((0, -low)) ^ sum(1 << mark % width for mark in self.marks if rng.random() < 0.5)) % (1 << width)
        if style == 'ends':
            return min(max(rng.choice((low, high, low + 1, high - 1, 0, -1)), low), high)
        return rng.randint(low, high)

    def new_point(self):
        kind, dims, _ = self.slot
        point = [self.coordinate() for _ in range(dims)]
        return as_box(point) if kind == 'boxes' else tuple(point)

    def point(self):
        """A point of the slot: one that was drawn before, one that differs from it in a digit, or a new one."""
        kind, dims, width = self.slot
        known = self.drawn[self.slot]
        if known and self.chance(0.6):
            point = self.rng.choice(known[-30:])
            if self.chance(0.3):
                point = list(point)
                at = self.rng.randrange(dims)
                point[at] = least(width) + ((point[at] - least(width)) ^ 1 << self.rng.randrange(width))
                point = as_box(point) if kind == 'boxes' else tuple(point)
        else:
            point = self.new_point()
        known.append(point)
        return point

    def placed_point(self):
        """A point at which a row was put, most often."""
        known = self.placed[self.slot]
        return self.rng.choice(known[-30:]) if known and self.chance(0.75) else self.point()

    def corners(self):
        """The corners of a window, which is often a large one and now and then reversed."""
        _, dims, width = self.slot
        first, second = self.point(), self.point()
        if self.chance(0.3):
            return (least(width),) * dims + (greatest(width),) * dims
        if self.chance(0.85):
            first, second = tuple(map(min, first, second)), tuple(map(max, first, second))
        return first + second

    def value(self):
        return self.rng.choice((0, 1, 2, 7, self.rng.randrange(1 << 64), 2**64 - 1)) if self.chance(0.3) else self.rng.randrange(100)

    def file(self):
        return self.rng.choice(FILES)

    def open(self, kind=None, dims=None, width=None, most=None):
        rng = self.rng
        if most is None and self.chance(0.15):
            most = rng.choice((0, 1, 2, 3, 5, 8))
        kind = kind or rng.choice(('points', 'points', 'boxes'))
        dims = dims or (rng.choice((1, 1, 2, 2, 2, 3, 3, 4, 5, 6, 8)) if kind == 'boxes' else rng.choice((1, 1, 2, 2, 2, 3, 3, 4, 5, 8, 12, 16)))
        width = width or rng.choice((1, 2, 3, 4, 5, 8, 16, 29, 31, 32, 32, 33, 48, 61, 62))
        if kind == 'boxes' and dims > 8:
            dims = 8
        words = ['bits', width] if width != 32 or self.chance(0.2) else []
        if most is not None:
            words += ['max', most]
        self.add('open', kind, dims, *words)
        self.slots[self.name] = (kind, dims * (2 if kind == 'boxes' else 1), width)

    def use(self, name=None):
        self.name = name or self.rng.choice('ab')
        self.add('use', self.name)

    def put(self):
        self.placed[self.slot].append(self.point())
        self.add('put', *self.placed[self.slot][-1], self.value())

    def edit(self):
        kind = self.rng.choice(('put', 'put', 'put', 'put', 'del', 'move', 'move'))
        if kind == 'put':
            self.put()
        elif kind == 'del':
            self.add('del', *self.placed_point())
        else:
            goal = self.point()
            self.add('move', *self.placed_point(), *goal)
            self.placed[self.slot].append(goal)

    def ask(self):
        kind = self.rng.choice(('get', 'get', 'count', 'window', 'stats', 'near', 'within'))
        if kind == 'get':
            self.add('get', *self.placed_point())
        elif kind in ('count', 'stats'):
            self.add(kind)
        elif kind == 'window':
            self.add('window', *self.corners())
        else:
            self.ball(kind)

    def ball(self, kind):
        point, other = self.point(), self.point()
        if kind == 'near':
            return self.add('near', *point, self.rng.choice((0, 1, 2, 3, 5, 10, 4294967295)))
        radius = self.rng.choice((0, 1, 2, 4, sum((a - b)**2 for a, b in zip(point, other)), 2**128 - 1))
        return self.add('within', *point, max(0, radius - self.rng.choice((0, 0, 1))))

    def question(self):
        self.add(self.rng.choice(('overlap', 'overlap', 'inside', 'covers')), *self.point())

    def make_cursor(self, names):
        self.add('cursor', self.rng.choice(names), *self.corners())

    def page(self, names):
        self.add('page', self.rng.choice(names), self.rng.choice((0, 1, 1, 2, 2, 3, 5, 4294967295)))

    def look(self):
        """Looks at all that stands in the current slot."""
        _, dims, width = self.slot
        self.add('window', *(least(width),) * dims, *(greatest(width),) * dims)
        self.add('stats')

    def any(self):
        """Any command of the current slot, spelled right."""
        kinds = [self.edit] * 6 + [self.ask] * 4 + [
            lambda: self.make_cursor('cd'), lambda: self.page('cd'), lambda: self.page('cd'), self.question, self.open, self.use,
            lambda: self.add('save', self.file()), lambda: self.add('load', self.file()), lambda: self.add('export', self.file()),
            lambda: self.add('import', self.file()), lambda: self.add('import', self.file(), 'header'),
            lambda: self.add(self.rng.choice(('same', 'join', 'union', 'common', 'minus', 'clear'))),
            lambda: self.add('keep', self.rng.choice((0, 1, 2, 3, 65536))), lambda: self.add('back', self.rng.choice((0, 1, 2, 3)))]
        self.rng.choice(kinds)()

    def case(self, *calls):
        """The script as one run, with more calls behind it."""
        if self.chance(0.7):
            self.look()
            self.use('b' if self.name == 'a' else 'a')
            self.look()
        script = b''.join(line + b'\n' for line in self.lines if is_safe(line))
        if self.chance(0.1):
            script = script[:-1]
        return Case(self.files, [(['run'], script), *calls])


def as_box(point):
    """A box with the numbers of a point for its corners."""
    half = len(point) // 2
    return tuple(map(min, point[:half], point[half:])) + tuple(map(max, point[:half], point[half:]))


def is_safe(line):
    """Whether no word of a line leads out of the folder."""
    return not re.search(rb'(^|[ \t])/|\.\.', line)
