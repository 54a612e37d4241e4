"""A PH-tree: rows at points of 1 to 16 whole numbers, each with a value of 64 bits.

    from phtree import Tree

    tree = Tree(2, width=32)
    tree[3, 4] = 17
    tree[3, 4]                          # 17
    list(tree.window((0, 0), (9, 9)))   # [((3, 4), 17)]
    tree.nearest((0, 0))                # [(5.0, (3, 4), 17)]

A tree is a mapping from points, which are tuples, to whole numbers from 0 to 2^64 - 1. It is in Z-order, the order of points by the digits of their
coordinates, interleaved, the highest digits first. A listing may go on while the tree is edited: it takes a page of rows at a time, and goes on behind
the last one. A row that is there all the while is listed once.

What is no point, no window or no tree raises ValueError, or TypeError where it is no whole number; a point without a row KeyError; a tree that would have
more rows than it may have OverflowError; and where there is no memory, MemoryError. After each of these the tree is as it was.
A tree that threads share wants a lock of theirs around each use: its arrays for arguments are its own, and are used again in each call.

The shared library is libphtree.so beside this file, or in the folder release/ of the repository, or the file that the variable PHTREE_LIBRARY names.
"""
import ctypes
import math
import os
import pathlib
import struct
from array import array
from collections import namedtuple
from collections.abc import ItemsView, MutableMapping, ValuesView
from ctypes import byref, c_int64, c_size_t, c_uint8, c_uint32, c_uint64, c_void_p
from fractions import Fraction
from operator import index

__all__ = ["Sizes", "Tree"]

MOST = 2**64 - 1
MOST_SQUARE = 2**128 - 1
FIRST_PAGE, MOST_PAGE = 32, 1024  # rows
DONE, REPLACED, ABSENT, TAKEN, NO_TREE, NO_ROOM = 0, 1, 2, 3, 10, 17
REFUSALS = {
    NO_TREE: (ValueError, "the tree is closed"),
    11: (ValueError, "the number of dimensions is not 1 to 16"),
    12: (ValueError, "the width is not 1 to 62"),
    13: (ValueError, "not as many numbers as the tree has dimensions, or one that is no coordinate of its width"),
    14: (ValueError, "a number of a low corner is above that of the high one"),
    15: (OverflowError, "the tree would have more rows than it may have"),
    16: (MemoryError, "there is no memory"),
    18: (ValueError, "two trees are of different dimensions or widths"),
    19: (ValueError, "the number of dimensions is odd, so the points are no boxes"),
    20: (ValueError, "the bytes are no snapshot of such a tree"),
}


class _Handle(ctypes.Structure):
    _fields_ = [("at", c_void_p)]


class _Sizes(ctypes.Structure):
    _fields_ = [(name, c_uint64) for name in ("rows", "nodes", "linear", "cube", "words")]


Sizes = namedtuple("Sizes", [name for name, _ in _Sizes._fields_])


class _Calls:
    """The calls of the library, each bound when it is first asked for. They keep the interpreter's lock, so there is one at a time."""

    def __init__(self):
        named = os.environ.get("PHTREE_LIBRARY")
        here = pathlib.Path(__file__).resolve().parent
        places = [pathlib.Path(named)] if named else [here / "libphtree.so", here.parent.parent / "release" / "libphtree.so"]
        for place in places:
            if place.is_file():
                self._library = ctypes.PyDLL(str(place.resolve()))
                return
        raise ImportError(f"there is no {' and no '.join(map(str, places))}: ./phq lib makes the library, and PHTREE_LIBRARY can name it")

    def __getattr__(self, name):
        if not name.startswith("ph_"):
            raise AttributeError(name)
        try:
            call = getattr(self._library, name)
        except AttributeError:
            raise NotImplementedError(f"the library has no call {name}") from None
        call.restype = None if name == "ph_close" else c_uint32
        setattr(self, name, call)
        return call


_calls = _Calls()


def _check(answer):
    if answer >= NO_TREE:
        error, text = REFUSALS[answer]
        raise error(text)
    return answer


def _number(number, most, what):
    number = index(number)
    if not 0 <= number <= most:
        raise ValueError(f"{what} is 0 to {most}, and not {number}")
    return number


def _numbers_of(point, count, width):
    """The numbers of a point or a corner of so many coordinates. Whether they are of the width is left to the library, but they fit in 64 bits."""
    numbers = list(map(index, point))
    if len(numbers) != count or not all(-(2**63) <= x < 2**63 for x in numbers):
        raise ValueError(f"these are not {count} coordinates of {width} bits: {point!r}")
    return numbers


def _place(numbers):
    """Where an array of numbers begins, which is somewhere even if it has none."""
    return c_void_p(numbers.buffer_info()[0]) if numbers else byref(c_uint64())


def _sizes(dimensions, width):
    return c_uint32(_number(dimensions, 2**32 - 1, "the number of dimensions")), c_uint32(_number(width, 2**32 - 1, "the width"))


def _square(radius):
    """The greatest whole number that is no more than the square of a radius."""
    if radius < 0:
        raise ValueError("a radius is not below 0")
    return MOST_SQUARE if radius == math.inf else min(math.floor(Fraction(radius) ** 2), MOST_SQUARE)


class _Items(ItemsView):
    def __iter__(self):
        return self._mapping.window()


class _Values(ValuesView):
    def __iter__(self):
        return (value for _, value in self._mapping.window())


class Tree(MutableMapping):
    """A tree of points of `dimensions` coordinates, 1 to 16, of `width` binary digits, 1 to 62, for at most `most` rows.

    Coordinates are from -2^(width-1) to 2^(width-1) - 1. Besides what it is below, it is as a dict: `update`, `setdefault`, `keys`, `==` and so on.
    """

    _close = _calls.ph_close

    def __init__(self, dimensions, width=62, most=MOST):
        self._prepare(dimensions, width)
        _check(_calls.ph_open(self._me, self._dims, self._bits, c_uint64(_number(most, MOST, "the greatest number of rows"))))

    def _prepare(self, dimensions, width):
        """Makes a tree that is not open yet, with all that its calls pass."""
        self._handle = _Handle()
        self._me = byref(self._handle)
        self._dims, self._bits = _sizes(dimensions, width)
        self.dimensions, self.width = self._dims.value, self._bits.value
        count = self.dimensions if 1 <= self.dimensions <= 16 else 1
        self._length, self._none = c_size_t(count), c_size_t(0)
        self._pack = struct.Struct(f"={count}q").pack_into
        self._unpack = struct.Struct(f"={count}q").iter_unpack
        self._point, self._other = (c_int64 * count)(), (c_int64 * count)()
        self._given, self._value, self._count, self._more = c_uint64(), c_uint64(), c_size_t(), c_uint32()
        self._at, self._to, self._got = byref(self._point), byref(self._other), byref(self._value)
        self._counted, self._left = byref(self._count), byref(self._more)
        self._rooms = {}

    @classmethod
    def _made(cls, dimensions, width, call, *arguments):
        tree = cls.__new__(cls)
        tree._prepare(dimensions, width)
        _check(call(tree._me, *arguments))
        return tree

    @classmethod
    def from_rows(cls, dimensions, rows, width=62, most=MOST):
        """A tree of all these rows at once: pairs of a point and a value, or a mapping. Where a point comes twice, the later value stands."""
        points, values = array("q"), array("Q")
        for point, value in rows.items() if hasattr(rows, "items") else rows:
            try:
                points.extend(array("q", point))
                values.append(value)
            except OverflowError:
                raise ValueError(f"no row: {point!r}, {value!r}") from None
            if len(points) != dimensions * len(values):
                raise ValueError(f"a point has {dimensions} coordinates, and not those of {point!r}")
        most = c_uint64(_number(most, MOST, "the greatest number of rows"))
        lent = _place(points), c_size_t(len(points)), _place(values), c_size_t(len(values))
        return cls._made(dimensions, width, _calls.ph_build, *_sizes(dimensions, width), most, *lent)

    @classmethod
    def from_bytes(cls, dimensions, data, width=62):
        """The tree that `to_bytes` made these bytes of, for at most 2^64 - 1 rows."""
        data = bytes(data)
        return cls._made(dimensions, width, _calls.ph_load, *_sizes(dimensions, width), ctypes.c_char_p(data), c_size_t(len(data)))

    def to_bytes(self):
        """The snapshot of the tree. The same rows are the same bytes."""
        size, needed = 4096, c_uint64()
        while True:
            room = (c_uint8 * size)()
            answer = _calls.ph_save(self._me, room, c_size_t(size), byref(needed))
            if answer != NO_ROOM:
                _check(answer)
                return bytes(memoryview(room)[:needed.value])
            size = needed.value

    def close(self):
        """Gives the memory back. Each use behind it raises ValueError. Closing again does nothing."""
        self._close(self._me)

    def __enter__(self):
        return self

    def __exit__(self, *_):
        self.close()

    def __del__(self):
        if hasattr(self, "_me"):
            self.close()

    def __len__(self):
        _check(_calls.ph_length(self._me, self._got))
        return self._value.value

    @property
    def most(self):
        """How many rows the tree may have."""
        _check(_calls.ph_most(self._me, self._got))
        return self._value.value

    def sizes(self):
        """What the tree is made of: rows, nodes, those in the linear and in the cube layout, and the words of 8 bytes of all their records. The same rows
        are the same sizes, whatever was put and taken out before."""
        sizes = _Sizes()
        _check(_calls.ph_sizes(self._me, byref(sizes)))
        return Sizes(*(getattr(sizes, name) for name in Sizes._fields))

    def _set(self, into, point):
        try:
            self._pack(into, 0, *point)
        except struct.error:
            into[:] = _numbers_of(point, self.dimensions, self.width)

    def _has(self, point):
        self._set(self._point, point)
        return _check(_calls.ph_get(self._me, self._at, self._length, self._got)) == DONE

    def __contains__(self, point):
        return self._has(point)

    def __getitem__(self, point):
        if not self._has(point):
            raise KeyError(point)
        return self._value.value

    def get(self, point, default=None):
        """The value at a point, or `default` where no row is there."""
        return self._value.value if self._has(point) else default

    def __setitem__(self, point, value):
        self._set(self._point, point)
        self._given.value = _number(value, MOST, "a value")
        _check(_calls.ph_put(self._me, self._at, self._length, self._given, self._got))

    def pop(self, point, *default):
        """Takes the row at a point out and gives its value; where no row is there, `default`, or KeyError without one."""
        self._set(self._point, point)
        if _check(_calls.ph_remove(self._me, self._at, self._length, self._got)) == DONE:
            return self._value.value
        if not default:
            raise KeyError(point)
        return default[0]

    def __delitem__(self, point):
        self.pop(point)

    def move(self, point, to):
        """Moves the row at a point to another. KeyError where no row is at the point, and ValueError where another row is at `to`."""
        self._set(self._point, point)
        self._set(self._other, to)
        answer = _check(_calls.ph_move(self._me, self._at, self._length, self._to, self._length))
        if answer == ABSENT:
            raise KeyError(point)
        if answer == TAKEN:
            raise ValueError(f"a row is at {to!r} already")

    def clear(self):
        """Takes all rows out."""
        _check(_calls.ph_open(self._me, self._dims, self._bits, c_uint64(self.most)))

    def __iter__(self):
        return (point for point, _ in self.window())

    def items(self):
        """The rows, pairs of a point and a value, in Z-order."""
        return _Items(self)

    def values(self):
        """The values, in the Z-order of their points."""
        return _Values(self)

    def _corner(self, corner, count=None):
        count = self.dimensions if count is None else count
        return (c_int64 * count)(*_numbers_of(corner, count, self.width))

    def _lend(self, rows):
        """Arrays for so many points, values and squares. Those of pages are kept."""
        room = self._rooms.get(rows)
        if room is None:
            room = (c_int64 * (self.dimensions * rows))(), (c_uint64 * rows)(), (c_uint64 * (2 * rows))()
            if rows <= MOST_PAGE:
                self._rooms[rows] = room
        return room

    def _copied(self, points):
        return self._unpack(memoryview(points).cast("B")[: 8 * self.dimensions * self._count.value])

    def _pages(self, call, *question):
        """The rows of a listing, page by page. No array is lent while a row is handed out, so the tree may be used meanwhile."""
        last, length, rows = (c_int64 * self.dimensions)(), self._none, FIRST_PAGE
        while True:
            points, values, _ = self._lend(rows)
            sizes = c_size_t(rows * self.dimensions), c_size_t(rows)
            _check(call(self._me, *question, last, length, points, sizes[0], values, sizes[1], self._counted, self._left))
            page, is_last = list(zip(self._copied(points), values[: self._count.value])), not self._more.value
            yield from page
            if is_last:
                return
            self._pack(last, 0, *page[-1][0])
            length, rows = self._length, min(2 * rows, MOST_PAGE)

    def window(self, low=None, high=None):
        """Lists the rows between two corners, both inside, in Z-order. Without a corner it goes on to the end of the space."""
        half = 2 ** (self.width - 1)
        low = self._corner((-half,) * self.dimensions if low is None else low)
        high = self._corner((half - 1,) * self.dimensions if high is None else high)
        return self._pages(_calls.ph_window, low, self._length, high, self._length)

    def ball(self, point, radius):
        """Lists the rows whose distance from a point is at most `radius`, a number of any kind, in Z-order."""
        square = _square(radius)
        return self._pages(_calls.ph_ball, self._corner(point), self._length, c_uint64(square % 2**64), c_uint64(square // 2**64))

    def nearest(self, point, n=1, squared=False):
        """The `n` rows nearest to a point, or all where there are fewer: a list of (distance, point, value), the nearest first, of equal distances
        in Z-order. A distance is a float; with `squared` it is the square of the distance, a whole number."""
        self._set(self._point, point)
        rows = max(1, min(_number(n, MOST, "a number of rows"), len(self), 2**32 - 1))
        points, values, squares = self._lend(rows)
        rows = min(n, rows)
        sizes = c_size_t(rows * self.dimensions), c_size_t(rows), c_size_t(2 * rows)
        _check(_calls.ph_nearest(self._me, self._at, self._length, points, sizes[0], values, sizes[1], squares, sizes[2], self._counted))
        pairs = zip(squares[: 2 * self._count.value : 2], squares[1 : 2 * self._count.value : 2])
        distances = [low + (high << 64) for low, high in pairs]
        return list(zip(distances if squared else map(math.sqrt, distances), self._copied(points), values[: self._count.value]))

    def _boxes(self, call, low, high):
        half = self.dimensions // 2
        return self._pages(call, self._corner(low, half), c_size_t(half), self._corner(high, half), c_size_t(half))

    def overlapping(self, low, high):
        """Lists the boxes that have a point in common with the one of these corners. In a tree of boxes a point is the low corner and then the high
        one of a box; `low` and `high` have half as many coordinates. Boxes that touch overlap."""
        return self._boxes(_calls.ph_overlapping, low, high)

    def inside(self, low, high):
        """Lists the boxes that lie inside the one of these corners."""
        return self._boxes(_calls.ph_inside, low, high)

    def covering(self, low, high):
        """Lists the boxes that cover the one of these corners."""
        return self._boxes(_calls.ph_covering, low, high)

    def copy(self):
        """A tree of the same rows, for as many rows at most."""
        with Tree(self.dimensions, self.width) as empty:
            return self._made(self.dimensions, self.width, _calls.ph_union, self._me, empty._me, c_uint64(self.most))

    __copy__ = copy

    def __deepcopy__(self, _):
        return self.copy()

    def __reduce__(self):
        return type(self).from_rows, (self.dimensions, list(self.window()), self.width, self.most)

    def __or__(self, other):
        """The rows of either tree, for as many rows as one of the two may have. Where both have a row at a point, that of `other` stands, as in dicts."""
        if not isinstance(other, Tree):
            return NotImplemented
        most = c_uint64(max(self.most, other.most))
        return self.copy() if other is self else self._made(self.dimensions, self.width, _calls.ph_union, other._me, self._me, most)

    def __and__(self, other):
        """The rows of this tree at whose points `other` has a row."""
        if not isinstance(other, Tree):
            return NotImplemented
        return self.copy() if other is self else self._made(self.dimensions, self.width, _calls.ph_common, self._me, other._me)

    def __sub__(self, other):
        """The rows of this tree at whose points `other` has no row."""
        if not isinstance(other, Tree):
            return NotImplemented
        if other is self:
            return type(self)(self.dimensions, self.width, self.most)
        return self._made(self.dimensions, self.width, _calls.ph_minus, self._me, other._me)

    def __repr__(self):
        rows = f"{len(self)} rows" if self._handle.at else "closed"
        return f"<Tree of {self.dimensions} dimensions of {self.width} bits: {rows}>"
