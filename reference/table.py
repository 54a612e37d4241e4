"""Points, tables of rows, and all questions about them.

A point is a tuple of whole numbers, a table a dictionary from points to values, and a row a point with its value. Square brackets have
the names of definitions in `ph_specs`: those of `Coordinate`, `ZOrder`, `Table`, `Window`, `Distance`, `Boxes` and `Sets`.
"""
from functools import lru_cache


def least(width):
    """The least coordinate of a width. The greatest is as far above -1 as this is below 0. [Coordinate: least, half]"""
    return -2**(width - 1)


def is_point(point, width):
    """Whether all numbers are coordinates of the width. [Coordinate: is_point, fits, greatest]"""
    return all(least(width) <= coordinate < -least(width) for coordinate in point)


def offsets(point, width):
    """How far each coordinate lies above the least one. [Coordinate: offset]"""
    return tuple(coordinate - least(width) for coordinate in point)


def at_most(point, other):
    """Whether each number of the first is at most that of the second. [Coordinate: at_most]"""
    return all(first <= second for first, second in zip(point, other))


def corners(box):
    """The low and the high corner of a box. [Coordinate: low_corner, high_corner]"""
    return box[:len(box) // 2], box[len(box) // 2:]


def is_box(point):
    """Whether no low bound is above its high one. [Coordinate: is_box]"""
    return at_most(*corners(point))


@lru_cache(maxsize=1 << 16)
def z_order(point, width):
    """The number by which points are in Z-order: the first digits of all offsets, then all second ones, and so on.
    [ZOrder: before, address]"""
    digits = [format(offset, f'0{width}b') for offset in offsets(point, width)]
    return int(''.join(map(''.join, zip(*digits))), 2)


def rows_of(table, width):
    """The rows of a table in Z-order. [Table: is_rising]"""
    return sorted(table.items(), key=lambda row: z_order(row[0], width))


def window(rows, low, high):
    """The rows of a window, whose corners belong to it. [Window: window, is_between]"""
    return [row for row in rows if at_most(low, row[0]) and at_most(row[0], high)]


def rest(rows, last, width):
    """The rows behind the last point that was listed, if there is one. [Window: rest, is_after]"""
    return [row for row in rows if last is None or z_order(row[0], width) > z_order(last, width)]


def hits(rows, point):
    """The rows, each behind the square of its distance. [Distance: distance, squared_gap]"""
    return [(sum((first - second)**2 for first, second in zip(point, row[0])), row) for row in rows]


def near(rows, point, most):
    """The nearest rows. Those that are as far as each other keep their order. [Distance: near, ranked]"""
    return sorted(hits(rows, point), key=lambda hit: hit[0])[:most]


def within(rows, point, radius):
    """The rows that are at most so far, by the square of the distance. [Distance: within]"""
    return [hit for hit in hits(rows, point) if hit[0] <= radius]


def overlaps(stored, asked):
    """Whether two boxes have a point in common. [Boxes: overlaps]"""
    (low, high), (asked_low, asked_high) = corners(stored), corners(asked)
    return at_most(low, asked_high) and at_most(asked_low, high)


def is_inside(stored, asked):
    """Whether a stored box lies in the asked one. [Boxes: is_inside]"""
    (low, high), (asked_low, asked_high) = corners(stored), corners(asked)
    return at_most(asked_low, low) and at_most(high, asked_high)


# A question lists the stored boxes of which its test is true. [Boxes: overlapping, inside, covering, covers]
QUESTIONS = {'overlap': overlaps, 'inside': is_inside, 'covers': lambda stored, asked: is_inside(asked, stored)}
# What becomes of a table and another one. Of a point in both the value of the first stays. [Sets: union, common, minus]
SET_OPERATIONS = {
    'union': lambda table, other: {**other, **table},
    'common': lambda table, other: {point: value for point, value in table.items() if point in other},
    'minus': lambda table, other: {point: value for point, value in table.items() if point not in other},
}
