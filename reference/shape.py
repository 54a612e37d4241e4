"""The tree of a table: its shape, the packed record of each node, and the sizes.

Square brackets have the names of definitions in `ph_specs`: those of `Node`, `Shape`, `Digits`, `Pack` and `Stats`.
"""
from dataclasses import dataclass
from itertools import groupby
from typing import Any

from table import offsets, rows_of


@dataclass
class Entry:
    """An entry holds a value or a child. Its body has the digits that are known below the level of its node. [Node: Entries]"""
    address: int
    body: tuple
    value: Any = None
    child: Any = None


@dataclass
class Node:
    """A node splits its points at its level, and has an entry for each address that occurs there. [Node: PlainNode]"""
    level: int
    dims: int
    entries: list

    def children(self):
        return [entry.child for entry in self.entries if entry.child]

    def is_cube(self):
        return is_cube(self.dims, self.level, len(self.entries))


def address(point, level):
    """The digits of all offsets at one place as a number, the first offset's digit first. [ZOrder: address]"""
    return sum((offset >> level & 1) << at for at, offset in enumerate(reversed(point)))


def digits_between(point, level, lower):
    """The digits below a level, with zeros from a lower place down. [Shape: digits_below, digits_between]"""
    return tuple(offset % 2**level >> lower << lower for offset in point)


def differing_place(rows):
    """The greatest place at which some of the rows differ. [Shape: node_below]"""
    first = rows[0][0]
    return max((offset ^ other).bit_length() for point, _ in rows for offset, other in zip(point, first)) - 1


def entry_of(place, level, rows):
    """One row is a point entry, and more are a child, which stands where they differ first. [Shape: entry_of]"""
    point, value = rows[0]
    if len(rows) == 1:
        return Entry(place, digits_between(point, level, 0), value=value)
    child = node_at(differing_place(rows), rows)
    return Entry(place, digits_between(point, level, child.level + 1), child=child)


def node_at(level, rows):
    """The node that splits rows at a place. They are in Z-order and agree above it. [Shape: node_at, groups]"""
    groups = groupby(rows, key=lambda row: address(row[0], level))
    return Node(level, len(rows[0][0]), [entry_of(place, level, list(group)) for place, group in groups])


def shape(table, width):
    """The root of a table's tree, at the highest place, or None where there is no row. [Shape: shape]"""
    rows = [(offsets(point, width), value) for point, value in rows_of(table, width)]
    return node_at(width - 1, rows) if rows else None


def nodes(root):
    """All nodes of a tree, each before those below it. [Node: nodes]"""
    return [root] + [node for child in root.children() for node in nodes(child)] if root else []


def field(number, size):
    """A number as so many binary digits, which may be none. [Digits: field]"""
    return format(number, f'0{size}b') if size else ''


def linear_digits(dims, level, count):
    """How many digits the tables of a linear record have. [Pack: linear_digits]"""
    return count * (1 + dims + dims * level)


def cube_digits(dims, level):
    """How many those of a cube have. [Pack: cube_digits]"""
    return 2**dims * (2 + dims * level)


def is_cube(dims, level, count):
    """Whether the cube is the smaller layout. Where both have as many digits, it is not. [Pack: is_cube]"""
    return cube_digits(dims, level) < linear_digits(dims, level, count)


def bodies(points, level):  # [Pack: bodies, body_fields]
    return ''.join(field(offset, level) for point in points for offset in point)


def linear_table(node):
    """Kinds, addresses and bodies of the entries. [Pack: linear_table]"""
    kinds = ''.join('1' if entry.child else '0' for entry in node.entries)
    addresses = ''.join(field(entry.address, node.dims) for entry in node.entries)
    return kinds + addresses + bodies([entry.body for entry in node.entries], node.level)


def cube_table(node):
    """Kinds and bodies at all addresses, which are zeros where no entry is. [Pack: cube_table]"""
    kinds, points = ['00'] * 2**node.dims, [(0,) * node.dims] * 2**node.dims
    for entry in node.entries:
        kinds[entry.address] = '10' if entry.child else '01'
        points[entry.address] = entry.body
    return ''.join(kinds) + bodies(points, node.level)


def record(node, in_cube):
    """The record of a node in a layout, as bytes: a first word, the tables filled up to whole words, and a word for each value.
    [Pack: record_in, first_word, values; Digits: words_of, bytes_of]"""
    first = field(node.level, 8) + field(in_cube, 8) + field(len(node.entries), 24) + field(len(node.children()), 24)
    tables = cube_table(node) if in_cube else linear_table(node)
    padding = '0' * (-len(tables) % 64)
    digits = first + tables + padding + ''.join(field(entry.value, 64) for entry in node.entries if not entry.child)
    return int(digits, 2).to_bytes(len(digits) // 8, 'big')


def records(root):
    """The records of all nodes of a tree, each in its smaller layout. [Pack: pack; Snapshot: records]"""
    return b''.join(record(node, node.is_cube()) for node in nodes(root))


def sizes(table, width):
    """The words of the reply to `stats`. [Stats: stats; Reply: stats_words]"""
    root = shape(table, width)
    layouts = [node.is_cube() for node in nodes(root)]
    words = len(records(root)) // 8
    return f'rows {len(table)} nodes {len(layouts)} linear {layouts.count(False)} cube {layouts.count(True)} words {words}'
