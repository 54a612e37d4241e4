"""Snapshots: the bytes of a table, and the table of bytes or their first fault [Load: Fault; SavedTable: fault_reply].

Square brackets have the names of definitions in `ph_specs`: those of `Snapshot`, `SavedTable`, `Load`, `Record` and `Digits`.
"""
from collections import namedtuple

from lines import refuse_if
from shape import cube_digits, field, is_cube, linear_digits, records, shape
from table import is_box, least

KINDS = ['points', 'boxes']
Header = namedtuple('Header', 'kind dims width has_root')
# What the first word of a record says. [Record: First]
First = namedtuple('First', 'level layout count children')


def write_snapshot(kind, dims, width, table):
    """The snapshot of a table, of version 2. [Snapshot: snap, magic, kind_byte, root_byte]"""
    return b'PHT2' + bytes([KINDS.index(kind), dims, width, bool(table)]) + records(shape(table, width))


def right_bytes(version, kind):
    """What the bytes 4 to 7 of a header may be. [Load: header_tests, header_tests_1, dims_fit, is_width, is_flag]"""
    dims = range(1 + kind, (8 if version == 1 else 16) + 1, 1 + kind)
    return [range(2), dims, range(2), range(1)] if version == 1 else [range(2), dims, range(1, 63), range(2)]


def read_header(data):
    """The header of a snapshot of either version. [Load: has_magic, first_failed, named_width; SavedTable: root_flag]"""
    version = {b'PHT1': 1, b'PHT2': 2}.get(data[:4])
    refuse_if(version is None, 'bad magic')
    kind = int(data[4:5] == b'\x01')
    for at, right in enumerate(right_bytes(version, kind), 4):
        refuse_if(at >= len(data) or data[at] not in right, f'bad header {at}')
    width, has_root = (32, data[6]) if version == 1 else (data[6], data[7])
    return Header(KINDS[kind], data[5], width, has_root)


def read_snapshot(data, wanted=None):
    """The header and the table of a snapshot. It has to be of the wanted kind, dimensions and width, if they are given.
    [SavedTable: read_snapshot; Load: load_fault, body_fault]"""
    header = read_header(data)
    refuse_if(wanted not in (None, header[:3]), 'bad dims')
    reader = Reader(data, header)
    end = reader.read_node(8, (0,) * header.dims, None) if header.has_root else 8
    refuse_if(end < len(data), f'bad extra {end}')
    return header, reader.table


class Digits:
    """The binary digits of some bytes, which are taken field by field. [Digits: read_fields]"""

    def __init__(self, data):
        self.digits, self.at = field(int.from_bytes(data, 'big'), 8 * len(data)), 0

    def take(self, size):
        self.at += size
        return int(self.digits[self.at - size:self.at] or '0', 2)

    def take_all(self, size, count):
        return [self.take(size) for _ in range(count)]


class Reader:
    """Reads the records of a snapshot one behind the other, and gathers their rows."""

    def __init__(self, data, header):
        self.data, self.header, self.table = data, header, {}

    def read_node(self, at, known, parent):
        """Reads the record at an offset and those of all nodes below it, and returns where they end. What is known of the node's points
        stands in offsets with zeros below, and `parent` is the level of the parent or None. [Load: record_fault, records_fault]"""
        first_end = at + 8
        refuse_if(len(self.data) < first_end, f'bad short {at}')
        digits = Digits(self.data[at:first_end])
        first = First(*map(digits.take, (8, 8, 24, 24)))
        refuse_if(not self.first_fits(first, known, parent), f'bad node {at}')
        dims = self.header.dims
        size = cube_digits(dims, first.level) if first.layout else linear_digits(dims, first.level, first.count)
        tables_end = first_end + -(-size // 64) * 8
        end = tables_end + 8 * (first.count - first.children)
        refuse_if(len(self.data) < end, f'bad short {at}')
        entries = self.read_entries(first, Digits(self.data[first_end:tables_end]))
        is_right = entries and self.take_rows(first.level, known, entries, Digits(self.data[tables_end:end]))
        refuse_if(not is_right, f'bad node {at}')
        for is_child, place, body in entries:
            if is_child:
                end = self.read_node(end, self.put_together(known, first.level, place, body), first.level)
        return end

    def first_fits(self, first, known, parent):
        """The rules 1 to 5, on the first word. [Load: first_fits, level_fits, least_entries, has_zeros_from]"""
        level_fits = first.level == self.header.width - 1 if parent is None else first.level < parent
        count_fits = (1 if parent is None else 2) <= first.count <= 2**self.header.dims
        children_fit = first.children <= (first.count if first.level else 0)
        return (level_fits and count_fits and children_fit
                and first.layout == is_cube(self.header.dims, first.level, first.count)
                and all(offset % 2**(first.level + 1) == 0 for offset in known))

    def read_entries(self, first, digits):
        """The entries of the tables, each whether it is a child, its address and its body, or None where a rule from 6 to 8 is broken.
        [Record: read_linear, read_cube, padding, absent_are_zero, rises_from]"""
        dims = self.header.dims
        if first.layout:
            kinds, places = digits.take_all(2, 2**dims), list(range(2**dims))
        else:
            kinds, places = [kind + 1 for kind in digits.take_all(1, first.count)], digits.take_all(dims, first.count)
        bodies = [tuple(digits.take_all(first.level, dims)) for _ in places]
        entries = [(kind == 2, place, body) for kind, place, body in zip(kinds, places, bodies) if kind]
        is_right = (len(entries) == first.count and kinds.count(2) == first.children and 3 not in kinds
                    and all(place < following for place, following in zip(places, places[1:]))
                    and all(kind or not any(body) for kind, body in zip(kinds, bodies))
                    and '1' not in digits.digits[digits.at:])
        return entries if is_right else None

    def take_rows(self, level, known, entries, values):
        """Takes the rows of a record, and tells whether they obey rule 9. [Record: unpacked; Load: boxes_fit, box_fits]"""
        wholes = [self.put_together(known, level, place, body) for is_child, place, body in entries if not is_child]
        points = [tuple(offset + least(self.header.width) for offset in whole) for whole in wholes]
        self.table.update((point, values.take(64)) for point in points)
        return self.header.kind == 'points' or all(map(is_box, points))

    def put_together(self, known, level, place, body):
        """What is known of a point behind an entry: the digits above, the address and the body. [TreeRows: put_together]"""
        marks = [place >> at & 1 for at in reversed(range(self.header.dims))]
        return tuple(offset + mark * 2**level + digits for offset, mark, digits in zip(known, marks, body))
