"""Draws what is nearly right: lines, words, snapshots and CSV files, each from a generator of random numbers or a writer."""
import shape
import snapshot
from table import least
from writer import FILES, as_box, greatest

ODD_WORDS = [b'', b'-', b'+', b'#', b'put', b'points', b'boxes', b'bits', b'max', b'header', b'a', b'b', b'c', b'A', b'1.5', b'0x1', b'--1',
             b'+-1', b'1e3', b'-0', b'+0', b'007', b'-1', b'4294967295', b'4294967296', b'65536', b'65537', b'18446744073709551615',
             b'18446744073709551616', b'340282366920938463463374607431768211455', b'340282366920938463463374607431768211456',
             b'9' * 50, b'-' + b'9' * 60, b'0' * 300 + b'1', b'\xc3\xa9', b'\xff', b'\x00', b'x' * 32, b'x' * 33, b'y' * 250, b'y' * 251,
             b'y' * 255, b'y' * 256, b'a.b', b'a_b-C9', b'\xd9\xa1', b'1_000', b'\r', b'1\r', b'\x0b', b'\x0c']
ODD_BYTES = [bytes([code]) for code in range(256) if code not in b'/.\n']


def mangled(rng, line):
    """A line that is nearly the one given."""
    words = line.split(b' ')
    at = rng.randrange(len(words))
    kind = rng.randrange(14)
    if kind == 0:
        del words[at]
    elif kind == 1:
        words.insert(at, words[at])
    elif kind in (2, 3, 4):
        words[at] = rng.choice(ODD_WORDS)
    elif kind == 5:
        words.insert(at, rng.choice(ODD_WORDS))
    elif kind == 6:
        words[at] = rng.choice((b'+', b'-', b'0', b'000', b'+00', b'-0', b'1', b'#')) + words[at]
    elif kind == 7:
        words[at] = words[at] + rng.choice((b'0', b'00000000000000000000', b'.', b'\r', b'#', b'-'))
    elif kind == 8:
        words[at] = words[at].upper() if rng.random() < 0.5 else words[at][:-1]
    elif kind == 9:
        cut = rng.randrange(len(line) + 1)
        return line[:cut] + rng.choice(ODD_BYTES) + line[cut:]
    elif kind == 10:
        return rng.choice((b'', b' ', b'\t ', b'   ')) + rng.choice((b' ', b'\t', b'  ', b' \t ')).join(words) + rng.choice(
            (b'', b' ', b'\t', b'\r', b' \r', b'\r\r', b' # x'))
    elif kind == 11:
        return stretched(rng, line)
    elif kind == 12:
        return rng.choice((b'', b' ', b'\t', b'\r', b'# ' + line, b'  #' + line, b'#', b'\r\r', b'\xef\xbb\xbf' + line))
    else:
        other = rng.randrange(len(words))
        words[at], words[other] = words[other], words[at]
    return b' '.join(words)


def stretched(rng, line):
    """A line of 4,095 to 4,098 bytes that begins like another."""
    size = rng.choice((4095, 4096, 4096, 4097, 4097, 4098)) - len(line)
    kind = rng.randrange(5)
    if kind == 0:
        return line + b' ' * size
    if kind == 1:
        return b'#' * size + line
    if kind == 2:
        first, _, last = line.rpartition(b' ')
        return first + b' ' + b'0' * size + last if first and last[:1].isdigit() else line + b'x' * size
    if kind == 3:
        return line + b' ' * (size - 1) + b'\r'
    return b' ' * size + line


def word_at(writer, place):
    """A word for a place of a form, which is right or wrong there."""
    rng = writer.rng
    low, high = least(writer.slot[2]), greatest(writer.slot[2])
    right = {'C': [writer.coordinate(), writer.coordinate(), writer.coordinate(), writer.coordinate()], 'V': [0, 7, 2**32], 'K': [1, 2], 'W': [8, 32],
             'N': [0, 1, 2], 'E': [0, 2], 'R': [0, 9], 'KIND': ['points', 'boxes'], 'SLOT': ['a', 'b'], 'NAME': ['c', 'd'], 'FILE': FILES}
    wrong = {'C': ['x', low - 1, high + 1], 'V': [-1, 2**64, 'x'], 'K': [0, 9, 17, 2**32, 'x'], 'W': [0, 63, 2**32, 'x'], 'N': [-1, 2**32, 'x'],
             'E': [65537, 'x'], 'R': [-1, 2**128, 'x'], 'KIND': ['lines'], 'SLOT': ['c'], 'NAME': ['a.b', 'x' * 33], 'FILE': ['\x7f', 'y' * 256]}
    share = 0.3 / writer.slot[1] if place == 'C' else 0.2
    if place not in wrong:
        return place if writer.chance(0.8) else rng.choice(('bits', 'max', 'header', 'x'))
    return rng.choice(wrong[place] if writer.chance(share) else right[place])


def random_table(writer):
    """Some rows, or in few dimensions so many that some nodes are full."""
    kind, dims, width = writer.slot
    if dims > 4 or writer.chance(0.6):
        return {writer.point(): writer.value() for _ in range(writer.rng.randrange(14))}
    marks = [1 << writer.rng.randrange(width) for _ in range(2)]
    points = [tuple(least(width) + writer.rng.choice((0, *marks, sum(set(marks)))) for _ in range(dims)) for _ in range(2**dims * 3)]
    return {as_box(point) if kind == 'boxes' else point: writer.value() for point in points}


def in_other_layout(root, other):
    """The records of a tree, with that of one node in the layout that is not the smaller one."""
    return b''.join(shape.record(node, node.is_cube() != (number == other)) for number, node in enumerate(shape.nodes(root)))


def bend(rng, root):
    """Breaks a rule of trees at one node."""
    node = rng.choice(shape.nodes(root))
    entry, other = rng.choice(node.entries), rng.choice(node.entries)
    kind = rng.randrange(7)
    if kind == 0 and node.entries[0].child:
        # What is known of the child goes with any level.
        entry = node.entries[0]
        entry.address, entry.body = 0, (0,) * node.dims
    if kind < 2 and entry.child:
        # The level is that of the parent, or another one.
        entry.child.level = node.level if kind == 0 else rng.randrange(node.level + 2)
        for below in entry.child.entries:
            below.body = tuple(digits % 2**entry.child.level for digits in below.body)
    elif kind == 2 or (kind == 3 and not node.level):
        node.entries.remove(entry)
    elif kind == 3:
        # A digit of what is known or of a point is another one.
        at = rng.randrange(node.dims)
        place = rng.choice((entry.child.level, rng.randrange(entry.child.level + 1))) if entry.child else rng.randrange(node.level)
        entry.body = entry.body[:at] + (entry.body[at] ^ 1 << place,) + entry.body[at + 1:]
    elif kind == 4:
        entry.address, other.address = other.address, entry.address
    elif kind == 5:
        entry.address = rng.choice((other.address, rng.randrange(2**node.dims)))
    else:
        entry.child = shape.Node(max(node.level - 1, 0), node.dims, [shape.Entry(at, (0,) * node.dims, value=1) for at in range(2)])


def record_altered(rng, root):
    """The records of a tree, where a digit of one is another one in its first two words or in its last that is no value."""
    found = [bytearray(shape.record(node, node.is_cube())) for node in shape.nodes(root)]
    number = rng.randrange(len(found))
    node = shape.nodes(root)[number]
    values = len(node.entries) - len(node.children())
    at = rng.choice((rng.randrange(16), rng.choice((0, 1, 4, 7)), rng.randrange(8, 16), len(found[number]) - 8 * values - rng.randrange(1, 9)))
    found[number][at] ^= 1 << rng.randrange(8)
    return b''.join(found)


def altered(rng, data):
    """A snapshot with one thing changed."""
    kind = rng.randrange(14)
    at = rng.randrange(len(data))
    word = rng.randrange(len(data) // 8) * 8
    other = rng.randrange(len(data) // 8) * 8
    if kind in (0, 1, 2):
        return data[:at] + bytes([data[at] ^ 1 << rng.randrange(8)]) + data[at + 1:]
    if kind == 3:
        return data[:at]
    if kind == 4:
        return data[:word]
    if kind == 5:
        return data + rng.choice((b'\x00', bytes(8), data[word:word + 8], data[8:]))
    if kind == 6:
        return data[:word] + data[word + 8:]
    if kind == 7:
        return data[:word] + rng.choice((bytes(8), b'\xff' * 8, data[other:other + 8])) + data[word + 8:]
    if kind == 8:
        at = rng.randrange(min(len(data), 24))
        return data[:at] + bytes([(data[at] + rng.choice((-1, 1))) % 256]) + data[at + 1:]
    if kind == 9:
        at = rng.randrange(8)
        return data[:at] + bytes([rng.choice((0, 1, 2, 8, 16, 17, 31, 32, 62, 63, 255))]) + data[at + 1:]
    if kind in (10, 11):
        # The last digits of a word, which are those that fill up the tables.
        return data[:word + 7] + bytes([data[word + 7] ^ 1 << rng.randrange(3)]) + data[word + 8:]
    if kind == 12:
        # Nothing is there behind a first word, which may be wrong.
        at = rng.randrange(8, 16)
        return data[:16] if at >= len(data) else data[:at] + bytes([data[at] ^ 1 << rng.randrange(8)]) + data[at + 1:16]
    return data[:word] + data[other:other + 8] + data[word:]


def as_first_version(data):
    """A snapshot of version 2 with the header that its table has in version 1, if its width is 32."""
    return b'PHT1' + data[4:6] + data[7:8] + b'\x00' + data[8:]


def drawn_header(rng):
    """A header of an empty table, most often with one byte that is just outside of what it may be."""
    version, kind = rng.choice((1, 2)), rng.randrange(2)
    most = 8 if version == 1 else 16
    found = [kind, rng.randrange(1 + kind, most + 1, 1 + kind), 0 if version == 1 else rng.choice((1, 8, 32, 62)), 0]
    at, other = rng.choice(((0, 2), (1, 0), (1, 3), (1, most + 1), (1, most + 2), (2, 0), (2, 1), (2, 2), (2, 63), (3, 1), (3, 2), (4, 0), (4, 0)))
    data = f'PHT{version}'.encode() + bytes(found[:at] + [other] + found[at + 1:])[:4]
    if rng.random() < 0.1:
        data = data[:rng.randrange(8)] if rng.random() < 0.5 else rng.choice((b'PHT3', b'pht2', b'PHT\x00')) + data[4:]
    return data + rng.choice((b'', b'', b'', b'', b'\x00', bytes(8), bytes(32)))


def drawn_snapshot(writer):
    """The bytes of a random table of the slot, most often with something changed."""
    rng = writer.rng
    kind, dims, width = writer.slot
    if writer.chance(0.3):
        return drawn_header(rng)
    table = random_table(writer)
    data = snapshot.write_snapshot(kind, dims, width, table)
    if kind == 'boxes' and writer.chance(0.1):
        # Points that are no boxes, said to be such.
        points = {tuple(writer.coordinate() for _ in range(dims)): 1 for _ in range(rng.randrange(1, 5))}
        data = snapshot.write_snapshot(kind, dims, width, points)
    root = shape.shape(table, width)
    how = rng.randrange(8)
    if root and how == 0 and dims < 8:
        data = data[:8] + in_other_layout(root, rng.randrange(len(shape.nodes(root))))
    elif root and how < 3:
        data = data[:8] + record_altered(rng, root)
    elif root and how < 5:
        bend(rng, root)
        data = data[:8] + shape.records(root)
    if width == 32 and writer.chance(0.4):
        data = as_first_version(data)
    for _ in range(rng.choice((0, 1, 1, 1, 2)) if how > 4 else 0):
        if len(data) >= 8:
            data = altered(rng, data)
    return data


ODD_FIELDS = ['', ' 1', '1 ', 'x', '"1"2', '"1', '"', '""', '"1,2"', '1"', '"1""2"', '9' * 30, '-', '"\n"', '1\t', '\xe9', '+5', '0' * 5000 + '1',
              '1,2']


def csv_field(rng, text):
    """A field with the same number in another spelling."""
    kind = rng.randrange(5)
    if kind < 3:
        return f'"{text}"'
    return text if text.startswith('-') or kind == 3 else rng.choice(('+', '00', '0')) + text


def drawn_csv(writer):
    """A CSV file for the slot, often with something wrong in one record."""
    rng = writer.rng
    end = rng.choice(('\n', '\n', '\n', '\r\n', '\r', '\n\n', '\r\n\r'))
    quoted = rng.choice((0, 0, 0.2))
    found = [[str(number) for number in (*writer.point(), writer.value())] for _ in range(rng.choice((0, 1, 2, 5, 12, 25)))]
    found = [[csv_field(rng, text) if writer.chance(quoted) else text for text in fields] for fields in found]
    for fields in rng.sample(found, min(len(found), rng.choice((0, 0, 1, 1, 2)))):
        ends = [least(writer.slot[2]) - 1, greatest(writer.slot[2]) + 1, -1, 2**64 - 1, 2**64]
        at = rng.randrange(len(fields))
        kind = rng.randrange(5)
        half = len(fields) // 2
        if kind == 0:
            fields[at] = rng.choice(ODD_FIELDS)
        elif kind == 1:
            fields[at] = str(rng.choice(ends))
        elif kind < 4:
            # The corners of a box the other way round.
            fields[:2 * half] = fields[half:2 * half] + fields[:half]
        else:
            fields[:] = rng.choice((fields[1:], fields + ['1'], fields + ['']))
    if writer.chance(0.2):
        found.insert(0, rng.choice((['x', 'y', 'value'], ['"x\n"'])))
    text = end.join(map(','.join, found)) + (end if writer.chance(0.8) else '')
    return (b'\xef\xbb\xbf' if writer.chance(0.1) else b'') + (b'\n' if writer.chance(0.05) else b'') + text.encode('latin-1')
