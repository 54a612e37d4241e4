"""Draws random scripts, each from a seed, its number and a mode, which is a part of the language. They are for the comparison, and no
part of the meaning."""
import random
import re

import shape
from faults import drawn_csv, drawn_snapshot, mangled, word_at
from lines import FORMS, places
from table import least
from writer import Case, Writer, as_box, greatest


def plain(writer):
    if writer.chance(0.6):
        writer.open('points', most=writer.rng.choice((None, None, 0, 1, 3, 5)))
    for _ in range(writer.rng.randrange(5, 50)):
        writer.rng.choice((writer.edit, writer.edit, writer.ask))()
        if writer.chance(0.05):
            for line in writer.rng.choice((['clear'], ['save a.pht', 'load a.pht'], ['load a.pht'], ['export a.csv', 'clear', 'import a.csv'])):
                writer.add(line)
    return writer.case()


def nearly(writer):
    """Lines of all kinds, of which many are nearly right."""
    share = writer.rng.choice((0.1, 0.4, 0.8))
    if writer.chance(0.5):
        writer.open()
    for _ in range(writer.rng.randrange(5, 35)):
        before = writer.name, dict(writer.slots)
        writer.any()
        if writer.chance(share):
            # What is refused changes no slot, as a rule.
            writer.name, writer.slots = before
            writer.lines[-1] = mangled(writer.rng, writer.lines[-1])
    return writer.case()


def numbers(writer):
    """Numbers at the ends of their ranges, and a step beyond them."""
    writer.open(most=writer.rng.choice((None, 1, 2, 2**64 - 1)))
    ends = [0, 1, 16, 17, 8, 9, 62, 63, 65536, 65537, 2**32 - 1, 2**32, 2**64 - 1, 2**64, 2**128 - 1, 2**128]
    for _ in range(writer.rng.randrange(5, 30)):
        writer.any() if writer.chance(0.7) else writer.open()
        words = writer.lines[-1].split(b' ')
        places = [at for at, word in enumerate(words) if re.fullmatch(rb'-?[0-9]+', word)]
        if places and writer.chance(0.6):
            width = writer.slot[2]
            number = writer.rng.choice(ends + [least(width) - 1, least(width), greatest(width), greatest(width) + 1] * 3)
            sign = writer.rng.choice(('', '', '', '+', '-')) if number >= 0 else ''
            words[writer.rng.choice(places)] = (sign + writer.rng.choice(('', '', '0', '00')) * (number >= 0) + str(number)).encode()
            writer.lines[-1] = b' '.join(words)
            if words[0] == b'open':
                writer.open()
    return writer.case()


OPENINGS = [form for form in FORMS if form[0] == 'open']


def causes(writer):
    """Lines with several causes of a refusal, in slots of all kinds."""
    rng = writer.rng
    for _ in range(rng.randrange(5, 40)):
        if writer.chance(0.15):
            writer.open(dims=rng.choice((1, 1, 2, 3)), most=rng.choice((None, 0, 1, 2)))
        elif writer.chance(0.1):
            writer.use()
        else:
            form = rng.choice(FORMS + OPENINGS)
            if form[0] != 'use':
                words = [word_at(writer, place) for place in places(form, writer.slot[1] + rng.choice((0,) * 12 + (-1, 1)))]
                writer.add(form[0], *words)
                if form[0] == 'open':
                    # Whether this was refused or not, the next line opens the slot.
                    writer.open()
    return writer.case()


def pages(writer):
    if writer.chance(0.7):
        writer.open(writer.rng.choice(('points', 'points', 'points', 'boxes')), writer.rng.choice((1, 2, 2, 3)))
    names = ['c', 'd', 'e'] if writer.chance(0.9) else [f'n{number}' for number in range(19)]
    for _ in range(writer.rng.randrange(3, 15)):
        writer.put()
    for name in names if len(names) > 3 else []:
        writer.make_cursor([name])
    for _ in range(writer.rng.randrange(10, 45)):
        kind = writer.rng.randrange(10)
        if kind < 4:
            writer.edit()
        elif kind < 6:
            writer.make_cursor(names)
        elif kind < 9:
            writer.page(names)
        else:
            writer.rng.choice((lambda: writer.add('clear'), writer.use, lambda: writer.add('minus'), lambda: writer.add('union')))()
    return writer.case()


def balls(writer):
    writer.open('points')
    writer.style = writer.rng.choice(('small', writer.style))
    for _ in range(writer.rng.randrange(10, 45)):
        if writer.chance(0.55):
            writer.edit()
        else:
            writer.ball(writer.rng.choice(('near', 'near', 'within')))
    return writer.case()


def boxes(writer):
    writer.open('boxes', most=writer.rng.choice((None, None, None, 4)))
    for _ in range(writer.rng.randrange(10, 45)):
        writer.rng.choice((writer.edit, writer.edit, writer.question, writer.question, lambda: writer.add('window', *writer.corners())))()
        if writer.chance(0.05):
            # Some numbers that are no box.
            words = writer.lines[-1].split(b' ')
            writer.lines[-1] = b' '.join(words[:1] + writer.rng.sample(words[1:], len(words) - 1))
    return writer.case()


def import_at(writer, name, points):
    """Imports rows at these points from a file of this name."""
    writer.files[name] = ''.join(','.join(map(str, (*point, writer.rng.randrange(9)))) + '\n' for point in points).encode()
    writer.add('import', name)


def two_slots(writer, kind):
    """Opens both slots, most often in the same way, and puts a few rows into each, or some hundreds of which they have many in common."""
    rng = writer.rng
    dims, width = rng.choice((1, 1, 2, 2, 3, 4, 8)), rng.choice((2, 3, 4, 8, 32, 32, 62))
    many = writer.chance(0.15)
    for name in 'ab':
        writer.use(name)
        if writer.chance(0.07):
            writer.open()
        else:
            writer.open(kind, dims, width, None if many else rng.choice((None, None, None, 3, 6, 9)))
        if many:
            import_at(writer, f'{name}.csv', [writer.point() for _ in range(rng.randrange(50, 300))])
        for _ in range(rng.randrange(0, 14)):
            writer.put()


def joins(writer):
    two_slots(writer, 'boxes')
    for _ in range(writer.rng.randrange(3, 15)):
        writer.rng.choice((writer.edit, writer.edit, writer.use, writer.question, lambda: writer.add('join')))()
    writer.add('join')
    return writer.case()


def sets(writer):
    two_slots(writer, writer.rng.choice(('points', 'points', 'boxes')))

    def combine():
        writer.add(writer.rng.choice(('union', 'common', 'minus')))
        writer.look()

    for _ in range(writer.rng.randrange(4, 20)):
        writer.rng.choice((writer.edit, writer.edit, writer.use, combine, combine, writer.look,
                           lambda: writer.add(writer.rng.choice(('same', 'save a.pht', 'stats', 'count', 'back 1', 'keep 3')))))()
    return writer.case()


def crowded(writer):
    """Fills and empties one node, so that it changes its layout, and looks at it after each edit."""
    rng = writer.rng
    dims, width = rng.choice((1, 2, 2, 3, 3, 3, 4, 4, 5, 6)), rng.choice((1, 2, 2, 3, 4, 7, 32, 62))
    kind = 'boxes' if dims % 2 == 0 and writer.chance(0.3) else 'points'
    writer.open(kind, dims // 2 if kind == 'boxes' else dims, width)
    level, base, deeper = rng.randrange(width), writer.new_point(), rng.choice((0, 0, 0.2))

    def crowd():
        offsets = [(number - least(width) & ~(1 << level)) | rng.getrandbits(1) << level for number in base]
        if rng.random() < deeper:
            offsets[rng.randrange(dims)] ^= 1 << rng.randrange(width)
        point = [offset + least(width) for offset in offsets]
        return as_box(point) if kind == 'boxes' else tuple(point)

    most, saved = min(2**dims + 4, 40), []
    for step in range(rng.randrange(most // 2, most + 8)):
        words = rng.choice((['put', *crowd(), writer.value()],) * 5 + (['del', *crowd()], ['move', *crowd(), *crowd()]))
        writer.add(*words)
        if step > most // 3 or writer.chance(0.3):
            writer.add('stats')
            if writer.chance(0.6):
                saved.append(f'{step}.pht')
                writer.add('save', saved[-1])
    for name in rng.sample(saved, min(len(saved), 2)):
        writer.add('load', name)
        writer.look()
    return writer.case(*((['check', name], b'') for name in saved[-1:]))


def crowds(writer):
    """A node of 7 to 16 dimensions near the number of entries at which its layout changes. Its rows are imported."""
    rng = writer.rng
    dims = rng.choice((7, 7, 7, 8, 8, 8, 9, 9, 10, 10, 11, 12) + ((13, 14, 15, 16) if writer.chance(0.3) else ()))
    width = rng.choice((1, 1, 2, 3)) if dims < 10 else 1
    level = 0 if writer.chance(0.8) else rng.randrange(width)
    turn = min(shape.cube_digits(dims, level) // (1 + dims + dims * level), 2**dims - 1)
    writer.open('points', dims, width)
    points = [tuple((number >> at & 1) * 2**level + least(width) for at in range(dims)) for number in rng.sample(range(2**dims), turn + 1)]
    count = turn + rng.choice((-2, -1, 0, 1))
    import_at(writer, 't.csv', points[:count])
    for step in range(rng.randrange(2, 6)):
        writer.add(*rng.choice((['put', *points[rng.randrange(turn + 1)], 5], ['put', *points[-1 - step % 2], 6], ['del', *points[step]],
                                ['move', *points[step], *points[-1]])))
        writer.add('stats')
        writer.add('save', f'{step}.pht')
    writer.add('load', '1.pht')
    return Case(writer.files, [(['run'], b''.join(line + b'\n' for line in writer.lines)), (['check', '0.pht'], b'')])


def snapshots(writer):
    rng = writer.rng
    writer.open(most=rng.choice((None, None, 4, 8)))
    for number in range(rng.randrange(2, 8)):
        writer.files[f'{number}.pht'] = drawn_snapshot(writer)
    names = sorted(writer.files)
    if writer.chance(0.3):
        writer.open(writer.slot[0], None, writer.slot[2], rng.choice((None, 3)))
    for _ in range(rng.randrange(2, 12)):
        kind = rng.randrange(8)
        if kind < 4:
            writer.add('load', rng.choice(names))
        elif kind < 5:
            writer.add('save', rng.choice(names))
        else:
            rng.choice((writer.put, writer.put, writer.edit, writer.look, writer.use, lambda: writer.add('same'), lambda: writer.add('back', 1)))()
    calls = [(['check', name], b'') for name in names]
    return writer.case(*calls)


def tables(writer):
    """Imports and exports of CSV files."""
    rng = writer.rng
    writer.open(most=rng.choice((None, None, None, 2, 6)))
    for number in range(rng.randrange(1, 4)):
        writer.files[f'{number}.csv'] = drawn_csv(writer)
    names = sorted(writer.files)
    for _ in range(rng.randrange(2, 14)):
        kind = rng.randrange(8)
        if kind < 3:
            writer.add('import', rng.choice(names), *['header'] * writer.chance(0.3))
        elif kind < 4:
            writer.add('export', rng.choice(names))
        else:
            rng.choice((writer.put, writer.edit, lambda: writer.add('clear'), writer.look, lambda: writer.add('back', 1),
                        lambda: writer.add('keep', 2)))()
    return writer.case()


def files(writer):
    """Names of files of all kinds: folders, links, those that are too long, and those of files half written."""
    rng = writer.rng
    writer.files = {'sub': None, 'link': 'a.pht', 'q.part': rng.choice((None, b'old', 'a.pht')), 'r.part': b'old', 'old': b'old'}
    names = ['a.pht', 'a.pht', './a.pht', 'sub/x', 'sub', 'sub/', 'link', 'lost/x', '.', 'q', 'q.part', 'r', 'r.part', 'a', 'old', 'a.pht/', 'new/',
             'y' * 250, 'y' * 251, 'y' * 255, 'y' * 256, 'sub/' + 'z' * 247, 'A-_~!"#$%', 'none']
    for _ in range(rng.randrange(6, 25)):
        if writer.chance(0.4):
            writer.edit()
        writer.add(rng.choice(('save', 'save', 'load', 'export', 'import')), rng.choice(names))
    return writer.case((['check', rng.choice(names)], b''))


def slots(writer):
    for _ in range(writer.rng.randrange(10, 60)):
        before = len(writer.lines)
        writer.any()
        if writer.chance(0.1) and len(writer.lines) == before + 1:
            writer.add('same')
        if writer.chance(0.1):
            kind, dims, width = writer.slot
            writer.use()
            writer.open(kind, dims // 2 if kind == 'boxes' else dims, width)
    return writer.case()


def undo(writer):
    rng = writer.rng
    if writer.chance(0.6):
        writer.open(most=rng.choice((None, None, 3, 5)))
    writer.add('keep', rng.choice((0, 1, 2, 3, 5, 10, 65536)))
    for _ in range(rng.randrange(8, 45)):
        kind = rng.randrange(20)
        if kind < 11:
            writer.edit()
        elif kind < 15:
            writer.add('back', rng.choice((0, 1, 1, 1, 2, 2, 3, 5)))
        elif kind < 16:
            writer.look()
        elif kind < 17:
            writer.add('keep', rng.choice((0, 1, 2, 3, 65536)))
        elif kind < 18:
            writer.rng.choice((writer.use, lambda: writer.make_cursor('c'), lambda: writer.page('c')))()
        else:
            writer.add(rng.choice(('save a.pht', 'save b.pht', 'load a.pht', 'export t.csv', 'import t.csv', 'clear', 'union', 'minus', 'common')))
    return writer.case()


WRONG_WORDS = [[], ['run', 'run'], ['run', ''], ['Run'], ['help'], ['-h'], [b'\xc3'], ['check'], ['check', 'none', 'none'], ['check', 'a b'],
               ['check', ''], ['check', 'y' * 256], ['check', '\xe9'], ['check', b'\xff'], ['check', '.'], ['soak', '5'], ['soak', '5', '1', '1']]


def calls(writer):
    """Calls with other words: checks, soaks, and those that get the usage line."""
    rng = writer.rng
    found = []
    for _ in range(rng.randrange(1, 4)):
        kind = rng.randrange(10)
        if kind < 5:
            found.append(['soak', str(rng.randrange(150)), str(rng.choice((0, 1, rng.randrange(1 << 31), rng.randrange(1 << 64), 2**64 - 1)))])
        elif kind < 7:
            writer.open()
            writer.files['x.pht'] = drawn_snapshot(writer)
            found.append(['check', 'x.pht'])
        else:
            number = ['0', '5', '+5', '-0', '-1', '007', '', ' 5', '5 ', 'x', str(2**32), str(2**64)]
            found.append(rng.choice([*WRONG_WORDS, ['soak', rng.choice(number), rng.choice(number)], ['soak', rng.choice(number), '1']]))
    return Case(writer.files, [(words, b'count\n') for words in found])


MODES = {mode.__name__: mode for mode in (
    plain, nearly, numbers, causes, pages, balls, boxes, joins, sets, crowded, snapshots, tables, slots, undo, files, calls, crowds)}
# Modes whose scripts take long come less often.
ROUND = [mode for mode in MODES if mode != 'crowds'] * 2 + ['nearly', 'causes', 'snapshots', 'crowds']


def draw(seed, number, mode=None):
    """The script of a number, which is the same on each machine."""
    rng = random.Random(f'{seed}/{number}')
    return MODES[mode or ROUND[number % len(ROUND)]](Writer(rng))
