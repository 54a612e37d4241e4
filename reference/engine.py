"""Two slots, and what a line does to them: each command with its refusals in their order.

Square brackets have the names of definitions in `ph_specs`: those of `State`, `Past`, `Window`, `Refusals`, `Engine` and `Reply`.
"""
from dataclasses import dataclass, field

from lines import Refused, read_line, refuse_if
from csv_file import csv_rows, csv_text
from shape import sizes
from snapshot import read_snapshot, write_snapshot
from table import QUESTIONS, SET_OPERATIONS, is_box, is_point, near, overlaps, rest, rows_of, window, within

CURSORS = 16
MOST_DIMS = {'points': 16, 'boxes': 8}
MOST_WIDTH = 62
# The commands that ask for one kind of slot, and those whose points have to be boxes in a slot of boxes. [Refusals: boxes_of]
OF_POINTS, OF_BOXES = {'near', 'within'}, {'overlap', 'inside', 'covers'}
ABOUT_BOXES = {'put', 'get', 'del', 'move'} | OF_BOXES


@dataclass
class Slot:
    """A table with all that is kept beside it. A cursor has the corners of its window and the last point that was listed, and the past is
    the tables from before the last edits. [State: Slot, new_slot; Window: Cursor; Past: Past]"""
    kind: str = 'points'
    dims: int = 2
    width: int = 32
    most: int = 2**64 - 1
    table: dict = field(default_factory=dict)
    cursors: dict = field(default_factory=dict)
    kept: int = 0
    past: list = field(default_factory=list)

    def rows(self):
        return rows_of(self.table, self.width)

    def edit(self, table):
        """Takes another table and keeps the one from before. [Past: after_edit]"""
        self.past = (self.past + [self.table])[-self.kept:] if self.kept else []
        self.table = table

    def take(self, table):
        """Takes a table that no edit led to. [State: with_new_table; Past: without_past]"""
        self.table, self.past = table, []


class Engine:
    """Two slots, of which one is the current, and a folder of files. [State: Engine, new_engine, current]"""

    def __init__(self, folder):
        self.folder, self.slots, self.name = folder, {'a': Slot(), 'b': Slot()}, 'a'

    def current(self):
        return self.slots[self.name]

    def step(self, line):
        """The lines of the reply to a line, and whether it was refused. [Engine: step, act]"""
        try:
            command = read_line(line, self.current().dims)
            return (self.effect(command) if command else []), False
        except Refused as refusal:
            return [str(refusal)], True

    def effect(self, command):
        """Does a command and returns the lines of its reply. [Engine: effect]"""
        refuse_points(self.current(), command)
        done_by, seen = (ON_SLOT, self.current()) if command.name in ON_SLOT else (ON_ENGINE, self)
        answer = done_by[command.name](seen, command)
        return [answer] if isinstance(answer, str) else answer


def refuse_points(slot, command):
    """The causes that stand in the points of a command. [Refusals: has_wrong_kind, is_out_of_range, is_reversed]"""
    is_boxes = slot.kind == 'boxes'
    refuse_if(command.name in (OF_POINTS if is_boxes else OF_BOXES), 'error kind')
    refuse_if(not all(is_point(point, slot.width) for point in command.points), 'error range')
    refuse_if(is_boxes and command.name in ABOUT_BOXES and not all(map(is_box, command.points)), 'error reversed')


def refuse_slots(engine, kinds_fit):
    """The causes that stand in two slots which do not go together. [Refusals: slots_refusal, points_differ, same_kind]"""
    first, second = engine.slots.values()
    refuse_if((first.dims, first.width) != (second.dims, second.width), 'error dims')
    refuse_if(not kinds_fit(first.kind, second.kind), 'error kind')


def spelled(*parts):
    """Parts as the words of a line. Those of a point or a row are spelled one by one. [Reply: reply_words, row_words]"""
    return ' '.join(spelled(*part) if isinstance(part, tuple) else str(part) for part in parts)


def listing(name, found, end='end'):
    """A line for each of what was found, and one that tells how many. [Engine: listing, hit_listing, pair_listing, page_end]"""
    return [spelled(name, one) for one in found] + [f'{end} {len(found)}']


def put(slot, command):  # [Engine: put_reply; Table: put; Refusals: is_full]
    [point] = command.points
    old = slot.table.get(point)
    refuse_if(old is None and len(slot.table) >= slot.most, 'error full')
    slot.edit({**slot.table, point: command.values['V']})
    return 'new' if old is None else f'old {old}'


def get(slot, command):  # [Engine: get_reply; Table: find]
    value = slot.table.get(command.points[0])
    return 'none' if value is None else f'value {value}'


def delete(slot, command):  # [Engine: del_reply; Table: del; Past: del_kept]
    table = dict(slot.table)
    value = table.pop(command.points[0], None)
    if value is None:
        return 'none'
    slot.edit(table)
    return f'gone {value}'


def move(slot, command):  # [Engine: move_reply; Table: move; Past: move_kept]
    point, goal = command.points
    if point not in slot.table:
        return 'none'
    if point != goal:
        if goal in slot.table:
            return 'taken'
        table = {**slot.table, goal: slot.table[point]}
        del table[point]
        slot.edit(table)
    return 'moved'


def clear(slot, _command):  # [Engine: effect]
    slot.take({})
    return 'cleared'


def make_cursor(slot, command):  # [Refusals: has_too_many_cursors; State: with_cursor]
    refuse_if(command.values['NAME'] not in slot.cursors and len(slot.cursors) >= CURSORS, 'error cursors')
    slot.cursors[command.values['NAME']] = (*command.points, None)
    return 'ready'


def page(slot, command):  # [Engine: page_outcome; Window: page, has_more, last_listed, next_cursor; Refusals: lacks_cursor]
    refuse_if(command.values['NAME'] not in slot.cursors, 'error cursor')
    low, high, last = slot.cursors[command.values['NAME']]
    left = rest(window(slot.rows(), low, high), last, slot.width)
    listed = left[:command.values['N']]
    if listed:
        slot.cursors[command.values['NAME']] = (low, high, listed[-1][0])
    return listing('row', listed, 'more' if len(left) > len(listed) else 'end')


def question(slot, command):  # [Engine: effect; Boxes: overlapping, inside, covering]
    [asked] = command.points
    return listing('row', [row for row in slot.rows() if QUESTIONS[command.name](row[0], asked)])


def keep(slot, command):  # [Past: keep]
    slot.kept, slot.past = command.values['E'], []
    return f'keeping {slot.kept}'


def back(slot, command):  # [Past: back; Refusals: is_too_far_back]
    left = len(slot.past) - command.values['N']
    refuse_if(left < 0, 'error past')
    slot.past, slot.table = slot.past[:left], (slot.past + [slot.table])[left]
    return f'back {command.values["N"]}'


def open_slot(engine, command):  # [State: empty_slot; Engine: opened_dims; Refusals: has_wrong_dims, most_dims]
    kind, dims, width = command.values['KIND'], command.values['K'], command.values.get('W', 32)
    refuse_if(not (1 <= dims <= MOST_DIMS[kind] and 1 <= width <= MOST_WIDTH), 'error dims')
    most = command.values.get('V', 2**64 - 1)
    engine.slots[engine.name] = Slot(kind, dims * (2 if kind == 'boxes' else 1), width, most)
    return 'opened'


def save(engine, command):  # [Engine: effect; Snapshot: snap]
    slot = engine.current()
    data = write_snapshot(slot.kind, slot.dims, slot.width, slot.table)
    engine.folder.write(command.values['FILE'], data)
    return f'saved {len(data)}'


def load(engine, command):  # [Engine: load_outcome; Refusals: table_read]
    slot = engine.current()
    _, table = read_snapshot(engine.folder.read(command.values['FILE']), (slot.kind, slot.dims, slot.width))
    refuse_if(len(table) > slot.most, 'error full')
    slot.take(table)
    return f'loaded {len(table)}'


def import_rows(engine, command):  # [Engine: import_outcome; Refusals: import_rows, put_all_read; Sets: put_all]
    slot = engine.current()
    rows = csv_rows(engine.folder.read(command.values['FILE']), 'header' in command.values, slot)
    table = {**slot.table, **dict(rows)}
    refuse_if(len(table) > slot.most, 'error full')
    slot.take(table)
    return f'imported {len(rows)}'


def export(engine, command):  # [Engine: effect; Csv: csv_text]
    rows = engine.current().rows()
    engine.folder.write(command.values['FILE'], csv_text(rows))
    return f'exported {len(rows)}'


def use(engine, command):  # [Engine: effect]
    engine.name = command.values['SLOT']
    return f'using {engine.name}'


def same(engine, _command):  # [Engine: same_slots]
    first, second = ((slot.kind, slot.dims, slot.width, slot.table) for slot in engine.slots.values())
    return 'same' if first == second else 'differ'


def join(engine, _command):  # [Engine: pair_listing; Sets: pairs; Refusals: join_refusal]
    refuse_slots(engine, lambda first, second: first == second == 'boxes')
    first, second = engine.slots.values()
    return listing('pair', [(row, other) for row in first.rows() for other in second.rows() if overlaps(row[0], other[0])])


def combine(engine, command):  # [Engine: combine_outcome; Sets: combine; Refusals: combine_refusal, has_too_many]
    refuse_slots(engine, lambda first, second: first == second)
    slot, other = engine.current(), engine.slots['b' if engine.name == 'a' else 'a']
    table = SET_OPERATIONS[command.name](slot.table, other.table)
    refuse_if(command.name == 'union' and len(table) > slot.most, 'error full')
    slot.take(table)
    return f'result {len(table)}'


ON_SLOT = {
    'put': put, 'get': get, 'del': delete, 'move': move, 'clear': clear, 'cursor': make_cursor, 'page': page,
    'overlap': question, 'inside': question, 'covers': question, 'keep': keep, 'back': back,
    'count': lambda slot, _command: f'count {len(slot.table)}',
    'window': lambda slot, command: listing('row', window(slot.rows(), *command.points)),
    'near': lambda slot, command: listing('hit', near(slot.rows(), *command.points, command.values['N'])),
    'within': lambda slot, command: listing('hit', within(slot.rows(), *command.points, command.values['R'])),
    'stats': lambda slot, _command: sizes(slot.table, slot.width),
}
ON_ENGINE = {
    'open': open_slot, 'save': save, 'load': load, 'import': import_rows, 'export': export, 'use': use, 'same': same, 'join': join,
    'union': combine, 'common': combine, 'minus': combine,
}
