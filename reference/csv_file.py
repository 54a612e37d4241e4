"""Comma-separated text: its records, the rows of them, and the text of rows.

Square brackets have the names of definitions in `ph_specs`: those of `Csv`.
"""
import re

from lines import number, number_fits, refuse_if
from table import is_box, is_point

BYTE_ORDER_MARK = b'\xef\xbb\xbf'
# A part in quotation marks or none, of which the last may be missing at the end of the text, and what stands behind it as it is.
FIELD = re.compile(rb'(?:"((?:[^"]|"")*)"?)?([^,\r\n]*)')


def records(text):
    """The records of a text, each a list of fields. [Csv: records]"""
    at, fields = len(BYTE_ORDER_MARK) if text.startswith(BYTE_ORDER_MARK) else 0, []
    while at < len(text) or fields:
        if not fields and text[at] in b'\r\n':
            at += 1
            continue
        found = FIELD.match(text, at)
        quoted, plain = found.groups(b'')
        fields.append(quoted.replace(b'""', b'"') + plain)
        at = found.end() + 1
        if text[found.end():at] != b',':
            yield fields
            fields = []


def csv_rows(text, has_header, slot):
    """The rows of all records, in their order, or the first faulty record. [Csv: csv_rows, read_records]"""
    found = list(enumerate(records(text), 1))
    return [read_record(place, fields, slot) for place, fields in found[1 if has_header else 0:]]


def read_record(place, fields, slot):
    """The row of a record. [Csv: read_record, record_row, are_numbers, is_boxes]"""
    refuse_if(len(fields) != slot.dims + 1, f'bad record {place} fields')
    *point, value = map(number, fields)
    refuse_if(None in point or not number_fits('V', value), f'bad record {place} number')
    refuse_if(not is_point(point, slot.width), f'bad record {place} range')
    refuse_if(slot.kind == 'boxes' and not is_box(point), f'bad record {place} reversed')
    return tuple(point), value


def csv_text(rows):
    """The text of rows: a line for each, with its coordinates and its value. [Csv: csv_text, csv_line]"""
    return ''.join(','.join(map(str, (*point, value))) + '\n' for point, value in rows).encode()
