"""Lines, words and numbers of a script, and what a line asks for.

Square brackets have the names of definitions in `ph_specs`, the file first: `Lines` and `Command` here.
"""
import re
import sys
from collections import namedtuple

LINE_BYTES = 4096
# Newer versions of Python refuse to read numbers of more than 4,300 digits. A field of a CSV file may have more.
if hasattr(sys, 'set_int_max_str_digits'):
    sys.set_int_max_str_digits(0)

# The forms of all commands. `C..` stands for as many coordinates as the slot has dimensions, E for the number behind `keep`, and each
# other word in capitals for one word; small words stand for themselves. [Command: forms]
FORMS = [form.split() for form in (
    'put C.. V', 'get C..', 'del C..', 'move C.. C..', 'count', 'clear', 'window C.. C..', 'cursor NAME C.. C..', 'page NAME N',
    'near C.. N', 'within C.. R', 'open KIND K', 'open KIND K bits W', 'open KIND K max V', 'open KIND K bits W max V',
    'overlap C..', 'inside C..', 'covers C..', 'save FILE', 'load FILE', 'import FILE', 'import FILE header', 'export FILE',
    'stats', 'use SLOT', 'same', 'join', 'union', 'common', 'minus', 'keep E', 'back N')]

# The greatest number in each place that asks for one from 0 on. A coordinate may be any number here. [Command: count, value, radius]
GREATEST = {'V': 2**64 - 1, 'K': 2**32 - 1, 'W': 2**32 - 1, 'N': 2**32 - 1, 'E': 65536, 'R': 2**128 - 1}
NUMBERS = {'C', *GREATEST}
# What a word in another place has to be. [Command: kinds; Lines: is_name, is_file_name]
SPELLINGS = {'KIND': rb'points|boxes', 'SLOT': rb'a|b', 'NAME': rb'[A-Za-z0-9_-]{1,32}', 'FILE': rb'[!-~]{1,255}'}


# A command with the points in the places `C..`, and the numbers and words in its other places. [Command: Command]
Command = namedtuple('Command', 'name points values')


class Refused(Exception):
    """A refusal, with the text of its reply."""


def refuse_if(is_refused, reply):
    """Ends what is done to a line by a refusal, if its cause is there. [Refusals: refuse_if, refuse_if_bad]"""
    if is_refused:
        raise Refused(reply)


def lines(script, with_last):
    """The lines of a script. Bytes behind the last line feed are one more, which may be left out. [Lines: lines, whole_lines]"""
    *ended, last = script.split(b'\n')
    return ended + [last] if last and with_last else ended


def words(line):
    """The words of a line, which spaces and tabs separate. [Lines: words, is_blank]"""
    return re.findall(rb'[^ \t]+', line)


def number(word):
    """The whole number that a word spells, or None. [Lines: number, natural]"""
    return int(word) if re.fullmatch(rb'[+-]?[0-9]+', word) else None


def number_fits(place, found):
    """Whether what was read in a number's place is right there. [Command: number_fits, is_number_below]"""
    return found is not None and (place == 'C' or 0 <= found <= GREATEST[place])


def name_fits(place, word):
    """Whether a word is right in a place that asks for no number. [Command: name_fits, fixed_fits]"""
    return re.fullmatch(SPELLINGS.get(place, place.encode()), word) is not None


def places(form, dims):
    """The places behind the first word of a form, one for each word. [Command: coordinates]"""
    return [place for word in form[1:] for place in (['C'] * dims if word == 'C..' else [word])]


def read_line(line, dims):
    """The command of a line, or None where nothing is to be done. [Command: reading, is_comment]"""
    refuse_if(len(line) > LINE_BYTES, 'error long')
    found = words(line[:-1] if line.endswith(b'\r') else line)
    return None if not found or found[0].startswith(b'#') else read_words(found, dims)


def read_words(found, dims):
    """The command that some words spell, by the form that fits them. [Command: read_words, read_forms, read_sized]"""
    first, *rest = found
    named = [places(form, dims) for form in FORMS if form[0].encode() == first]
    refuse_if(not named, 'error word')
    sized = [form for form in named if len(form) == len(rest)]
    refuse_if(not sized, 'error count')
    # Of several forms with as many words the first counts whose own words are there, and else the last.
    own = [form for form in sized if all(place.isupper() or name_fits(place, word) for place, word in zip(form, rest))]
    return read_form(first.decode(), list(zip((own or sized[-1:])[0], rest)), dims)


def read_form(name, pairs, dims):
    """The command of a form, by its places and their words. All numbers are tried before the names. [Command: read_form]"""
    numbers = [(place, number(word)) for place, word in pairs if place in NUMBERS]
    names = [(place, word) for place, word in pairs if place not in NUMBERS]
    refuse_if(not all(number_fits(place, found) for place, found in numbers), 'error number')
    refuse_if(not all(name_fits(place, word) for place, word in names), 'error name')
    coordinates = [found for place, found in numbers if place == 'C']
    points = [tuple(coordinates[at:at + dims]) for at in range(0, len(coordinates), dims)]
    return Command(name, points, {**dict(numbers), **{place: word.decode() for place, word in names}})
