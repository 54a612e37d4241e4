"""The code of the sources, as the scripts of the gate read it: without comments and texts, and without tests."""
import functools
import glob
import os
import re

# A comment, a text or a letter. What follows on a quote in any other way is the name of a lifetime. Comments and texts of other kinds
# are not read.
SILENT = re.compile(r'//[^\n]*|"(?:\\.|[^"\\])*"|' r"'(?:\\(?:x\w\w|u\{\w+\}|.)|[^'\\\n])'" r'|(?P<odd>/\*|\bb?r#*")', re.DOTALL)
CLAUSE = re.compile(r'\b(?:requires|ensures)\b\*?\s*\w*\s*\{|\bghost\b')
# An attribute that leaves code out or brings other files in, and what else would have to be read in a way of its own.
ODD = re.compile(r'#\s*!?\s*\[\s*(?:cfg|cfg_attr|path)\b|\binclude\s*!|\b(?:requires|ensures)\b')
TEST = re.compile(r'#\[cfg\(test\)\]\s*(?:pub(?:\([a-z]+\))?\s+)?mod\s+(\w+)\s*([;{])')


class Unreadable(Exception):
    """What stands in a source that is read in no way."""


def blanks(text):
    return re.sub(r'[^\n]', ' ', text)


def blanked(text, start, end):
    return text[:start] + blanks(text[start:end]) + text[end:]


def silenced(found):
    if found.group('odd'):
        raise Unreadable(found.group())
    return blanks(found.group())


def behind_braces(text, at):
    """The place behind the brace that closes the one at a place."""
    depth = 0
    for found in re.compile(r'[{}]').finditer(text, at):
        depth += 1 if found.group() == '{' else -1
        if depth == 0:
            return found.end()
    raise Unreadable('a brace that is not closed')


def behind_ghost(text, at):
    """The place behind a ghost item or a ghost field, which ends outside of all braces."""
    while found := re.compile(r'[{};,]').search(text, at):
        if found.group() != '{':
            return found.end()
        at = behind_braces(text, found.start())
    raise Unreadable('a ghost that does not end')


def without_clauses(code):
    """Code without what stands in clauses and in ghosts."""
    at = 0
    while found := CLAUSE.search(code, at):
        is_ghost = found.group() == 'ghost'
        at = behind_ghost(code, found.end()) if is_ghost else behind_braces(code, found.end() - 1)
        code = blanked(code, found.start(), at)
    return code


def is_outside(code, at):
    """Whether a place is outside of all brackets."""
    return all(code.count(first, 0, at) == code.count(last, 0, at) for first, last in ('{}', '()', '[]'))


@functools.cache
def read_source(text):
    """What a source has outside of its tests, without comments, texts and letters, in the same lines; the same without clauses; and
    the modules that are tests in files of their own."""
    whole, tests = SILENT.sub(silenced, text), []
    code = without_clauses(whole)
    while found := TEST.search(code):
        if not is_outside(code, found.start()):
            raise Unreadable('a module of tests within something else')
        if found.group(2) == '{':
            end = behind_braces(code, found.end() - 1)
        else:
            end = found.end()
            tests.append(found.group(1))
        code, whole = (blanked(each, found.start(), end) for each in (code, whole))
    if odd := ODD.search(code):
        raise Unreadable(odd.group())
    if not is_outside(code, len(code)):
        raise Unreadable('a bracket that stands alone')
    return whole, code, tests


@functools.cache
def lines(whole, code):
    """The lines in which something stands, with their numbers, each with its clauses and without."""
    both = zip(whole.split('\n'), code.split('\n'))
    return [(number, line.strip(), bare.strip()) for number, (line, bare) in enumerate(both, 1) if line.strip()]


def folder_of_modules(path):
    name = os.path.basename(path)
    return os.path.dirname(path) if name in ('lib.rt', 'main.rt', 'mod.rt') else path.removesuffix('.rt')


def crate_of(path):
    return path.split('/')[1]


def read_sources():
    """The text of each source, by its path."""
    texts = {}
    for path in sorted(glob.glob('crates/*/src/**/*.rt', recursive=True)):
        with open(path, encoding='utf-8') as file:
            texts[path] = file.read()
    return texts


def read_lines():
    """The lines of crates.txt: a crate with the words behind its name, and the crates that it names."""
    with open('crates.txt', encoding='utf-8') as file:
        for line in file:
            if not line.startswith('#'):
                crate, named = line.split(':')
                yield crate.split(), named.split()


def read_crates():
    """The crates that each crate names in crates.txt."""
    return {crate[0]: named for crate, named in read_lines()}


def read_static():
    """The crates that are static libraries, for programs in other languages."""
    return {crate[0] for crate, _ in read_lines() if 'staticlib' in crate[1:]}


def below(crates, crate):
    """The crates that a crate stands on."""
    found = set()
    for named in crates.get(crate, ()):
        found |= {named} | below(crates, named)
    return found


def code_outside_tests(texts):
    """The code of each source that is no test, by its path, with its clauses and without; and what cannot be read."""
    codes, tests, faults = {}, [], []
    for path, text in texts.items():
        try:
            *codes[path], names = read_source(text)
            tests += [f'{folder_of_modules(path)}/{name}' for name in names]
        except Unreadable as odd:
            faults.append(f'{path}: what is not read: {odd}')
    for path in list(codes):
        if any(path == f'{test}.rt' or path.startswith(f'{test}/') for test in tests):
            del codes[path]
    return codes, faults
