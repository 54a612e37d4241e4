"""One script through the program and through the reference, each in a folder of its own."""
import io
import os
import subprocess
import sys
import tempfile

import program
from folder import Folder

TOP = os.path.dirname(os.path.dirname(os.path.abspath(__file__)))
# The most that one call may take.
SECONDS = 60


def chosen_program(given):
    """The path of the program: the one given, or that of the variable PHQ, or else release/phq or ./phq."""
    named = given or os.environ.get('PHQ')
    for path in [named] if named else [os.path.join(TOP, 'release', 'phq'), os.path.join(TOP, 'phq')]:
        if os.access(path, os.X_OK):
            return os.path.abspath(path)
    sys.exit('there is no program to compare with')


def lay_out(folder, files):
    """Puts files, links and folders into a folder."""
    for name, content in files.items():
        path = os.path.join(folder, name)
        if content is None:
            os.mkdir(path)
        elif isinstance(content, str):
            os.symlink(content, path)
        else:
            with open(path, 'wb') as file:
                file.write(content)


def found_in(folder):
    """All that stands in a folder, by its names: the bytes of a file, the goal of a link, or None for a folder."""
    found = {}
    for path, folders, names in os.walk(folder):
        for name in folders + names:
            whole = os.path.join(path, name)
            short = os.path.relpath(whole, folder)
            if os.path.islink(whole):
                found[short] = os.readlink(whole)
            elif os.path.isdir(whole):
                found[short] = None
            else:
                with open(whole, 'rb') as file:
                    found[short] = file.read()
    return found


def by_program(path, words, script, folder):
    """The status and the output of a call of the program."""
    try:
        ran = subprocess.run([path, *words], input=script, stdout=subprocess.PIPE, stderr=subprocess.STDOUT, cwd=folder, timeout=SECONDS)
        return ran.returncode, ran.stdout
    except subprocess.TimeoutExpired as waits:
        return 'it waits', waits.stdout or b''


def by_reference(words, script, folder):
    """The status and the output of a call of the reference."""
    output, status = program.answer([os.fsencode(word) for word in words], io.BytesIO(script), Folder(folder))
    return status, output


def both(path, case):
    """What the program and the reference make of a script: for each the status and the output of the calls, and the files at the end."""
    made = []
    for call in (lambda *words: by_program(path, *words), by_reference):
        with tempfile.TemporaryDirectory() as folder:
            lay_out(folder, case.files)
            made.append(([call(words, script, folder) for words, script in case.calls], found_in(folder)))
    return made


def differs(path, case):
    """Whether a script shows a difference."""
    first, second = both(path, case)
    return first != second
