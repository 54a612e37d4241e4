"""How the scripts of the gate run the program: built once, in a folder of its own, and with calls refused where that is asked."""
import os
import shutil
import subprocess
import sys
from dataclasses import dataclass

CI = os.path.dirname(os.path.abspath(__file__))
TOP = os.path.dirname(CI)
# The most that one run may take. None waits for anything but its own script.
SECONDS = 60

# What the trials of the engine save and load too: the rows (0, 0) with 1 and (1, 1) with 2, without the header.
TWO_RECORDS = bytes.fromhex(
    '1f00000001000001' 'e000000000000000' '0000000000000000'
    '0000000002000000' '0c00000000000000' '0000000000000001' '0000000000000002')
# The same with (0, 1) and 3.
THREE_RECORDS = bytes.fromhex(
    '1f00000001000001' 'e000000000000000' '0000000000000000'
    '0001000003000000' '5100000000000000' '0000000000000001' '0000000000000003' '0000000000000002')
# The headers of version 1 and of version 2, for points of two dimensions and 32 bits.
FIRST, SECOND = b'PHT1\x00\x02\x01\x00', b'PHT2\x00\x02\x20\x01'


@dataclass
class Ended:
    status: int
    output: bytes
    # A letter for each call that was refused or shortened.
    refusals: str


def program():
    """The path of the program: the first argument, or the variable PHQ, or else that which ./phq would run."""
    given = sys.argv[1] if len(sys.argv) > 1 else os.environ.get('PHQ')
    if given:
        return os.path.abspath(given)
    told = subprocess.run([os.path.join(TOP, 'phq'), 'which'], stdout=subprocess.PIPE, check=True, text=True).stdout
    path = told.splitlines()[0].removeprefix('program: ')
    if not os.path.exists(path):
        sys.exit('there is no program of these sources: ./phq build makes it')
    return path


def refusing(folder):
    """The library that refuses calls, compiled into a folder."""
    if shutil.which('cc') is None:
        sys.exit('cc is not found: without a C compiler no call can be refused, and nothing is tried')
    library = os.path.join(folder, 'refusing.so')
    source = os.path.join(CI, 'refusing.c')
    if subprocess.run(['cc', '-O2', '-shared', '-fPIC', '-o', library, source]).returncode != 0:
        sys.exit('refusing.c was not compiled')
    return library


def put_files(folder, files):
    """Makes a new folder with these files, by their names."""
    os.mkdir(folder)
    for name, content in files.items():
        with open(os.path.join(folder, name), 'wb') as file:
            file.write(content)


def read_file(folder, name):
    """The bytes of a file, or None where there is none."""
    try:
        with open(os.path.join(folder, name), 'rb') as file:
            return file.read()
    except FileNotFoundError:
        return None


def run_refused(words, script, folder, library, refusal):
    """Runs the program with a library that refuses calls, as the variables of `refusal` tell it."""
    told = os.path.join(os.path.dirname(folder), 'refusals')
    open(told, 'wb').close()
    environment = {**os.environ, **refusal, 'LD_PRELOAD': library, 'REFUSALS': told}
    ran = subprocess.run(words, input=script, stdout=subprocess.PIPE, cwd=folder, env=environment, timeout=SECONDS)
    with open(told, encoding='ascii') as file:
        return Ended(ran.returncode, ran.stdout, file.read())


def live(program, script, folder, library):
    """Runs a script whole, and tells how many blocks of memory and how many bytes the program had when it last wrote, and what it replied."""
    told = os.path.join(os.path.dirname(folder), 'live')
    ended = run_refused([program, 'run'], script, folder, library, {'LIVE_BLOCKS': told})
    with open(told, encoding='ascii') as file:
        blocks, taken = map(int, file.read().split())
    return blocks, taken, ended
