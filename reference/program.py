"""The program: what the words of the command line ask for, what is written, and the status.

Square brackets have the names of definitions in `ph_specs`: those of `Program`, `Generator`, `Engine` and `Reply`.
"""
from engine import Engine
from lines import GREATEST, Refused, lines, name_fits, number, number_fits
from shape import sizes
from snapshot import read_snapshot

SCRIPT_BYTES = 1 << 32
# [Program: usage_line]
USAGE = b'usage: phq run | phq check FILE | phq soak N START\n'


def answer(words, source, folder):
    """The bytes and the status with which the program answers the words of its command line. [Program: task]"""
    if any(word.decode(errors='ignore').encode() != word for word in words):
        return b'', 7
    if words == [b'run']:
        return run(source.read(SCRIPT_BYTES + 1), folder)
    if len(words) == 2 and words[0] == b'check' and name_fits('FILE', words[1]):
        return check(words[1].decode(), folder)
    if len(words) == 3 and words[0] == b'soak' and all(number_fits(place, number(word)) for place, word in zip('NV', words[1:])):
        return soak(*map(number, words[1:])), 0
    return USAGE, 2


def text_of(reply):
    """The bytes of a reply. [Reply: reply_text, line_of]"""
    return ''.join(f'{line}\n' for line in reply).encode()


def run(script, folder):
    """The replies to the lines of a script, and 1 where a line was refused. [Engine: run, written]"""
    is_too_long = len(script) > SCRIPT_BYTES
    engine = Engine(folder)
    steps = [engine.step(line) for line in lines(script[:SCRIPT_BYTES], with_last=not is_too_long)]
    status = 6 if is_too_long else int(any(is_refused for _, is_refused in steps))
    return b''.join(text_of(reply) for reply, _ in steps), status


def check(name, folder):
    """The line for a file that is checked. [Program: check_line, own_fault, words_of_file]"""
    try:
        header, table = read_snapshot(folder.read(name))
    except Refused as refusal:
        return text_of([refusal]), 1
    dims = header.dims // (2 if header.kind == 'boxes' else 1)
    return text_of([f'{header.kind} {dims} {sizes(table, header.width)}']), 0


def soak(count, start):
    """The line for so many commands of the program's own. [Program: soak_line]"""
    engine = Engine(None)
    written = sum(len(text_of(engine.step(line.encode())[0])) for line in generate(count, start))
    slot = engine.current()
    return text_of([f'soak {count} {sizes(slot.table, slot.width)} bytes {min(written, GREATEST["V"])}'])


def generate(count, start):
    """So many commands, which are a function of the start. [Generator: generate, next_state, draw_of]"""
    state = start % 2**31
    for _ in range(count):
        draws = []
        for _ in range(4):
            state = (1103515245 * state + 12345) % 2**31
            draws.append(state // 65536)
        yield command_of_draws(*draws)


def command_of_draws(kind, first, second, value):
    """The command that four draws make. [Generator: command_of_draws, small_coordinate]"""
    x, y = first % 512 - 256, second % 512 - 256
    put = f'put {x} {y} {value}'
    return [put, put, put, f'get {x} {y}', f'del {x} {y}', f'move {x} {y} {y} {x}', f'window {x} {y} {x + 7} {y + 7}',
            f'near {x} {y} 4'][kind % 8]
