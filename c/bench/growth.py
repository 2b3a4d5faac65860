"""What a call costs, against the bus's size: instructions of a send, and of a request for a buffer, by callgrind. Rows of a table.

    growth.py [BUILD]          BUILD is make's folder (build), after `make bench`
    growth.py --check BUILD    the status is 1 if a row isn't flat, or linear, as it should be
"""
import re
import subprocess
import sys
from pathlib import Path

TOP = Path(__file__).resolve().parent.parent
ROUNDS = 200
# What a send is when nothing is said.
USUAL = {'pipes': 16, 'ids': 16, 'dests': 1, 'waiting': 0, 'bytes': 64}
ROWS = {
    'pipes': (1, 4, 16, 64, 256),
    'ids': (1, 4, 16, 64, 256, 1024),
    'waiting': (0, 1, 16, 256, 1023),
    'dests': (1, 2, 4, 16, 64),
    'bytes': (16, 64, 256, 1024, 4096, 32768),
    'place': (16, 64, 256, 1024, 4096, 32768),
    'out': (0, 1, 16, 256, 4096),
}
NAMES = {'pipes': 'live pipes', 'ids': 'message ids with a route', 'waiting': 'messages that wait on the pipe',
         'dests': 'pipes that it reaches', 'bytes': 'bytes that are copied', 'place': 'bytes of a buffer: asked for, and sent', 'out': 'a request for 64 bytes, against buffers that are out'}
# A row of these is flat: its figures differ by no more than this part.
FLAT_ROWS, PART = ('pipes', 'ids', 'waiting', 'out'), 0.02
# Each more of these costs as much as any other, to this part.
LINEAR_ROWS = ('dests',)
# Each more of these costs at most one instruction, to this part: a byte is moved once. Short copies move many bytes by an instruction.
ONCE_ROWS = ('bytes', 'place')


def counted(build, functions, words):
    """Instructions of one call of each of these functions of the program."""
    tool = ['valgrind', '--tool=callgrind', '--callgrind-out-file=/dev/null', *(f'--toggle-collect={name}' for name in functions)]
    run = subprocess.run([*tool, build / 'growth', *words], capture_output=True, text=True, check=False)
    collected = re.search(r'Collected : (\d+)', run.stderr)
    if run.returncode or not collected:
        sys.exit(f'growth {words}: {run.stdout}{run.stderr}')
    return round(int(collected[1]) / ROUNDS)


def cost(build, row, value):
    if row == 'out':
        return counted(build, ['allocate_once'], ['allocate', str(ROUNDS), str(value)])
    if row == 'place':
        return counted(build, ['allocate_once', 'transmit_once'], ['place', str(ROUNDS), str(value)])
    size = dict(USUAL, **{row: value})
    size['pipes'] = max(size['pipes'], size['dests'])
    return counted(build, ['send_once'], ['send', str(ROUNDS), *(str(size[name]) for name in USUAL)])


def faults(row, figures):
    """What isn't as it is to be in a row."""
    values, least = list(figures.values()), min(figures)
    each = [(figures[more] - figures[least]) / (more - least) for more in figures if more > least]
    if row in FLAT_ROWS and max(values) > (1 + PART) * min(values):
        yield f'{NAMES[row]}: {min(values)} to {max(values)}, and it should be flat'
    if row in LINEAR_ROWS and max(each) > (1 + PART) * min(each):
        yield f'{NAMES[row]}: each more takes {min(each):.1f} to {max(each):.1f}, and it should be linear'
    if row in ONCE_ROWS and max(each) > 1 + PART:
        yield f'{NAMES[row]}: each more takes {max(each):.2f}'


def main():
    words = [word for word in sys.argv[1:] if word != '--check']
    build = Path(words[0]) if words else TOP / 'build'
    wrong = []
    for row, values in ROWS.items():
        figures = {value: cost(build, row, value) for value in values}
        print(f'| {NAMES[row]} | ' + '; '.join(f'{value:,}: {figure:,}' for value, figure in figures.items()) + ' |', flush=True)
        wrong += faults(row, figures)
    print('\n'.join(wrong), end='\n' if wrong else '')
    return bool(wrong) and '--check' in sys.argv


sys.exit(main())
