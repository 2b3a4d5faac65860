"""What a call costs, beside docs/bench/plain_bus.c: a round's instructions (callgrind's, a long run less a short one, divided
by the difference) and nanoseconds (the least of several runs), in one run of all.

    costs.py [BUILD [WORD ..]]     BUILD is make's folder (build), after `make bench`
    costs.py --check BUILD         instructions alone; the status is 1 if one is over its figure below
    costs.py --times [BUILD]       times alone, as rows of the table in docs/PERFORMANCE.md; on an idle machine

Columns: plain_bus with its mutex; the library; the library with a mutex round each call; the layer in cFE's names, which has one;
of times also a bus over POSIX message queues, as cFE's pipes are on Linux, and one over ZeroMQ's inproc, if it is installed.
`port1` and `port2` are `send1` by one application and by each of two on threads. Behind a figure stands its ratio to plain_bus's.
While a program is timed it has a second thread, which sleeps: without one glibc's mutex takes no atomic step.
"""
import re
import subprocess
import sys
import tempfile
import time
from pathlib import Path

TOP = Path(__file__).resolve().parent.parent
BUSES = TOP.parent / 'docs' / 'bench'
# A word, its rounds when counted, and when timed.
ROUNDS = {'send1': (2000, 1_000_000), 'fan16': (400, 100_000), 'big': (200, 100_000), 'fanbig': (100, 50_000),
          'zc': (2000, 1_000_000), 'table': (200, 100_000), 'port1': (2000, 1_000_000), 'port2': (2000, 500_000)}
# The instructions of a round, which a change may exceed by this part.
FIGURES = {'send1': {'library': 589, 'layer': 909}, 'fan16': {'library': 3709, 'layer': 6564}, 'zc': {'library': 946, 'layer': 1523}}
OVER = 0.02
# How many more than the library the layer takes at most, beyond its mutex: a round of send1 takes that twice, which is 246 instructions,
# since it inherits priority. A plain mutex takes 114.
MUTEX, LAYER = {'send1': 246}, {'send1': 80}
TIMES = 9
# What the time of a column is to be at most, beside plain_bus's.
GOALS = {'locked': {'send1': 1.3, 'fan16': 1.3, 'zc': 1.5}, 'layer': {'send1': 1.4, 'fan16': 1.4, 'zc': 1.6}}
# Words that calls_cost hasn't: it has one application.
ON_THREADS = {'port1': ('port1', '1'), 'port2': ('port1', '2')}
ON_BUSES = ('send1', 'fan16', 'big', 'fanbig')
# The system's calls make these slow: a round of so many.
FEWER = {'queues': 20}


def programs(build, folder):
    """The programs to compare, by their column: what is run for a word."""
    plain = made(folder, 'plain_bus')
    return {'plain_bus': [plain], 'library': [build / 'calls_cost'], 'locked': [build / 'calls_cost', 'lock'],
            'layer': [build / 'layer_cost']}


def made(folder, name, *libraries):
    """A program of docs/bench."""
    program = Path(folder) / name
    subprocess.run(['gcc', '-O2', '-pthread', '-o', program, BUSES / f'{name}.c', *libraries], check=True)
    return program


def other_buses(folder):
    """The buses that a user comes from; they have the words of ON_BUSES."""
    others = {'queues': [made(folder, 'queue_bus', '-lrt')]}
    if Path('/usr/include/zmq.h').exists():
        others['zeromq'] = [made(folder, 'zmq_bus', '-lzmq')]
    return others


def try_buses(others):
    """Each bus receives what it sends."""
    for program in others.values():
        for word in ON_BUSES:
            subprocess.run(command(program, word, 100), stdout=subprocess.DEVNULL, check=True)


def compared_on(compared, word):
    """The programs that have this word."""
    return {column: program for column, program in compared.items() if word not in ON_THREADS or column in ('plain_bus', 'layer')}


def command(program, word, rounds, is_parked=False):
    """What is run. A program's third word is what it has in `programs`, or how many applications there are."""
    parked = ['parked'] if is_parked else []
    if word in ON_THREADS:
        word, apps = ON_THREADS[word]
        return [program[0], word, str(rounds), apps, *parked]
    third = program[1:] or (['1'] if parked else [])
    return [program[0], word, str(rounds), *third, *parked]


def instructions(words):
    tool = ['valgrind', '--tool=callgrind', '--callgrind-out-file=/dev/null']
    run = subprocess.run(tool + words, capture_output=True, text=True, check=False)
    collected = re.search(r'Collected : (\d+)', run.stderr)
    if run.returncode or not collected:
        sys.exit(f'{words}: {run.stdout}{run.stderr}')
    return int(collected[1])


def counted(program, word):
    few = ROUNDS[word][0]
    short, long = (instructions(command(program, word, rounds)) for rounds in (few, 3 * few))
    return (long - short) / (2 * few)


def timed(program, word, fewer):
    rounds = ROUNDS[word][1] // fewer
    began = time.monotonic()
    subprocess.run(command(program, word, rounds, is_parked=True), stdout=subprocess.DEVNULL, check=True)
    return (time.monotonic() - began) * 1e9 / rounds


def show(word, figures, unit):
    plain = figures['plain_bus']
    told = ', '.join(f'{column} {figure:,.0f} ({figure / plain:.2f})' for column, figure in figures.items())
    print(f'{word} {unit}: {told}', flush=True)


def show_row(word, figures, others):
    """A row of the page: each column's figure, empty where it hasn't the word."""
    columns = ('plain_bus', 'library', 'locked', 'layer', *others)
    print(f'| `{word}` | ' + ' | '.join(f'{figures[column]:,.0f}' if column in figures else '' for column in columns) + ' |', flush=True)


def times_of(word, compared):
    """The least of several runs, in which the programs take turns."""
    runs = [{column: timed(program, word, FEWER.get(column, 1)) for column, program in compared.items()} for _ in range(TIMES)]
    return {column: min(run[column] for run in runs) for column in compared}


def show_goals(word, times):
    for column, goals in GOALS.items():
        ratio = times.get(column, 0) / times['plain_bus']
        if ratio > goals.get(word, float('inf')):
            print(f"{word}: {column} takes {ratio:.2f} of plain_bus's time, over its goal of {goals[word]}")


def faults(word, figures):
    """What takes more than it may."""
    for column, figure in FIGURES.get(word, {}).items():
        if figures[column] > (1 + OVER) * figure:
            yield f'{word}: {column} takes {figures[column]:,.0f}, over its figure of {figure:,} by more than {OVER:.0%}'
    if word in LAYER and figures['layer'] - figures['library'] > MUTEX[word] + LAYER[word]:
        yield f'{word}: the layer takes over {LAYER[word]} more than the library with its mutex'


def main():
    options = {word for word in sys.argv[1:] if word.startswith('--')}
    words = [word for word in sys.argv[1:] if word not in options]
    build = Path(words[0]) if words else TOP / 'build'
    wrong = []
    with tempfile.TemporaryDirectory() as folder:
        programs_of_all = programs(build, folder)
        others = other_buses(folder)
        if '--check' in options:
            try_buses(others)
        for word in words[1:] or (FIGURES if '--check' in options else ROUNDS):
            compared = compared_on(programs_of_all, word)
            if '--times' not in options:
                figures = {column: counted(program, word) for column, program in compared.items()}
                show(word, figures, 'instructions')
                wrong += faults(word, figures)
            if '--check' not in options:
                times = times_of(word, compared | (others if word in ON_BUSES else {}))
                if '--times' in options:
                    show_row(word, times, others)
                else:
                    show(word, times, 'ns')
                show_goals(word, times)
    print('\n'.join(wrong), end='\n' if wrong else '')
    return bool(wrong) and '--check' in options


sys.exit(main())
