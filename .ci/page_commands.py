#!/usr/bin/env python3
"""Runs the commands of the pages as they stand, in order, those of a page in one shell, in a folder with the repository's files.

    page_commands.py [PAGE ..]     all pages where none is named

A command is a line of a block that is indented or fenced without a language. It is to end with status 0 (STATUSES); what a program from C
prints is compared with the comment behind it, what ./fsw prints with RESULTS or with the lines below it in its block. A command
that isn't run is named in LEFT with the reason; one that is in no list is a fault, and so is a line of LEFT that no page has.
"""
import re
import shutil
import subprocess
import sys
import tempfile
from pathlib import Path

TOP = Path(__file__).resolve().parent.parent
PAGES = ['README.md', *sorted(f'docs/{path.name}' for path in (TOP / 'docs').glob('*.md')), 'corpus/README.md']
COMMAND = re.compile(r'(\(?(\./\w|c/build|\.ci/|/usr/bin/|aarch64=|(aarch64-linux-gnu-gcc|qemu-aarch64|make|export|gcc|cc|cp|cmake|'
                     r'python3|rt|git|time|valgrind|man|cd|cat|echo|for) ))')
# What commands need: the program and the library, proved and built.
BUILT = TOP / 'crates' / 'host_run' / 'out' / 'host_run'
LIBRARY = TOP / 'crates' / 'fsw_c' / 'out' / 'libfsw_c.a'
AARCH64 = LIBRARY.parent / 'aarch64' / LIBRARY.name
# What isn't run here, by a page and the front of the command.
LEFT = [
    ('', './fsw build', 'it proves for an hour or more: .ci/run makes it'),
    ('', 'make -C c test', '.ci/c_library makes it'),
    ('', 'make -C c bench', '.ci/c_library makes it, by instructions'),
    ('README.md', 'git grep', 'it has a NAME to fill in: .ci/pages.py looks for each'),
    ('docs/ARCHITECTURE.md', 'git grep', 'it lists lemmas to read'),
    ('docs/LINKS.md', 'c/build/', 'the configuration is the mission\'s: .ci/links runs both programs'),
    ('docs/PERFORMANCE.md', '', 'a measurement, on an idle machine'),
    ('corpus/README.md', '.ci/corpus_answers', 'it has a MODEL to fill in: .ci/run makes it'),
]
# What is printed, where the page doesn't say it: a file of the repository.
RESULTS = {'./fsw lockstep < examples/first.fsw': 'examples/first.report'}
# Another status than 0: what ./fsw check answers of a report that is none of its script.
STATUSES = {'(cat examples/first.fsw; echo ---; sed s/sum=236/sum=237/ examples/first.report) | ./fsw check': '7'}
# A line of the output, in the comment behind these.
PRINTS = re.compile(r'(\./(?!fsw)\w|c/build|qemu-|make -C my_)')
SECONDS = 900


def blocks(page):
    """The blocks of a page that may have commands, each as its lines."""
    fence, lines = None, []
    for line in (TOP / page).read_text(encoding='utf-8').splitlines():
        opened = re.match(r'```(\w*)$', line)
        is_inside = fence == '' if fence is not None else line.startswith('    ')
        if opened or not is_inside:
            if lines:
                yield lines
            lines = []
        elif is_inside:
            lines.append(line.strip())
        if opened:
            fence = None if fence is not None else opened[1]
    if lines:
        yield lines


def commands(page):
    """The commands of each block: what is run, the comment behind it, and the lines below it that are no commands."""
    for lines in blocks(page):
        found = []
        for line in lines if COMMAND.match(lines[0]) else []:
            if COMMAND.match(line):
                text, _, comment = line.partition(' # ')
                found.append((re.sub(r'  +#.*', '', text).strip(), comment.strip(), []))
            elif line.strip():
                found[-1][2].append(line)
        if found:
            yield found


def reason(page, command):
    """Why a command isn't run; None: it is."""
    return next((why for of, front, why in LEFT if page.startswith(of) and command.startswith(front)), None)


def furnish(folder):
    """The repository's files in a folder: C's own copied, since they are built there, the others by links."""
    for path in TOP.iterdir():
        if path.name in ('c', '.git'):
            continue
        (folder / path.name).symlink_to(path)
    shutil.copytree(TOP / 'c', folder / 'c', ignore=shutil.ignore_patterns('build', '__pycache__'))
    (folder / 'home').mkdir()
    (folder / 'BYTES').write_bytes(bytes(range(8)))


def run(folder, page, asked):
    """Runs the commands of a page in one shell; gives the status and the output of each."""
    script = [f'export HOME={folder}/home TMPDIR={folder}', 'unset PKG_CONFIG_PATH CMAKE_PREFIX_PATH fsw_DIR']
    for number, (command, _, _) in enumerate(asked):
        script.append(f'{{ {command}\n}} >{folder}/out.{number} 2>{folder}/err.{number} </dev/null; echo $? >{folder}/status.{number}')
    subprocess.run(['bash', '-c', '\n'.join(script)], cwd=folder, timeout=SECONDS, check=False)
    for number in range(len(asked)):
        told = [folder / f'{name}.{number}' for name in ('status', 'out', 'err')]
        texts = [path.read_text(encoding='utf-8', errors='replace') if path.exists() else '' for path in told]
        yield texts[0].strip(), texts[1], texts[2]


def fault(found, answer):
    """What is wrong with what a command did."""
    (command, comment, below), (status, out, err) = found, answer
    if status != STATUSES.get(command, '0'):
        return f'status {status}: {err[-300:]}'
    if below and out.splitlines() != below:
        return f'it prints {out[:300]!r}'
    if command in RESULTS and out != (TOP / RESULTS[command]).read_text(encoding='utf-8'):
        return f'it doesn\'t print {RESULTS[command]}'
    if PRINTS.match(command) and comment not in out.splitlines():
        return f'{comment!r} is no line of what it prints: {out[:300]!r}'
    return None


def can_run(block):
    """Whether what a block needs is there."""
    texts = [command for command, _, _ in block]
    if any('aarch64' in text for text in texts):
        return AARCH64.exists() and bool(shutil.which('aarch64-linux-gnu-gcc') and shutil.which('qemu-aarch64'))
    if any(text.startswith('make -C c install') for text in texts) and not LIBRARY.exists():
        return False
    return BUILT.exists() or not any('./fsw ' in text and not text.startswith('./fsw build') for text in texts)


def tried(page, used):
    """The faults of a page's commands, and how many were run."""
    asked, skipped = [], 0
    for block in commands(page):
        for command, _, _ in block:
            used.update(rule for rule in LEFT if page.startswith(rule[0]) and command.startswith(rule[1]))
        if not can_run(block):
            skipped += len(block)
            continue
        asked += [one for one in block if reason(page, one[0]) is None]
    with tempfile.TemporaryDirectory(prefix='pages-') as name:
        folder = Path(name)
        furnish(folder)
        answers = list(run(folder, page, asked)) if asked else []
    if asked or skipped:
        print(f'commands: {page}: {len(asked)} run' + (f', {skipped} skipped, what they need is not built' if skipped else ''))
    told = ((one[0], fault(one, answer)) for one, answer in zip(asked, answers))
    return [f'{page}: {command}: {wrong}' for command, wrong in told if wrong]


def main():
    pages, used = sys.argv[1:] or PAGES, set()
    faults = [each for page in pages for each in tried(page, used)]
    if not sys.argv[1:]:
        faults += [f'no page has a command of {page or "any page"} that begins with {front!r}'
                   for page, front, _ in set(LEFT) - used]
    for each in faults:
        print(each)
    print(f'commands: {len(faults)} faults')
    return 1 if faults else 0


sys.exit(main())
