#!/usr/bin/env python3
"""Makes the changes of docs/RATTLE.md in crates that ./fsw new lays out, and runs each by rt try, in a copy with nothing proved.

A section is a change, of each kind of program of which it has the line that is printed then. A block of `diff` begins with its
file, then has lines that stay, that go (-) and that come (+), change by change, with `@@` in between; a block of `antt` is the
file that its first line names; a block of `sh` is run in the crate's folder.
"""
import re
import shutil
import subprocess
import sys
import tempfile
from pathlib import Path

TOP = Path(__file__).resolve().parent.parent
PAGE = TOP / 'docs' / 'RATTLE.md'
KINDS = ('plain', 'threads')
NAME = 'my_app'
SECONDS = 900


def changes():
    """Of each change its heading, its blocks and the line that each kind of program prints then."""
    for section in PAGE.read_text(encoding='utf-8').split('\n## ')[1:]:
        blocks = re.findall(r'^```(diff|antt|sh)\n(.*?)^```$', section, re.S | re.M)
        yield section.partition('\n')[0], blocks, dict(re.findall(r'`((?:plain|threads)): ([^`]*)`', section))


def parts(block):
    """The file that a block is about, and the rest of it."""
    head, _, rest = block.partition('\n')
    return head.split()[-1], rest


def is_of(kind, form, block):
    """Whether a block is about a kind of program: it names no file of the other one."""
    text = block if form == 'sh' else parts(block)[0]
    return not any(re.search(rf'\b{other}\b', text) for other in KINDS if other != kind)


def changed(text, rest):
    """A file's text with a block's changes made, which `@@` parts; raises ValueError where the lines of one aren't there once."""
    for change in rest.split('@@\n'):
        lines = [line or ' ' for line in change.splitlines()]
        old, new = ('\n' + ''.join(line[1:] + '\n' for line in lines if line[0] != sign) for sign in '+-')
        if ('\n' + text).count(old) != 1:
            raise ValueError(f'these lines do not stand there once: {old}')
        text = ('\n' + text).replace(old, new)[1:]
    return text


def make(crate, form, block):
    """Makes what a block says, in a crate's folder."""
    if form == 'sh':
        subprocess.run(['sh', '-ec', block], cwd=crate, stdout=subprocess.DEVNULL, check=True)
        return
    name, rest = parts(block)
    path = crate / name
    path.parent.mkdir(parents=True, exist_ok=True)
    path.write_text(block if form == 'antt' else changed(path.read_text(encoding='utf-8'), rest), encoding='utf-8')


def fault_of(top, kind, blocks, printed):
    """Lays out a crate, makes a change, and runs it; gives what is wrong."""
    crate = top / 'crates' / NAME
    listed = (top / 'crates.txt').read_text(encoding='utf-8')
    try:
        subprocess.run(['./fsw', 'new', NAME, kind], cwd=top, stderr=subprocess.DEVNULL, check=True)
        for form, block in blocks:
            if is_of(kind, form, block):
                make(crate, form, block)
        run = subprocess.run(['rt', 'try', '--steps', '1'], cwd=crate, stdin=subprocess.DEVNULL, capture_output=True, text=True, timeout=SECONDS, check=False)
    except (OSError, ValueError, subprocess.SubprocessError) as fault:
        return str(fault)
    finally:
        shutil.rmtree(crate, ignore_errors=True)
        (top / 'crates.txt').write_text(listed, encoding='utf-8')
    is_good = run.returncode == 0 and f'{kind}: {printed}' in run.stdout.splitlines()
    return None if is_good else f'rt try does not print {printed!r}: {(run.stdout + run.stderr)[-800:]}'


def main():
    wrong, count = [], 0
    with tempfile.TemporaryDirectory(prefix='own-crates-') as folder:
        top = Path(folder) / 'copy'
        shutil.copytree(TOP, top, ignore=shutil.ignore_patterns('out', 'build', '.git', '__pycache__'))
        for title, blocks, lines in changes():
            if not lines:
                wrong.append(f'{title}: it does not say what is printed')
            for kind, printed in lines.items():
                count += 1
                fault = fault_of(top, kind, blocks, printed)
                wrong += [f'{title}, {kind}: {fault}'] if fault else []
    for each in wrong:
        print(f'docs/RATTLE.md: {each}')
    print(f'changes: {count} made, {len(wrong)} faults')
    return 1 if wrong or not count else 0


sys.exit(main())
