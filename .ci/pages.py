#!/usr/bin/env python3
"""Checks that the pages lead where they say.

- A link in README.md, CHANGELOG.md, in docs/ or in corpus/README.md leads to a file and, behind `#`, to a heading of it.
- README names each crate, but for those that `./fsw new` laid out. A name that it gives of a contract (in backticks, a lower-case
  one with `_` or one that begins with a capital) is a clause, a law, another function, a type, a definition or a field, and found
  by the searches that README gives.
- Each file that has a case for most calls of the bus or of the tables, or for a quarter of the script's lines, is named in the
  recipe of docs/CHANGING.md for it: in one row the crate and the file's name without its ending.
"""
import re
import sys
from pathlib import Path

TOP = Path(__file__).resolve().parent.parent
PAGES = [TOP / 'README.md', TOP / 'CHANGELOG.md', *sorted((TOP / 'docs').glob('*.md')), TOP / 'corpus' / 'README.md']
# Of each enum: the recipe, where the enum is, how specs name it, how code names it (by itself in its own crate alone), and which
# part of its variants makes a file one with a case for each.
ENUMS = [
    ('A new call of the bus', 'crates/bus_words/src/history.rt', 'Call',
     ['bus_words.specs.declared.history.Call', 'bus_words.specs.declared.calls.BusCall'], ['BusCall'], 1 / 2),
    ('A new call of the tables', 'crates/tbl_words/src/history.rt', 'Call',
     ['tbl_words.specs.declared.history.Call', 'tbl_words.specs.declared.calls.TblCall'], ['TblCall'], 1 / 2),
    ('A new line of the script', 'crates/script_lines/src/line.rt', 'Line',
     ['script_lines.specs.declared.line.Line'], ['Line'], 1 / 4),
]


def without_code(text):
    """A page without its blocks of code."""
    return re.sub(r'^```.*?^```', '', text, flags=re.S | re.M)


def anchors(page):
    """The places of a page that a link can lead to, as GitHub names headings."""
    heads = re.findall(r'^#+ (.*)$', without_code(page.read_text()), re.M)
    return {re.sub(r'[^\w\- ]', '', head.lower()).replace(' ', '-') for head in heads}


def links():
    """Each link that leads nowhere."""
    for page in PAGES:
        for target in re.findall(r'\]\(([^)\s]+)\)', without_code(page.read_text())):
            path, _, anchor = target.partition('#')
            to = page if not path else (page.parent / path).resolve()
            if '://' in target:
                continue
            if not to.exists():
                yield f'{page.relative_to(TOP)}: no file {target}'
            elif anchor and anchor not in anchors(to):
                yield f'{page.relative_to(TOP)}: no heading {target}'


def readme():
    """Each crate that README lacks, and each name of a contract in it that its searches don't find."""
    text = without_code((TOP / 'README.md').read_text())
    code = '\n'.join(path.read_text() for path in TOP.glob('crates/*/src/**/*.rt'))
    specs = '\n'.join(path.read_text() for path in TOP.glob('crates/*/specs/**/*.antt'))
    crates = {path.parent.name for path in TOP.glob('crates/*/src')}
    own = re.findall(r'^(\w+):', (TOP / 'crates.txt').read_text().partition('\n# Your own\n')[2], re.M)
    for crate in sorted(crates.difference(own)):
        if f'`{crate}`' not in text:
            yield f'README.md: names no `{crate}`'
    known = set(re.findall(r'(?:ensures|fn|struct|trait|enum) ([A-Za-z_]\w*)', code))
    known |= set(re.findall(r'pub (?:record |data )?([A-Za-z_]\w*)', specs)) | crates | {'Option', 'Result', 'AllocError'}
    known |= set(re.findall(r'\w+', (TOP / 'crates.txt').read_text()))
    for name in sorted(set(re.findall(r'`(?:\w+::)?([a-z]\w*_\w+|[A-Z]\w*[a-z]\w*)`', text)) - known):
        if not re.search(rf'^\s*{name}\b', code, re.M):
            yield f'README.md: `{name}` is found nowhere'


def variants(path, enum):
    """The variants of an enum."""
    text = re.sub(r'//.*', '', (TOP / path).read_text())
    names, depth = [], 0
    for line in text[re.search(rf'pub enum {enum}\b[^{{]*\{{', text).end():].splitlines():
        if depth == 0 and re.match(r'\s*[A-Z]\w*', line):
            names.append(re.match(r'\s*(\w+)', line)[1])
        depth += sum(line.count(one) for one in '{(') - sum(line.count(one) for one in '})')
        if depth < 0:
            break
    return names


def cases(text, names, paths, words):
    """Those of the variants that a file names, whether it brings them in by itself, by another name, or under their enum's."""
    body = re.sub(r'use Rattle[^;\n]*', '', text)
    found = set()
    for path in paths:
        for listed in re.findall(rf'use Rattle\.{re.escape(path)}\.TheVariants\.\{{([^}}]*)\}}', text):
            for item in listed.split(','):
                own, _, other = item.strip().partition(' as ')
                if re.search(rf'(?<![\w.]){re.escape(other or own)}\b', body):
                    found.add(own)
        words = words + re.findall(rf'use Rattle\.{re.escape(path)}\.TheVariants as (\w+)', text)
    for word in words:
        found |= set(re.findall(rf'(?<!\w){word}(?:::|\.)(\w+)', body))
    return found & set(names)


def recipes():
    """Each file with a case for most calls, or for many lines, that its recipe doesn't name."""
    page = (TOP / 'docs' / 'CHANGING.md').read_text()
    for title, path, enum, paths, words, part in ENUMS:
        names = variants(path, enum)
        rows = page.partition(f'## {title}\n')[2].partition('\n## ')[0].splitlines()
        for file in sorted(TOP.glob('crates/*/*/**/*')):
            crate = file.relative_to(TOP).parts[1]
            if file.suffix not in ('.rt', '.antt') or file.relative_to(TOP).parts[2] not in ('src', 'specs', 'proofs'):
                continue
            own = words + ([enum] if path.startswith(f'crates/{crate}/') else [])
            stem = file.stem if file.stem != 'Answers' else file.parent.name
            if len(cases(file.read_text(), names, paths, own)) < part * len(names):
                continue
            if not any(re.search(rf'\b{crate}\b', row) and re.search(rf'\b{stem}\b', row) for row in rows):
                yield f'docs/CHANGING.md: {title}: no row names {file.relative_to(TOP)}'


def main():
    faults = [*links(), *readme(), *recipes()]
    for fault in faults:
        print(fault)
    print(f'pages: {len(faults)} faults')
    return 1 if faults else 0


if __name__ == '__main__':
    sys.exit(main())
