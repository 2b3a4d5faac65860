#!/usr/bin/env python3
"""Checks docs/DEFINITIONS.md, and prints every definition that a public clause cites.

The page explains by hand the definitions that carry the model. An entry there is

    - `name`, `name` (`crate/specs/File.antt`): words

`--every` prints all others that a public clause cites, by crate and file, each with the first sentence of the comment above it, or
at the head of its file, if it has none of its own; `--every CRATE` those of one crate.

A public clause is a `requires` or `ensures` of a `pub fn`, or of a method of a public trait or of a trait's impl, and the
`Value` of an `impl Model`, of a library; programs have no callers. A name in it is resolved by the file's `ghost use` lines.

Without words the check fails if a cited definition has no comment, or if the page names what no file defines. `--mend` follows a
definition that moved to another file, and takes out a name that is defined nowhere; it prints what it took out, since that has to be
read.
"""
import re
import sys
from collections import defaultdict
from itertools import takewhile, zip_longest
from pathlib import Path

TOP = Path(__file__).resolve().parent.parent
PAGE = TOP / 'docs' / 'DEFINITIONS.md'
WORD = r"[^\W\d][\w'-]*|◌\S*◌|◌\S+"
HAND = re.compile(r'- ((?:`[^`]+`(?:, )?)+) \(`(\w+)/specs/([\w/]+)\.antt`\): (.*)$')
IMPORT = re.compile(r'ghost\s+use\s+Rattle\.([\w.]+?)\.\{([^}]*)\}\s*;')
FILE_ALIAS = re.compile(r'ghost\s+use\s+Rattle\.([\w.]+)\s+as\s+(\w+)\s*;')


def crates():
    return sorted(path.parent.name for path in TOP.glob('crates/*/src'))


def without_comments(text):
    """The text with comments and string contents blanked; every line keeps its length."""
    out = []
    at = 0
    while at < len(text):
        if text.startswith('//', at):
            end = text.find('\n', at)
            end = len(text) if end < 0 else end
            out.append(' ' * (end - at))
            at = end
        elif text[at] == '"':
            end = at + 1
            while end < len(text) and text[end] != '"':
                end += 2 if text[end] == '\\' else 1
            out.append('"' + re.sub(r'[^\n]', ' ', text[at + 1:end]) + '"')
            at = end + 1
        elif re.match(r"'(\\.[^']*|[^'\\])'", text[at:at + 12]):
            found = re.match(r"'(\\.[^']*|[^'\\])'", text[at:at + 12])
            out.append("'" + ' ' * (found.end() - 2) + "'")
            at += found.end()
        else:
            out.append(text[at])
            at += 1
    return ''.join(out)


def braced(text, at):
    """The place behind the bracket that closes the one at this place."""
    depth = 0
    for place in range(at, len(text)):
        if text[place] == '{':
            depth += 1
        elif text[place] == '}':
            depth -= 1
            if depth == 0:
                return place + 1
    return len(text)


CLAUSE = re.compile(r'\b(requires|ensures)(\*?)((?:\s+[\w\']+)*)\s*\{')


def clauses(text, begin):
    """The clauses of the function whose name ends at this place: where, kind and name, content."""
    at = begin
    while at < len(text):
        clause = CLAUSE.match(text, at)
        if clause:
            end = braced(text, clause.end() - 1)
            yield at, ' '.join([clause.group(1)] + clause.group(3).split()), text[clause.end():end - 1]
            at = end
        elif text[at] in '{;':
            return
        else:
            at += 1


def blocks(text):
    """The impl and trait blocks: begin, end, whether their functions are public without `pub`."""
    for block in re.finditer(r'^(\s*)((?:pub(?:\([^)]*\))?\s+)?(?:unsafe\s+)?(impl|trait)\b[^{;]*)\{', text, re.M):
        head = block.group(2)
        public = bool(re.match(r'pub\s+(unsafe\s+)?trait', head)) or bool(re.search(r'\bfor\b', head)) and 'impl' in head
        yield block.end() - 1, braced(text, block.end() - 1), public


def imports(text):
    """The names that the file's `ghost use` lines bring in: name, (crate, file, name there)."""
    names = {}
    for path, listed in IMPORT.findall(text):
        parts = path.split('.')
        if len(parts) < 3 or parts[1] != 'specs' or parts[2] in ('declared', 'contracts'):
            continue
        for item in listed.split(','):
            words = item.split(' as ')
            name = words[0].strip()
            if name:
                names[words[-1].strip()] = (parts[0], '/'.join(parts[2:]), name)
    return names


PASSED_ON = re.compile(r'^pub use Rattle\.(\w+)\.specs\.([\w.]+)\.\{([^}]*)\}', re.M)


def origin(crate, name, word):
    """Where a word is defined that a file of specs/ may only pass on, by a `pub use` line: crate, file, word."""
    path = TOP / 'crates' / crate / 'specs' / f'{name}.antt'
    if path.is_file():
        for other, where, listed in PASSED_ON.findall(path.read_text()):
            if word in [item.strip() for item in listed.split(',')]:
                return origin(other, where.replace('.', '/'), word)
    return crate, name, word


def cited(crate):
    """What the crate's public clauses cite: ((crate, file, name), where, function, clause)."""
    ours = set(crates())
    for path in sorted((TOP / 'crates' / crate / 'src').rglob('*.rt')):
        raw = path.read_text()
        text = without_comments(raw)
        names = {name: at for name, at in imports(text).items() if at[0] in ours}
        aliases = {alias: where.split('.') for where, alias in FILE_ALIAS.findall(text)}
        public_blocks = [(begin, end) for begin, end, public in blocks(text) if public]

        def uses(content, at, function, clause):
            line = text.count('\n', 0, at) + 1
            for word in re.finditer(r"(\w+)\.(" + WORD + ")", content):
                where = aliases.get(word.group(1))
                if where and where[0] in ours and where[1] == 'specs' and 'declared' not in where:
                    yield origin(where[0], '/'.join(where[2:]), word.group(2)), f'{path.relative_to(TOP)}:{line}', function, clause
            for word in re.finditer(r"(?<![\w'.])(" + WORD + ")", content):
                if word.group(1) in names:
                    yield origin(*names[word.group(1)]), f'{path.relative_to(TOP)}:{line}', function, clause

        for found in re.finditer(r'(pub\s+)?(?:const\s+)?(?:unsafe\s+)?\bfn\s+(\w+)', text):
            inside = any(begin < found.start() < end for begin, end in public_blocks)
            if not (found.group(1) or inside) or re.search(r'#\[test\]\s*$', text[:found.start()]):
                continue
            for at, clause, content in clauses(text, found.end()):
                yield from uses(content, at, found.group(2), clause)
        for found in re.finditer(r'\bghost\s+Value\s*=\s*\{', text):
            content = text[found.end():braced(text, found.end() - 1) - 1]
            yield from uses(content, found.start(), 'Model', 'Value')


def defined(crate, name):
    """The names that a file of specs/ defines."""
    path = TOP / 'crates' / crate / 'specs' / f'{name}.antt'
    if not path.is_file():
        return None
    return set(re.findall(r"^(?:\s*(?:abbrev |unfoldable )+pub |\s*pub (?:record |data )|pub )(" + WORD + ")", path.read_text(), re.M))


def type_of(crate, name, word):
    """The definition that a word belongs to: of a variant its data type, of any other word itself."""
    path = TOP / 'crates' / crate / 'specs' / f'{name}.antt'
    for data, variants in re.findall(r'^pub data (\w+)[^\n]*where\n((?:[ \t]+[^\n]*\n)*)', path.read_text() if path.is_file() else '', re.M):
        if re.search(rf'^\s+{re.escape(word)} :', variants, re.M):
            return crate, name, data
    return crate, name, word


def line_of(lines, word):
    """Where a definition begins, of these lines; None where they have none. One that stands by itself comes before a record's part."""
    for indent in ('', r'\s+'):
        begins = re.compile(rf"{indent}(?:abbrev |unfoldable )*pub\s+(?:record |data )?{re.escape(word)}(?=[\s:({{]|$)")
        for at, line in enumerate(lines):
            if begins.match(line):
                return at
    return None


def comment_on(crate, name, word):
    """The comment above a definition, or else the one at its file's head, in one line; None where there is neither."""
    lines = (TOP / 'crates' / crate / 'specs' / f'{name}.antt').read_text().splitlines()
    begin = at = line_of(lines, word)
    if at is None:
        return None
    while begin > 0 and lines[begin - 1].lstrip().startswith('--'):
        begin -= 1
    return sentence(lines[begin:at]) or sentence(list(takewhile(lambda one: one.startswith('--'), lines)))


def sentence(comment):
    """A comment's first sentence, in one line that begins small, as it goes on behind a colon."""
    text = re.split(r'(?<=\w\.) (?=[A-Z])', ' '.join(line.strip().strip('-').strip() for line in comment))[0]
    if text and not text[1:2].isupper():
        text = text[0].lower() + text[1:]
    return text and text.rstrip('.') + '.'


def places(word):
    """The files of definitions that define a word: crate, file."""
    for path in sorted(TOP.glob('crates/*/specs/**/*.antt')):
        crate, name = path.relative_to(TOP).parts[1], path.relative_to(TOP).with_suffix('').as_posix().split('/specs/')[1]
        if word in defined(crate, name):
            yield crate, name


def by_hand(lines):
    """The entries of the page: place in the page, names, crate, file, words."""
    for at, line in enumerate(lines):
        entry = HAND.match(line)
        if entry:
            yield at, re.findall(r'`([^`]+)`', entry[1]), entry[2], entry[3], entry[4]


def followed(lines):
    """The page, with definitions that moved where they are now, and without those that are gone; and what was taken out."""
    out, gone = list(lines), []
    for at, words, crate, name, told in by_hand(lines):
        lost = [word for word in words if word not in (defined(crate, name) or ())]
        if not lost:
            continue
        to = set.intersection(*(set(places(word)) for word in lost))
        if lost == words and len(to) == 1:
            (crate, name), lost = to.pop(), []
        gone += [f'`{word}` of crates/{crate}/specs/{name}.antt: {told}' for word in lost]
        kept = [word for word in words if word not in lost]
        out[at] = kept and '- ' + ', '.join(f'`{word}`' for word in kept) + f' (`{crate}/specs/{name}.antt`): {told}'
    return [line for line in out if line != []], gone


def layers():
    """The crates as crates.txt has them, below each heading the lowest first."""
    named = re.findall(r'^(\w+):', (TOP / 'crates.txt').read_text(), re.M)
    return [crate for crate in named if crate in crates()] + [crate for crate in crates() if crate not in named]


def every(needed, explained):
    """All other definitions, as lines by crate, and a fault for each without a comment."""
    files = defaultdict(lambda: defaultdict(list))
    for crate, name, word in needed:
        if (crate, name, word) not in explained:
            files[crate][name].append(word)
    out, faults = {}, []
    for crate in layers():
        part = out[crate] = []
        for name in sorted(files[crate]):
            part += ['', f'`specs/{name}.antt`', '']
            lines = (TOP / 'crates' / crate / 'specs' / f'{name}.antt').read_text().splitlines()
            named = defaultdict(list)
            for word in sorted(files[crate][name], key=lambda word: line_of(lines, word) or 0):
                comment = comment_on(crate, name, word)
                if not comment:
                    faults.append(f'crates/{crate}/specs/{name}.antt: {word}: no comment says what it is')
                named[comment].append(f'`{word}`')
            entries = [f'{", ".join(words)}: {comment}' for comment, words in named.items()]
            part += entries
    return out, faults


def main():
    lines = PAGE.read_text().splitlines()
    needed = {}
    for crate in crates():
        if (TOP / 'crates' / crate / 'src' / 'lib.rt').is_file():
            for at, where, function, clause in cited(crate):
                needed.setdefault(type_of(*at), (where, function, clause))
    faults = [f'{where}: {function}, {clause}: cites `{word}`, which crates/{crate}/specs/{name}.antt does not define'
              for (crate, name, word), (where, function, clause) in sorted(needed.items()) if word not in (defined(crate, name) or ())]
    needed = {at for at in needed if at[2] in (defined(at[0], at[1]) or ())}
    mended, gone = followed(lines)
    explained = {(crate, name, word) for _, words, crate, name, _ in by_hand(mended) for word in words}
    others, unexplained = every(needed, explained)
    faults += unexplained
    if sys.argv[1:2] == ['--every']:
        for crate in sys.argv[2:] or [crate for crate in others if others[crate]]:
            print('\n'.join([f'# {crate}'] + others.get(crate, []) + ['']))
        return 0
    if sys.argv[1:] == ['--mend']:
        PAGE.write_text('\n'.join(mended) + '\n')
        for entry in gone:
            print(f'taken out: {entry}')
    else:
        for at, (is_line, wanted) in enumerate(zip_longest(lines, mended), 1):
            if is_line != wanted:
                faults.append(f'docs/DEFINITIONS.md:{at}: names a definition that stands elsewhere or nowhere; .ci/definitions.py --mend mends it')
                break
    for fault in faults:
        print(fault)
    print(f'definitions: {len(needed)} are cited by public clauses, {len(explained)} are explained by hand, {len(faults)} faults')
    return 1 if faults else 0


if __name__ == '__main__':
    sys.exit(main())
