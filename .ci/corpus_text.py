"""The form of the files of corpus/, as corpus/README.md gives it: read, and written."""
import hashlib
import itertools
import re
import shlex
from pathlib import Path

FOLDER = Path(__file__).resolve().parent.parent / "corpus"
ESCAPES = {b"\\": rb"\\", b"\t": rb"\t", b"\r": rb"\r"}
BYTES = {text: byte for byte, text in ESCAPES.items()}
# Reports with more bytes than this are kept by their sum.
LONGEST_REPORT = 60000


class Case:
    """A script with its name, the words of the command line, and what the program must answer."""

    def __init__(self, name, words=("lockstep",), notes=("",)):
        self.name, self.words, self.notes = name, list(words), list(notes)
        self.script, self.status, self.report, self.sum = b"", 0, b"", ""

    def answer_with(self, status, report):
        self.status, self.report, self.sum = status, report, ""
        if len(report) > LONGEST_REPORT:
            self.report, self.sum = b"", sum_of(report)

    def is_answer(self, status, report):
        is_same = sum_of(report) == self.sum if self.sum else report == self.report
        return status == self.status and is_same

    def size(self):
        """The size of the report in bytes."""
        return int(self.sum.partition(" ")[0]) if self.sum else len(self.report)

    def difference(self, status, report):
        """The first thing in which this isn't the answer of the case."""
        if status != self.status:
            return f"status {status}, wanted {self.status}"
        if self.sum:
            return f"another report, of {len(report)} bytes; wanted {self.sum}"
        lines, wanted = report.split(b"\n"), self.report.split(b"\n")
        at = 0
        while lines[at : at + 1] == wanted[at : at + 1]:
            at += 1
        return f"line {at + 1} of the report: {lines[at : at + 1]}, wanted {wanted[at : at + 1]}"

    def text(self):
        """The case as its file has it."""
        lines = [*self.notes, f"== {self.name}"]
        if self.words != ["lockstep"]:
            lines.append(f"$ {shlex.join(self.words)}".rstrip())
        lines += spelled(self.script)
        lines.append(f"-> {self.status}{f', {self.sum}' if self.sum else ''}")
        return "\n".join([*lines, *spelled(self.report)]) + "\n"


def sum_of(report):
    return f"{len(report)} bytes, sha256 {hashlib.sha256(report).hexdigest()}"


def spelled(text):
    """The lines that spell these bytes; lines that repeat are counted."""
    lines = text.split(b"\n")
    last = lines.pop()
    found = []
    for line, same in itertools.groupby(lines):
        count, text = len(list(same)), spelled_line(line)
        found += [f"{count}|{text}"] if count > 2 else [f"|{text}"] * count
    return found + [f"|{spelled_line(last)}\\"] * bool(last)


def spelled_line(line):
    """One line, in printable characters with no blank at its end; bytes that repeat are counted."""

    def spelling(found):
        if found[1]:
            return b"\\{%d:%c}" % (len(found[0]), found[1][0])
        return ESCAPES.get(found[0]) or b"\\x%02x" % found[0][0]

    # A run of one byte, a byte that can't be printed or is a backslash, and a blank at the end.
    return re.sub(rb"([ 0-9A-Za-z#!~])\1{31,}|[^ -\[\]-~]| $", spelling, line).decode("ascii")


def unspelled(line):
    """The bytes that a line of a file spells."""
    count, _, text = line.partition("|")
    is_open = len(re.search(r"\\*$", text)[0]) % 2 == 1

    def byte_or_bytes(found):
        if found[2]:
            return int(found[2]) * found[3]
        return BYTES.get(found[0]) or bytes([int(found[1][1:], 16)])

    escape = rb"\\(\\|t|r|x[0-9a-f]{2}|\{(\d+):([^\\}]*)\})"
    found = re.sub(escape, byte_or_bytes, text.encode("ascii")[: -1 if is_open else None])
    return int(count or 1) * (found + (b"" if is_open else b"\n"))


def cases_of(path):
    """The comment that a file begins with, and its cases."""
    head, notes, cases, part = [], [], [], None
    for number, line in enumerate(path.read_text(encoding="ascii").split("\n")[:-1], 1):
        if line.startswith("#") or not line:
            (notes if cases else head).append(line)
        elif line.startswith("== "):
            cases.append(Case(line[3:], notes=notes))
            notes, part = [], "script"
        elif line.startswith("$") and part == "script":
            cases[-1].words = shlex.split(line[1:])
        elif line.startswith("-> ") and part == "script":
            status, _, cases[-1].sum = line[3:].partition(", ")
            cases[-1].status, part = int(status), "report"
        elif re.match(r"\d*\|", line) and part:
            setattr(cases[-1], part, getattr(cases[-1], part) + unspelled(line))
        else:
            raise ValueError(f"{path}:{number}: no line of a corpus: {line[:60]}")
    return head, cases


def write_cases(path, head, cases):
    lines = [*(f"{line}\n" for line in head), *(case.text() for case in cases)]
    path.write_text("".join(lines), encoding="ascii")


def files():
    return sorted(FOLDER.glob("*.txt"))
