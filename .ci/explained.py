#!/usr/bin/env python3
"""Looks at how ./fsw explains faults of scripts, without running a script.

The forms of lines are those of the tables of docs/SCRIPT.md. No word of a script of corpus/ or examples/ that runs is at fault
by them. Each fault that corpus/ has, and each example of docs/SCRIPT.md, is explained with a mark under a word where it has one,
and by the right word in the rows below.
"""
import re
import sys
from pathlib import Path

sys.dont_write_bytecode = True  # nothing is left beside the scripts

TOP = Path(__file__).resolve().parent.parent
sys.path.insert(0, str(TOP / "tools"))

import faults
import forms
from corpus_text import cases_of, files
from script_examples import faults as page_faults

# Scripts with a fault, the column of the mark, and a piece of what is said.
ROWS = (
    (b"app A\nreceive p0\n", "2:UnknownWord", 1, "the nearest is recv"),
    (b"app A\nSend 1 8 0\n", "2:UnknownWord", 1, "small letters: send"),
    (b"app A\ntfile t0 00\n", "2:UnknownWord", 1, "script 2"),
    (b"app A\n\tcreate\tp0 x NAME\n", "2:BadWord", 12, "x is no number"),
    (b"app A\ncreate p0 4\n", "2:WrongCount", 13, "the line is create pN DEPTH NAME"),
    (b"app A\nrecv p0 p1\n", "2:WrongCount", 9, "too many"),
    (b"app A\r\nrecv p64\r\n", "2:BadWord", 6, "p63"),
    (b"app A\nsend 1 6 0", "2:OutOfRange", 8, "7 to 65542"),
    (b"app A\nsend 65536 7 x\n", "2:BadWord", 14, "x is no number"),
    (b"app A\nsend 01 7 0\n", "2:BadWord", 6, "doesn't begin with 0"),
    (b"app A\nsend 801h 7 0\n", "2:BadWord", 6, "begins with 0x"),
    (b"app A\nsub 1 p0 4 globl\n", "2:BadWord", 12, "global or local"),
    (b"app A\ntload t0 0 0x01\n", "2:BadWord", 12, "no 0x before"),
    (b"set pips 4\napp A\n", "1:BadWord", 5, "the nearest is pipes"),
    (b"set pipes 0\napp A\n", "1:OutOfRange", 11, "from 1 to 256"),
    (b"set pipes 4\nset pipes 4\n", "2:Repeated", 5, "line 1"),
    (b"app A\nset pipes 4\n", "2:Misplaced", 1, "before the first line app"),
    (b"recv p0\napp A\n", "1:Misplaced", 1, "line app NAME"),
    (b"\xef\xbb\xbfapp A\n", "1:BadByte", 1, "byte order mark"),
    ("app A\n".encode("utf-16"), "1:BadByte", 1, "UTF-16"),
    (b"app A\rrecv p0\r", "1:BadByte", 6, "carriage return"),
    ("# \u00e9\napp A\n".encode(), "1:BadByte", 3, "\u00e9"),
    (b"", "0:NoApp", 0, "the script is empty"),
    (b"# nothing\n", "0:NoApp", 0, "app NAME"),
)
# Scripts, and where they use a register that isn't set.
UNSET = (
    (b"app A\ncreate p0 4 A\nrecv p0\napp B\nrecv p0\n", ["5:6 p0 B"]),
    (b"app A\npget m0 q0 8\npput q0 m0\n", ["2:9 q0 A"]),
    (b"app A\ntreg t0 t1 8 0\ntload t0 0 00\nshow t1\n", ["4:6 t1 A"]),
    (b"app A\nevent 1 2 p0 p1\n# recv p0\n", []),
)


def differences_of_forms(page):
    """How the tables of the page differ from the table of forms."""
    rows = re.findall(r"(?m)^\| `([a-z]+)(?: ([^`]*))?` \|", page.split("\n## Order of lines\n")[1].split("\n## What a script may take")[0])
    on_page = {}
    for word, form in rows:
        on_page[word] = f"{on_page[word]} or {form}" if word in on_page else form
    known = {**forms.CONFIGURATION, **forms.CALLS}
    # The page has a form for each version.
    known.pop("script")
    for word in sorted({*known, *on_page}):
        if known.get(word) != on_page.get(word):
            yield f"the form of {word} is {known.get(word)!r}, on the page {on_page.get(word)!r}"
    limits = re.findall(r"(?m)^\| `(\w+)`, [^|]* \| \d+ \| (\d+) to (\d+) \|", page)
    if {name: (int(low), int(high)) for name, low, high in limits} != forms.LIMITS:
        yield "the limits have other ranges than on the page"


def words_at_fault(script):
    """Words of a script that runs, which the forms take for wrong."""
    for number, line in enumerate(script.decode("latin-1").split("\n"), 1):
        word, *given = line.split() or ["#"]
        form = {**forms.CONFIGURATION, **forms.CALLS}.get(word)
        if word.startswith("#"):
            continue
        places, least, most = forms.places_of(form)
        if not least <= len(given) <= most and word != "event":
            yield f"line {number}: {len(given)} words, wanted {least} to {most}"
        for place, text in zip(places, given):
            fault = forms.fault_of_word(word, place, text)
            if fault:
                yield f"line {number}: {text}: {fault}"


def fault_of_explanation(script, told):
    """What is wrong with how this fault is explained."""
    number, name = told.split(":")
    try:
        lines = faults.explained(script, int(number), name, "x")
    except Exception as error:
        return f"{type(error).__name__}: {error}"
    if name in faults.FINDERS and not any(re.fullmatch(r"\s+\| \s*\^+", line) for line in lines):
        return f"no mark: {lines}"
    return "no word is at fault" if "a word is outside its range" in lines[0] else None


def faults_of_corpus():
    for path in files():
        for case in cases_of(path)[1]:
            told = re.fullmatch(rb"script:(\d+:\w+)\n", case.report or b"")
            if told and case.words[:1] in (["run"], ["lockstep"], ["bridge"]):
                fault = fault_of_explanation(case.script, told[1].decode())
                if fault:
                    yield f"{path.name}: {case.name}: {fault}"
            elif case.report[:4] == b"fsw " and case.words[:1] in (["run"], ["lockstep"]):
                yield from (f"{path.name}: {case.name}: {it}" for it in words_at_fault(case.script))


def main():
    page = (TOP / "docs" / "SCRIPT.md").read_text()
    wrong = [*differences_of_forms(page), *faults_of_corpus()]
    for path in sorted(TOP.glob("examples/*.fsw")):
        wrong += [f"{path.name}: {it}" for it in words_at_fault(path.read_bytes())]
    for script, told in page_faults(page):
        fault = fault_of_explanation(script, told.strip().removeprefix("script:"))
        wrong += [f"{told.strip()} on the page: {fault}"] if fault else []
    for script, told, column, piece in ROWS:
        lines = faults.explained(script, int(told.split(":")[0]), told.split(":")[1], "x")
        place = f"x:{told.split(':')[0]}:{column}: " if column else "x: "
        if not lines[0].startswith(place) or not any(piece in line for line in lines):
            wrong.append(f"{script!r}: {lines}")
    for script, wanted in UNSET:
        found = [f"{number}:{column} {word} {app}" for number, column, word, app in faults.unset_registers(script)]
        wrong += [f"{script!r}: {found}, wanted {wanted}"] if found != wanted else []
    for line in wrong:
        print(f"explained: {line}")
    print(f"explained: forms, faults and registers of scripts, {len(wrong) or 'none'} otherwise than it should be")
    return 1 if wrong else 0


if __name__ == "__main__":
    sys.exit(main())
