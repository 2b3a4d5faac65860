"""Asks the executable model what it answers to each case of a list, as the program rows_runs reads the list, and prints the
answers as that program does; with a third word compares them with the lines of that file.

    rows_runs.py MODEL LIST [ANSWERS]
"""
import re
import sys
from pathlib import Path

sys.dont_write_bytecode = True  # nothing is left beside the scripts

from corpus_text import cases_of
from model_answers import answer_by, model_of, print_or_compare

# Of a longer text the size and the sum are printed, as `add_text` of the program does it.
MOST_SHOWN = 4096


def sum_of(text):
    total = 0
    for byte in text:
        total = (31 * total + byte) % 2**32
    return total


def shown(status, text):
    if len(text) > MOST_SHOWN:
        return [f"-> {status}, {len(text)} bytes, sum {sum_of(text)}"]
    spelled = re.sub(rb"[^\n -\[\]-~]", lambda found: b"\\x%02x" % found[0][0], text).decode("ascii")
    *lines, last = spelled.split("\n")
    return [f"-> {status}", *(f"|{line}" for line in lines), *[f"|{last}\\"] * bool(last)]


def main():
    model = model_of(sys.argv[1])
    cases = cases_of(Path(sys.argv[2]))[1]
    answers = ([f"== {case.name}", *shown(*answer_by(model, case.words, case.script))] for case in cases)
    return print_or_compare([line for answer in answers for line in answer], *sys.argv[3:])


sys.exit(main())
