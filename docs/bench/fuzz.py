#!/usr/bin/env python3
"""Feeds the program inputs that are made from the scripts of corpus/ by changing, dropping, doubling
and exchanging bytes, words and lines, and some of bytes of all kinds; and looks at what it answers.

    python3 docs/bench/fuzz.py [--model FILE] [--first N] [--count N] [--seconds N] [--memcheck N] [--threads N]
    python3 docs/bench/fuzz.py --show N

With the file of the executable model each answer must be the model's: the same status, and the same
fault line or report. Without it the program must end within a second of the processor, either with
status 0 and a whole report or with status 3 and a fault line. One input in so many (--memcheck; 0: none)
is run under valgrind too, and one in so many (--threads; 0: none) on threads: a fault must be the same
there, and a report whole and, with the model, one that its checker holds for legal. Inputs are numbered,
and a number makes the same input each time: --show writes it to standard output. The program is the built
one, crates/host_run/out/host_run, or PROGRAM's.
"""
import argparse
import collections
import os
import random
import re
import resource
import signal
import subprocess
import sys
import time
from pathlib import Path

sys.dont_write_bytecode = True  # nothing is left beside the scripts

TOP = Path(__file__).resolve().parent.parent.parent
sys.path.insert(0, str(TOP / ".ci"))

from corpus_text import cases_of, files
from model_answers import STAGE, model_of

PROGRAM = os.environ.get("PROGRAM", str(TOP / "crates/host_run/out/host_run"))
# Scripts of more bytes are left alone, so that most of the time isn't spent on a few.
LONGEST_SCRIPT = 12000
MOST_CHANGES = 8
# Of the processor: other work may keep a run waiting.
SECONDS_OF_A_RUN = 1
SECONDS_UNDER_VALGRIND = 120
SECONDS_BY_THE_CLOCK = 600
MEMORY_FAULT = 99
A_FAULT = re.compile(rb"script:\d+:[A-Za-z]+\n")
# Numbers at the edges of ranges, and words that are right in some places and wrong in others.
EDGES = [b"0", b"1", b"2", b"7", b"8", b"15", b"16", b"63", b"64", b"65", b"255", b"256", b"1024",
         b"1025", b"16384", b"65535", b"65536", b"65542", b"65543", b"1000000", b"1000001", b"16777216",
         b"4294967295", b"4294967296", b"0x0", b"0xffffffff", b"0x1880", b"00", b"-", b"-1", b"+1", b"p0",
         b"p63", b"p64", b"b0", b"q7", b"q8", b"m63", b"t0", b"t63", b"t64", b"inc", b"keep", b"global",
         b"local", b"fill:1:0", b"fill:65536:255", b"fill:0:0", b"0:0:255", b"1:2:1", b"ff", b"fff", b"#", b""]
KINDS = [rb"0x[0-9a-fA-F]{1,8}", rb"\d+", rb"[pbqmt]\d+", rb"fill:\d+:\d+", rb"\d+:\d+:\d+", rb"\d+:\w+", rb"[a-z]+"]


def scripts():
    """The scripts of the corpus that aren't too long."""
    found = [case.script for path in files() for case in cases_of(path)[1] if case.words in (["lockstep"], ["run"])]
    return [script for script in found if 0 < len(script) <= LONGEST_SCRIPT]


def kind_of(word):
    return next((at for at, form in enumerate(KINDS) if re.fullmatch(form, word)), None)


class Maker:
    """Makes the input of a number."""

    def __init__(self, known):
        self.known = known
        self.words = collections.defaultdict(list)
        for script in known:
            for word in set(script.split()):
                self.words[kind_of(word)].append(word)

    def input_of(self, number):
        self.r = random.Random(number)
        if self.r.random() < 0.02:
            return self.noise()
        text = self.r.choice(self.known)
        steps = [self.changed_bytes, self.changed_words, self.changed_words, self.changed_lines, self.changed_lines, self.mixed]
        # Most inputs are changed by words and lines alone: these stay scripts more often.
        steps = steps if self.r.random() < 0.4 else steps[1:]
        for _ in range(self.r.randint(1, MOST_CHANGES)):
            text = self.r.choice(steps)(text)
        return text

    def noise(self):
        size = self.r.choice((1, 3, 30, 300, 3000))
        bytes_of = (range(256), range(32, 127), b"\n\r\t #apsendtloadregv0123456789:-")
        return bytes(self.r.choice(self.r.choice(bytes_of)) for _ in range(size))

    def changed_bytes(self, text):
        at = self.r.randrange(len(text) + 1)
        end = min(len(text), at + self.r.choice((1, 1, 2, 5, 40)))
        other = bytes(self.r.randrange(256) for _ in range(self.r.choice((1, 1, 3))))
        part = self.r.choice((b"", other, text[at:end] * 2, text[at:end][::-1], b"\r\n", b"\t"))
        return text[:at] + part + text[end:]

    def changed_words(self, text):
        """One word changed, dropped, doubled or exchanged with another; blanks stay."""
        parts = re.split(rb"(\s+)", text)
        places = [at for at, part in enumerate(parts) if part and not part.isspace()]
        if not places:
            return text
        at, other = self.r.choice(places), self.r.choice(places)
        choice = self.r.random()
        if choice < 0.55:
            parts[at] = self.r.choice(self.words[kind_of(parts[at])] or EDGES)
        elif choice < 0.75:
            parts[at] = self.r.choice(EDGES)
        elif choice < 0.85:
            parts[at], parts[other] = parts[other], parts[at]
        elif choice < 0.93:
            parts[at] += b" " + parts[at]
        else:
            parts[at] = b""
        return b"".join(parts)

    def changed_lines(self, text):
        """A run of lines dropped, doubled many times, moved, or put in from another script."""
        lines = text.splitlines(keepends=True)
        if not lines:
            return text
        at = self.r.randrange(len(lines))
        end = at + self.r.choice((1, 1, 2, 4))
        part, rest = lines[at:end], lines[:at] + lines[end:]
        to = self.r.randrange(len(rest) + 1)
        choice = self.r.random()
        if choice < 0.25:
            part = []
        elif choice < 0.5:
            part = part * self.r.choice((2, 2, 3, 20, 300))
            to = at
        elif choice < 0.75:
            others = self.r.choice(self.known).splitlines(keepends=True)
            first = self.r.randrange(len(others))
            part = part + others[first : first + self.r.choice((1, 2, 5))]
        return b"".join(rest[:to] + part + rest[to:])

    def mixed(self, text):
        """The applications of another script behind this one's, the longer names apart."""
        other = re.search(rb"(?ms)^app .*", self.r.choice(self.known))
        if not other:
            return text
        behind = re.sub(rb"(?m)^app (\w{1,17})", lambda it: b"app " + it[1] + b"%d" % self.r.randrange(90), other[0])
        return text + (b"" if text.endswith(b"\n") else b"\n") + behind


def answered(text, seconds, under=(), word="lockstep"):
    """The status and what is written; no status where it doesn't end, and one below 0 where a signal ended it."""
    limit = lambda: resource.setrlimit(resource.RLIMIT_CPU, (seconds, seconds))
    try:
        run = subprocess.run([*under, PROGRAM, word], input=text, capture_output=True, timeout=SECONDS_BY_THE_CLOCK, preexec_fn=limit)
    except subprocess.TimeoutExpired:
        return None, b"", b""
    return run.returncode, run.stdout, run.stderr


def form_of(status, written):
    """What is wrong with an answer's form; nothing where it is an answer."""
    if status == 0:
        return None if written.startswith(b"fsw 1\nbus\n") and written.endswith(b"\nend\n") else "no whole report"
    if status == 3:
        return None if A_FAULT.fullmatch(written) else "no fault line"
    if status in (-signal.SIGXCPU, -signal.SIGKILL):
        return "no end within the time of the processor, or killed from outside"
    return "no end" if status is None else f"signal {-status}" if status < 0 else f"status {status}"


class Tally:
    """What was tried, and what was found."""

    def __init__(self, model):
        self.model, self.counts, self.findings = model, collections.Counter(), []

    def try_input(self, number, text, is_checked, is_on_threads):
        status, written, said = answered(text, SECONDS_OF_A_RUN)
        wrong = form_of(status, written) or (said and "something on standard error")
        if not wrong and self.model:
            self.model.INPUT = text
            if self.model.serve(["lockstep"], self.model.stage_number(STAGE)) != (status, written):
                wrong = "another answer than the model's"
        if is_checked and not wrong:
            valgrind = ["valgrind", "-q", f"--error-exitcode={MEMORY_FAULT}"]
            if answered(text, SECONDS_UNDER_VALGRIND, valgrind)[:2] != (status, written):
                wrong = "another end under valgrind"
            self.counts["under valgrind"] += 1
        if is_on_threads and not wrong:
            wrong = self.fault_on_threads(text, status, written)
            self.counts["on threads"] += 1
        self.counts["inputs"] += 1
        self.counts["reports" if status == 0 else written.decode(errors="replace").strip().rpartition(":")[2]] += 1
        if wrong:
            self.findings.append(f"input {number}: {wrong}")
            print(self.findings[-1], flush=True)

    def fault_on_threads(self, text, status, written):
        """What is wrong with the answer on threads to an input with this answer in rotation."""
        told, report, said = answered(text, SECONDS_OF_A_RUN, word="run")
        wrong = form_of(told, report) or (said and "something on standard error")
        if wrong or told != status:
            return f"on threads: {wrong or 'another status'}"
        if status:
            return None if report == written else "on threads: another fault"
        illegal = self.model and self.model.check(self.model.read_script(text), report)
        return illegal and "on threads: line %d of the report: %s" % illegal


def main():
    words = argparse.ArgumentParser(description=__doc__, formatter_class=argparse.RawDescriptionHelpFormatter)
    words.add_argument("--model")
    for name, value in (("first", 0), ("count", 1 << 40), ("seconds", 60), ("memcheck", 200), ("threads", 4), ("show", None)):
        words.add_argument(f"--{name}", type=int, default=value)
    given = words.parse_args()
    maker = Maker(scripts())
    if given.show is not None:
        sys.stdout.buffer.write(maker.input_of(given.show))
        return 0
    tally = Tally(model_of(given.model) if given.model else None)
    end, number = time.monotonic() + given.seconds, given.first
    while number < given.first + given.count and time.monotonic() < end:
        is_checked = given.memcheck and number % given.memcheck == 0
        is_on_threads = given.threads and number % given.threads == 0
        tally.try_input(number, maker.input_of(number), is_checked, is_on_threads)
        number += 1
    print(", ".join(f"{count} {name}" for name, count in tally.counts.most_common()))
    print(f"inputs {given.first} to {number - 1}, {len(tally.findings)} findings")
    return 1 if tally.findings else 0


if __name__ == "__main__":
    sys.exit(main())
