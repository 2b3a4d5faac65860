#!/usr/bin/env python3
"""Draws scripts of sixteen applications that all send to and wait for each other, and runs them on
threads: each run must end by itself within its time, and its report must be legal by the program's
word `check`, and by the executable model's checker where its file is given.

    python3 docs/bench/waiting.py SEED                    writes the script of a seed
    python3 docs/bench/waiting.py --count N [--model FILE] [--first SEED] [--times N] [--seconds N] [--keep FOLDER]

A seed makes the same script each time; the scripts of so many seeds (--count) are each run so many times
(--times; once, where it isn't given). The program is the built one, crates/host_run/out/host_run, or
PROGRAM's. What fails is named by its seed, and --keep keeps its script and its report. At the end stands
how many runs ended, how many different reports they left, how many of these are the rotation's, and how
long a run took.
"""
import argparse
import os
import random
import subprocess
import sys
import time
from pathlib import Path

sys.dont_write_bytecode = True  # nothing is left beside the scripts

TOP = Path(__file__).resolve().parent.parent.parent
sys.path.insert(0, str(TOP / ".ci"))

from judging import PROGRAM, fault_of
from model_answers import model_of

APPS = 16
FIRST_ID = 0x0801
# A run that is late is looked at so often, so many seconds apart.
MOST_LOOKS = 100
SECONDS_BETWEEN_LOOKS = 5


class Draw:
    """Draws the lines of each application of one script."""

    def __init__(self, seed, apps=APPS):
        self.r = random.Random(seed)
        self.apps = apps
        self.shape = self.r.choice(self.shapes())
        self.rounds = self.r.randint(1, 12)

    def shapes(self):
        return self.ring, self.pairs, self.everybody, self.mixed, self.mixed

    def script(self):
        depth = self.r.choice((1, 2, 16, 64))
        lines = [*self.limits(depth), *(line for app in range(self.apps) for line in self.application(app, depth))]
        return "\n".join(lines) + "\n"

    def limits(self, depth):
        # Memory that is small is opened fast, and may run out.
        return [f"set pool {self.r.choice((2048, 16384, 32768))}", "set tablepool 4096", "set tablemax 64"]

    def application(self, app, depth):
        yield f"app A{app + 1}"
        yield f"create p0 {depth} P{app + 1}"
        # Most are subscribed before they send; some subscribe later, or hear others too.
        yield f"sub 0x{FIRST_ID + app:04x} p0 {self.r.choice((1, 4, 16, 64))}"
        for _ in range(self.r.choice((0, 0, 1, 3))):
            yield f"sub 0x{self.id_of_any():04x} p0 16"
        yield from self.shape(app)

    def id_of_any(self):
        return FIRST_ID + self.r.randrange(APPS)

    def send(self, message_id):
        yield f"send 0x{message_id:04x} {self.r.choice((7, 8, 16, 60, 700))} {self.r.randrange(256)}"

    def ring(self, app):
        """Each waits for the one before it and sends to the next; the first one begins."""
        following = FIRST_ID + (app + 1) % self.apps
        for _ in range(self.rounds):
            if app == 0:
                yield from self.send(following)
            yield "pend p0"
            if app != 0:
                yield from self.send(following)

    def pairs(self, app):
        """Two and two send to each other, and each waits for the other's answer."""
        for _ in range(self.rounds):
            yield from self.send(FIRST_ID + (app ^ 1))
            yield "pend p0"

    def everybody(self, app):
        """Each sends to all others, and waits for as many messages."""
        for other in range(self.apps):
            if other != app:
                yield from self.send(FIRST_ID + other)
        for _ in range(self.apps - 1):
            yield "pend p0"

    def mixed(self, app):
        """Sends and waits in any order, with other calls of both services between them."""
        for _ in range(4 * self.rounds):
            choice = self.r.random()
            if choice < 0.4:
                yield from self.send(self.id_of_any())
            elif choice < 0.7:
                yield "pend p0"
            else:
                yield from self.other_lines(app)

    def other_lines(self, app):
        yield from self.r.choice((
            ("recv p0", "show p0"),
            ("alloc b0 24", f"form b0 0x{self.id_of_any():04x} 3", "xmit b0"),
            ("alloc b1 900", "put b1 6 0102", "release b1"),
            (f"treg t0 T{app % 4} 8 1", f"tshare t1 T{app % 4}", "tload t1 0 0102030405060708", "tget t1", "show t1", "trel t1"),
            ("hk", "stats"),
            ("evreg 1:1", "event 1 2 here", "logclear"),
            (f"create p1 2 Q{app}", f"sub 0x{self.id_of_any():04x} p1", "pend p1", "delete p1"),
            (f"unsub 0x{FIRST_ID + app:04x} p0", f"sub 0x{FIRST_ID + app:04x} p0 8"),
        ))


def script_of(seed):
    return Draw(seed).script().encode()


def how_it_goes(pid):
    """Whether all threads of a process sleep, and the processor time that they took so far."""
    stats = [Path(task, "stat").read_text().rpartition(")")[2].split() for task in Path(f"/proc/{pid}/task").iterdir()]
    return all(stat[0] == "S" for stat in stats), sum(int(stat[11]) + int(stat[12]) for stat in stats)


def answered(word, text, seconds):
    """How a run on threads ends, and what it writes; nothing where, after so many seconds, all its threads
    sleep and go on sleeping, or where it goes on for ever. Work beside it may hold it up for longer."""
    process = subprocess.Popen([PROGRAM, word], stdin=subprocess.PIPE, stdout=subprocess.PIPE, stderr=subprocess.PIPE)
    before, given = None, text
    for _ in range(MOST_LOOKS):
        try:
            report, said = process.communicate(given, timeout=seconds)
            return process.returncode, report, said
        except subprocess.TimeoutExpired:
            # What was given is kept by the first call.
            now, given = how_it_goes(process.pid), None
            if now[0] and now == before:
                break
            before, seconds = now, SECONDS_BETWEEN_LOOKS
    process.kill()
    process.communicate()
    return None


class Tally:
    """What was run, and what was found. Each kind has its word of the program, draws the texts that are run,
    and says what is wrong in a report and what the runs left."""

    def __init__(self, model, seconds, keep):
        self.model, self.seconds, self.keep = model, seconds, keep
        self.times, self.findings = [], 0

    def run_often(self, seed, times):
        text = self.text_of(seed)
        for _ in range(times):
            self.run(seed, text)

    def run(self, seed, text):
        began = time.monotonic()
        ended = answered(self.word, text, self.seconds)
        if not ended:
            self.find(seed, text, b"", "it sleeps for ever, or goes on without an end")
            return
        self.times.append(time.monotonic() - began)
        status, report, said = ended
        wrong = f"status {status}, {said[:200]!r}" if status or said else self.wrong_in(seed, text, report)
        if wrong:
            self.find(seed, text, report, wrong)

    def find(self, seed, text, report, wrong):
        self.findings += 1
        print(f"seed {seed}: {wrong}", flush=True)
        if self.keep:
            Path(self.keep).mkdir(parents=True, exist_ok=True)
            for ending, kept in zip(self.endings, (text, report)):
                Path(self.keep, f"{seed}.{ending}").write_bytes(kept)

    def told(self):
        times = sorted(self.times) or [0]
        middle, longest = times[len(times) // 2], times[-1]
        return f"{len(self.times)} runs ended with {self.left()}, {1000 * middle:.1f} ms in the middle, {1000 * longest:.1f} at most; {self.findings} findings"


class Scripts(Tally):
    """Scripts on threads, and how many of their reports are the rotation's."""

    word, endings, text_of = "run", ("fsw", "report"), staticmethod(script_of)

    def __init__(self, *given):
        super().__init__(*given)
        self.reports, self.rotations = set(), 0

    def run_often(self, seed, times):
        super().run_often(seed, times)
        rotation = subprocess.run([PROGRAM, "lockstep"], input=self.text_of(seed), capture_output=True).stdout
        self.rotations += hash((seed, rotation)) in self.reports

    def wrong_in(self, seed, text, report):
        self.reports.add(hash((seed, report)))
        return fault_of(text, report, self.model)

    def left(self):
        return f"{len(self.reports)} different reports, {self.rotations} of them the rotation's"


def main(doc, kind):
    """Does what the words of the command ask for, by a kind of tally."""
    words = argparse.ArgumentParser(description=doc, formatter_class=argparse.RawDescriptionHelpFormatter)
    words.add_argument("seed", nargs="?", type=int)
    words.add_argument("--model")
    words.add_argument("--keep")
    for name, value in (("count", 0), ("first", 0), ("times", 1), ("seconds", 30)):
        words.add_argument(f"--{name}", type=int, default=value)
    given = words.parse_args()
    if given.seed is not None:
        sys.stdout.buffer.write(kind.text_of(given.seed))
        return 0
    if not given.count:
        words.error("--count N, how many texts are drawn and run, or the seed of one")
    tally = kind(given.model and model_of(given.model), given.seconds, given.keep)
    for seed in range(given.first, given.first + given.count):
        tally.run_often(seed, given.times)
    print(tally.told())
    return 1 if tally.findings else 0


if __name__ == "__main__":
    sys.exit(main(__doc__, Scripts))
