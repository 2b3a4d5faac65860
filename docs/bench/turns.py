#!/usr/bin/env python3
"""Times rounds by ports: of one application alone, and of two and of four at once, each on a thread of its own.

    python3 docs/bench/turns.py [--times N] [NAME=PROGRAM ..]

It prints the microseconds in which each application makes a round, by the clock, and what one round by each takes of all
processors: of plain_bus, which is compiled here, of cost_port as measured.py built it in /tmp/measured, and of further programs that take the same words, such as cost_port over another lock. They run in turn. Of N
runs each (9, where it isn't given) the least counts, that of a longer run less that of a shorter one; by the clock the middle one
too. A program that doesn't know so many applications has no figure there.
"""
import argparse
import os
import re
import subprocess
import tempfile
import time
from pathlib import Path
from statistics import median

HERE = Path(__file__).resolve().parent
COST_PORT = Path("/tmp/measured/crates/cost_port/out/cost_port")

# The pipes of each word, and the rounds of its shorter and of its longer run.
WORDS = {"port1": (1, 10000, 210000), "port16": (16, 1000, 21000)}
APPS = (1, 2, 4)


def taken(program, word, rounds, apps):
    """The seconds of one run, by the clock and of processors; None where it wasn't by so many applications."""
    pipes = WORDS[word][0]
    began = time.monotonic()
    process = subprocess.Popen([program, word, str(rounds), str(apps)], stdout=subprocess.PIPE, text=True)
    told = process.stdout.read()
    _, status, figures = os.wait4(process.pid, 0)
    received = re.search(r"received=(\d+)", told)
    if status or not received or int(received[1]) != apps * rounds * pipes:
        return None
    return time.monotonic() - began, figures.ru_utime + figures.ru_stime


def figure(runs, rounds):
    """Microseconds a round, of what shorter and longer runs took: by the clock, the least and the middle, and of processors."""
    if None in runs["shorter"] + runs["longer"]:
        return "-"
    (clock, busy), (long_clock, long_busy) = zip(*runs["shorter"]), zip(*runs["longer"])
    taken_by = (min(long_clock) - min(clock), median(long_clock) - median(clock), min(long_busy) - min(busy))
    return "{:.2f} ({:.2f}), {:.2f}".format(*(it / rounds * 1e6 for it in taken_by))


def main():
    words = argparse.ArgumentParser(description=__doc__, formatter_class=argparse.RawDescriptionHelpFormatter)
    words.add_argument("--times", type=int, default=9)
    words.add_argument("program", nargs="*")
    given = words.parse_args()
    with tempfile.TemporaryDirectory() as room:
        plain_bus = Path(room, "plain_bus")
        subprocess.run(["cc", "-O2", "-pthread", "-o", plain_bus, HERE / "plain_bus.c"], check=True)
        programs = {"plain_bus": plain_bus, "cost_port": COST_PORT, **dict(it.split("=", 1) for it in given.program)}
        print("| Microseconds a round: by the clock, least (middle); of processors |", " | ".join(programs), "|")
        for word, (_, short, long) in WORDS.items():
            for apps in APPS:
                runs = {name: {"shorter": [], "longer": []} for name in programs}
                for _ in range(given.times):
                    for name, program in programs.items():
                        runs[name]["shorter"].append(taken(program, word, short, apps))
                        runs[name]["longer"].append(taken(program, word, long, apps))
                print(f"| `{word}`, {apps} at once |", " | ".join(figure(runs[name], long - short) for name in programs), "|", flush=True)


if __name__ == "__main__":
    main()
