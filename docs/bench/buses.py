#!/usr/bin/env python3
"""Counts the instructions of a round of cost_bus and of cost_port, beside those of the bus by hand.

    python3 docs/bench/buses.py [bus|ports|full] ..

It prints the rows of the tables of docs/PERFORMANCE.md: of the core's words (bus), of a port's by one
application and by each of two and of four (ports), and what a send takes that is queued, and one that meets a full
pipe (full); all of them where no word is given. The counts are callgrind's, those of a longer run less
those of a shorter one, divided by the rounds between. The programs are those that measured.py
built in /tmp/measured, and BUS_COST's and PORT_COST's where these are given; plain_bus is compiled here.
"""
import os
import re
import subprocess
import sys
import tempfile
from pathlib import Path

HERE = Path(__file__).resolve().parent
CRATES = Path("/tmp/measured/crates")
BUS_COST = os.environ.get("BUS_COST", CRATES / "cost_bus/out/cost_bus")
PORT_COST = os.environ.get("PORT_COST", CRATES / "cost_port/out/cost_port")

# The rounds of the shorter and of the longer run of each word.
BUS_WORDS = {"send1": (1000, 11000), "fan16": (1000, 11000), "big": (100, 600), "fanbig": (100, 600), "zc": (1000, 11000), "table": (100, 600)}
PORT_WORDS = {"port1": (1000, 11000), "port16": (200, 1200)}
FULL_ROUNDS = {"queued": (100, 1000), "missed": (2000, 12000)}


def counted(program, word, rounds, *more):
    """The instructions of one run."""
    words = ["valgrind", "--tool=callgrind", "--callgrind-out-file=/dev/null", program, word, str(rounds), *more]
    run = subprocess.run(words, stdout=subprocess.DEVNULL, stderr=subprocess.PIPE, text=True)
    found = re.search(r"Collected : (\d+)", run.stderr)
    if run.returncode or not found:
        sys.exit(f"{program} {word} {rounds} didn't run to its end:\n{run.stderr}")
    return int(found[1])


def of_a_round(program, word, rounds, *more):
    """The instructions of a round."""
    shorter, longer = rounds
    return (counted(program, word, longer, *more) - counted(program, word, shorter, *more)) / (longer - shorter)


def tell(name, by_hand, proved):
    print(f"| {name} | {by_hand:,.0f} | {proved:,.0f} | {proved / by_hand:.2f} |", flush=True)


def tell_bus(plain_bus):
    for word, rounds in BUS_WORDS.items():
        tell(f"`{word}`", of_a_round(plain_bus, word, rounds), of_a_round(BUS_COST, word, rounds))


def tell_ports(plain_bus):
    for word, rounds in PORT_WORDS.items():
        tell(f"`{word}`, one application", of_a_round(plain_bus, word, rounds), of_a_round(PORT_COST, word, rounds))
        for apps, name in ((2, "two"), (4, "four")):
            by_each = [of_a_round(program, word, rounds, str(apps)) / apps for program in (plain_bus, PORT_COST)]
            tell(f"`{word}`, each of {name}, on threads", *by_each)


def tell_full():
    for name, rounds in FULL_ROUNDS.items():
        print(f"{name}: {of_a_round(BUS_COST, 'full', rounds):.0f} a send", flush=True)


def main():
    asked = sys.argv[1:] or ["bus", "ports", "full"]
    if not set(asked) <= {"bus", "ports", "full"}:
        sys.exit(__doc__)
    with tempfile.TemporaryDirectory() as room:
        plain_bus = Path(room, "plain_bus")
        subprocess.run(["cc", "-O2", "-pthread", "-o", plain_bus, HERE / "plain_bus.c"], check=True)
        if "bus" in asked:
            tell_bus(plain_bus)
        if "ports" in asked:
            tell_ports(plain_bus)
    if "full" in asked:
        tell_full()


if __name__ == "__main__":
    main()
