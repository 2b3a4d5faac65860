#!/usr/bin/env python3
"""Runs scripts in rotation and on threads, in turn, and tells what each way took.

    python3 docs/bench/ways.py [--times N] NAME|FILE ..

A script is one of scripts.py beside this file, by its name, or a file. The program is the built one,
crates/host_run/out/host_run, or PROGRAM's. It has one heap for all threads, as ./fsw runs it; with
MALLOC_ARENA_MAX=0 in the environment it has as many as glibc makes. Its report goes to /dev/null. Of N runs
each (9, where it isn't given) the one with the middle time is told: time by the clock, processor time of the
program and of the system for it, how often a thread gave the processor up by itself, and was made to, and
what was resident at most.
"""
import argparse
import os
import subprocess
import sys
import tempfile
import time
from pathlib import Path

HERE = Path(__file__).resolve().parent
PROGRAM = os.environ.get("PROGRAM", str(HERE.parent.parent / "crates/host_run/out/host_run"))
os.environ.setdefault("MALLOC_ARENA_MAX", "1")


def taken(word, script):
    """What a run of this script took: seconds, and the system's figures."""
    with open(script, "rb") as source:
        began = time.monotonic()
        process = subprocess.Popen([PROGRAM, word], stdin=source, stdout=subprocess.DEVNULL)
        _, status, figures = os.wait4(process.pid, 0)
        if status:
            sys.exit(f"{script}, {word}: status {status}")
        return time.monotonic() - began, figures


def resident(word, script):
    """What was resident at most, in kB, by GNU time; of a child of this process Python itself would count."""
    with open(script, "rb") as source:
        run = subprocess.run(["/usr/bin/time", "-f", "%M", PROGRAM, word], stdin=source, stdout=subprocess.DEVNULL, stderr=subprocess.PIPE)
    return run.stderr.decode().strip()


def told(name, word, runs, script):
    seconds, figures = sorted(runs, key=lambda run: run[0])[len(runs) // 2]
    times = f"{1000 * seconds:.1f} ms, processor {1000 * figures.ru_utime:.1f} ms and {1000 * figures.ru_stime:.1f} ms of the system"
    return f"{name}, {word}: {times}, {figures.ru_nvcsw} and {figures.ru_nivcsw} switches, {resident(word, script)} kB"


def main():
    words = argparse.ArgumentParser(description=__doc__, formatter_class=argparse.RawDescriptionHelpFormatter)
    words.add_argument("--times", type=int, default=9)
    words.add_argument("script", nargs="+")
    given = words.parse_args()
    with tempfile.TemporaryDirectory() as folder:
        for name in given.script:
            script = Path(name)
            if not script.exists():
                script = Path(folder, name)
                script.write_bytes(subprocess.run([sys.executable, HERE / "scripts.py", name], stdout=subprocess.PIPE, check=True).stdout)
            runs = {"lockstep": [], "run": []}
            for _ in range(given.times):
                for word in runs:
                    runs[word].append(taken(word, script))
            for word in runs:
                print(told(name, word, runs[word], script), flush=True)


if __name__ == "__main__":
    main()
