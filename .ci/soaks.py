"""Runs the generated scripts of COUNT numbers by the built program, from FIRST on (0, where it isn't given) and some that are
large, compares what each leaves with the model's answer, and tells how long a number took.

    soaks.py MODEL COUNT [FIRST]

The program is crates/host_run/out/host_run; another one is named by PROGRAM in the environment.
"""
import os
import random
import subprocess
import sys
import time
from pathlib import Path

sys.dont_write_bytecode = True  # nothing is left beside the scripts

from model_answers import STAGE, model_of

PROGRAM = os.environ.get("PROGRAM", Path(__file__).resolve().parent.parent / "crates/host_run/out/host_run")
# The greatest number, the first whose script is that of a smaller one, and the last whose script is new.
LARGE = [4294967295, 2147483648, 2147483647]


def numbers(count, first):
    """Half of the numbers follow each other, the rest are from anywhere."""
    near = list(range(first, first + (count + 1) // 2))
    anywhere = random.Random(first)
    return (near + LARGE + [anywhere.randrange(1 << 32) for _ in range(count)])[:count]


def soaked(number):
    """What the program answers, and the seconds that it took."""
    began = time.monotonic()
    run = subprocess.run([PROGRAM, "soak", str(number)], stdin=subprocess.DEVNULL, capture_output=True)
    return (run.returncode, run.stdout, run.stderr), time.monotonic() - began


def main(path, count, first="0"):
    model = model_of(path)
    stage = model.stage_number(STAGE)
    wrong, times = 0, []
    for number in numbers(int(count), int(first)):
        answer, seconds = soaked(number)
        times.append(seconds)
        if answer != (*model.serve(["soak", str(number)], stage), b""):
            print(f"soak {number}: another answer than the model's: {answer[0]}, {answer[1][:200]!r}, {answer[2][:200]!r}")
            wrong += 1
    times.sort()
    told = f"{1000 * sum(times) / len(times):.2f} ms each, {1000 * times[0]:.2f} to {1000 * times[-1]:.2f}"
    print(f"soak: {len(times)} numbers, {wrong or 'no'} differences, {told}")
    return 1 if wrong else 0


if __name__ == "__main__":
    if len(sys.argv) not in (3, 4):
        sys.exit(__doc__)
    sys.exit(main(*sys.argv[1:]))
