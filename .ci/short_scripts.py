"""Runs scripts of one application that makes a pipe, subscribes, sends once and receives once, with names, ids, sizes and
fills varied, and compares each report with the model's.

    short_scripts.py MODEL COUNT
"""
import random
import subprocess
import sys
from concurrent.futures import ThreadPoolExecutor

sys.dont_write_bytecode = True  # nothing is left beside the scripts

from model_answers import STAGE

NAME_BYTES = "ABCDEFGHIJKLMNOPQRSTUVWXYZabcdefghijklmnopqrstuvwxyz0123456789_"


def name(pick, most):
    return "".join(pick.choice(NAME_BYTES) for _ in range(pick.randint(1, most)))


def script(pick):
    message_id = pick.choice([1, 0x0801, 0x1880, 0x1FFF, pick.randint(1, 0x1FFF)])
    size = pick.choice([7, 8, 32768, pick.randint(7, 300), pick.randint(7, 32768)])
    return (
        f"app {name(pick, 19)}\n"
        f"create p0 4 {name(pick, 19)}\n"
        f"sub 0x{message_id:04x} p0\n"
        f"send 0x{message_id:04x} {size} {pick.choice([0, 255, pick.randint(0, 255)])}\n"
        "recv p0\n"
    ).encode()


def printed(words, text):
    run = subprocess.run(words + ["lockstep"], input=text, capture_output=True)
    return run.returncode, run.stdout, run.stderr


def main():
    model, count = sys.argv[1], int(sys.argv[2])
    texts = [script(random.Random(seed)) for seed in range(count)]
    by_model = lambda text: printed([sys.executable, model, "--stage", STAGE], text)
    with ThreadPoolExecutor() as pool:
        same = pool.map(lambda text: printed(["crates/host_run/out/host_run"], text) == by_model(text), texts)
        for seed, is_same in enumerate(same):
            if not is_same:
                print(f"script {seed} prints something else than the model:\n{texts[seed].decode()}")
                return 1
    return 0


sys.exit(main())
