"""Runs the program without a proof: by one that was compiled before and kept, if nothing has changed since, and else
compiled for this run. Its words are those given here.

`lockstep` with files runs each of them, and prints each report under the file's name if there are several. Standard
output is the program's, and so is the status if the program ended; of several scripts it is that of the first that
didn't end with 0. If a run didn't end, the status is 1, which the program never gives, and standard error says what to
do.
"""
import os
import signal
import subprocess
import sys

sys.dont_write_bytecode = True  # nothing is left beside the sources

import compiled
from faults import explain, name_of_input, tell_fault, warn
from kit import PROGRAM, TOO_LARGE, Case, stop_without_kit, tell, try_cases

# More than the longest plan of `bridge`, so that a longer one is refused as such, and an endless one too; and more than the
# longest input of `check`.
MOST_INPUT = 3 << 20
MOST_CHECKED = 34 << 20
# The status of the program if a script has a fault.
FAULTY = 3


def given_input(words):
    """Standard input to its end, or the most bytes of it that are taken; nothing of a terminal, and nothing where
    the program reads none."""
    reads = words in (["run"], ["lockstep"], ["check"], ["bridge"], ["image"]) or words[:1] == ["pack"]
    if not reads or sys.stdin is None or sys.stdin.isatty():
        return b""
    return sys.stdin.buffer.read(MOST_CHECKED if words == ["check"] else MOST_INPUT)


def why_unproved():
    return "the sources have changed since the build" if os.path.exists(PROGRAM) else "nothing is built yet"


def tell_what_runs(count):
    runs = "this run is" if count == 1 else f"these {count} runs are"
    takes = "takes" if count == 1 else "take"
    what = f"{runs} compiled and not proved, which {takes} a minute or two, and at once from then on"
    tell(f"{why_unproved()}: {what}; ./fsw build makes the proved program")


class Run:
    """A run to be made: its words and its standard input, the input's name, and the line above its report, if there is one."""

    def __init__(self, words, text, name, head=""):
        self.words, self.text, self.name, self.head = words, text, name, head

    def show(self, output, status):
        if self.head:
            print(self.head, flush=True)
        sys.stdout.buffer.write(output)
        sys.stdout.flush()
        if self.takes_script() and status == FAULTY:
            tell_fault(self.text, output, self.name)
        self.warn(status)

    def takes_script(self):
        return self.words[0] in ("run", "lockstep", "bridge")

    def warn(self, status):
        if status == 0 and self.words[0] in ("run", "lockstep"):
            warn(self.text, self.name)


def run_by(program, runs):
    """Makes these runs by a program that was kept; the first status that isn't 0."""
    status = 0
    for run in runs:
        if run.head:
            print(run.head, flush=True)
        ended = subprocess.run([program, *run.words], input=run.text).returncode
        if run.takes_script() and ended == FAULTY:
            explain(program, run.words[0], run.text, run.name)
        run.warn(ended)
        status = status or (ended if ended >= 0 else 128 - ended)
    return status


def status_of(run, answer):
    """Shows the answer of a run that was compiled for it, and gives the status."""
    if answer.status is not None:
        run.show(answer.output, answer.status)
        return answer.status
    if answer.rt_status in (-signal.SIGINT, 128 + signal.SIGINT):
        return 128 + signal.SIGINT
    if TOO_LARGE in answer.said:
        tell("the report has more than 1 MiB, for which the proved program is needed: ./fsw build")
        return 1
    print(answer.said, file=sys.stderr)
    tell("the program could not be compiled, or did not end: the lines above say why")
    return 1


def run_unkept(runs):
    """Makes these runs over one more compilation, since none could be kept; the first status that isn't 0."""
    answers, said = try_cases([Case(run.words, run.text) for run in runs])
    if answers is None:
        print(said, file=sys.stderr)
        tell("the program could not be compiled: the lines above say why")
        return 1
    status = 0
    for run, (ended, output) in zip(runs, answers):
        run.show(output, ended)
        if ended is None:
            tell(f"{run.name}: it did not end, or its report has more than 1 MiB: take the proved program, by ./fsw build")
        status = status or (1 if ended is None else ended)
    return status


def run_all(runs):
    """Makes these runs, which are all of one word; the first status that isn't 0."""
    form, answer = compiled.form_of(runs[0].words), None
    with compiled.alone():
        program = compiled.current(form)
        if not program:
            tell_what_runs(len(runs))
            answer = compiled.compile_and_run(form, runs[0].words, runs[0].text)
            program = compiled.current(form)
    if answer is None or (program and answer.status is None and TOO_LARGE in answer.said):
        return run_by(program, runs)
    status, rest = status_of(runs[0], answer), runs[1:]
    if answer.status is None or not rest:
        return status
    others = run_by(program, rest) if program else run_unkept(rest)
    return status or others


def runs_of(words):
    """The runs that these words ask for."""
    names = words[1:] if words[:1] == ["lockstep"] else []
    runs = []
    for name in names:
        with open(name, "rb") as file:
            runs.append(Run(["lockstep"], file.read(MOST_INPUT), name, f"== {name}" if len(names) > 1 else ""))
    return runs or [Run(words, given_input(words), name_of_input())]


def main(words):
    stop_without_kit()
    # rt ends itself at an interrupt, and removes what it made; told to end otherwise, this ends rt.
    signal.signal(signal.SIGINT, lambda *_: None)
    for number in (signal.SIGTERM, signal.SIGHUP):
        signal.signal(number, lambda number, _: sys.exit(128 + number))
    return run_all(runs_of(words))


if __name__ == "__main__":
    sys.exit(main(sys.argv[1:]))
