"""Tries all that can be tried without a proof: ./fsw test

The scripts of corpus/ and of examples/, each with the answer that is kept beside it, and the tests
of all crates. Nothing of it proves anything: `./fsw build` does. With `--proved` the scripts go to
the program that is built; otherwise they are run over one compilation, and the tests of all crates
over another beside it. With `--crates` the words behind are crates, and of the tests only theirs are
made.
"""
import os
import re
import subprocess
import sys
import time
from concurrent.futures import ThreadPoolExecutor
from pathlib import Path

sys.dont_write_bytecode = True  # nothing is left beside the sources

from kit import PROGRAM, TOP, Case, stop_without_kit, tell
from many import try_all

sys.path.insert(0, os.path.join(TOP, ".ci"))

from corpus_text import cases_of, files

# How many faults are told.
MOST_TOLD = 20


class Trial:
    """A script that is run, and how its answer is judged."""

    def __init__(self, name, words, script, fault):
        self.name, self.case, self.fault = name, Case(words, script), fault


def corpus_trials():
    for path in files():
        for case in cases_of(path)[1]:
            fault = lambda status, report, case=case: None if case.is_answer(status, report) else case.difference(status, report)
            yield Trial(f"{path.name}: {case.name}", case.words, case.script, fault)


def fault_of_example(status, report, wanted):
    """What is wrong with the report of an example, which is this one where `wanted` is given, and
    else any whole one."""
    if status != 0:
        return f"status {status}, wanted 0"
    if wanted is None:
        is_whole = re.match(rb"fsw [12]\nbus\n", report) and report.endswith(b"\nend\n")
        return None if is_whole else "no whole report"
    return None if report == wanted else "another report than the stored one"


def example_trials():
    """Each example in rotation, and on threads, where one application alone has a report that is
    always the same."""
    for path in sorted(Path(TOP, "examples").glob("*.fsw")):
        script, report = path.read_bytes(), path.with_suffix(".report").read_bytes()
        is_alone = len(re.findall(rb"(?m)^app ", script)) == 1
        for word in ("lockstep", "run"):
            wanted = report if word == "lockstep" or is_alone else None
            fault = lambda status, report, wanted=wanted: fault_of_example(status, report, wanted)
            yield Trial(f"examples/{path.name}, {word}", [word], script, fault)


def crates_with_tests():
    marked = lambda path: "#[test]" in path.read_text(encoding="utf-8")
    crates = sorted(Path(TOP, "crates").iterdir())
    return [crate.name for crate in crates if any(map(marked, crate.glob("src/**/*.rt")))]


class Progress:
    """Says how far it all is: in one line on a terminal, and else in a line for each part."""

    def __init__(self):
        self.began, self.is_terminal = time.monotonic(), sys.stderr.isatty()
        self.parts, self.wrong = {}, []

    def time(self):
        seconds = int(time.monotonic() - self.began)
        return f"{seconds // 60}:{seconds % 60:02}"

    def show(self, part, text):
        self.parts[part] = text
        if self.is_terminal:
            line = f"fsw: {self.time()}, {', '.join(self.parts.values())}"
            sys.stderr.write(f"\r\033[K{line[: os.get_terminal_size(2).columns - 1]}")
            sys.stderr.flush()

    def done(self, text):
        if self.is_terminal:
            sys.stderr.write("\r\033[K")
        tell(f"{self.time()}, {text}")


def answers_of_built(cases):
    """What the proved program answers; several runs at a time."""

    def answer(case):
        run = subprocess.run([PROGRAM, *case.words], input=case.text, capture_output=True, timeout=100)
        return run.returncode, run.stdout

    with ThreadPoolExecutor(os.cpu_count()) as pool:
        return list(pool.map(answer, cases))


def judge(progress, trials, answers):
    """Keeps what is wrong with the answers to these scripts."""
    faults = [(trial.name, trial.fault(*answer)) for trial, answer in zip(trials, answers)]
    progress.wrong += [f"{name}: {fault}" for name, fault in faults if fault]
    progress.done(f"{len(trials)} scripts of corpus/ and examples/ were run")


def try_compiled(progress, crates, trials):
    """Runs the tests of these crates and these scripts; how many tests passed."""
    if not crates and not trials:
        return 0
    begun = []

    def show(test):
        begun.append(test)
        progress.show("tests", f"test {len(begun)}, {test}")

    progress.show("tests", "compiling")
    outcome = try_all(crates, [trial.case for trial in trials], show)
    if not outcome.is_good:
        progress.wrong.append(f"tests of {' '.join(crates)}:\n{outcome.said}".rstrip())
    if trials and outcome.answers:
        judge(progress, trials, outcome.answers)
    progress.done(f"{outcome.passed or 0} tests of {len(crates)} crates passed")
    return outcome.passed or 0


def main(words):
    stop_without_kit()
    is_proved = words[:1] == ["--proved"]
    words = words[1:] if is_proved else words
    if words and words[0] != "--crates":
        tell("./fsw test takes no other words")
        return 2
    crates = words[1:] if words else crates_with_tests()
    trials = [*corpus_trials(), *example_trials()]
    program = "the proved program" if is_proved else "the program compiled without a proof"
    tell(f"{len(trials)} scripts on {program}, and the tests of {len(crates)} crates; five to seven minutes on four idle processors")
    progress = Progress()
    if is_proved:
        judge(progress, trials, answers_of_built([trial.case for trial in trials]))
    passed = try_compiled(progress, crates, [] if is_proved else trials)
    for line in progress.wrong[:MOST_TOLD]:
        tell(line)
    found = f"{len(progress.wrong)} wrong, of which the first stand above" if progress.wrong else "all as it should be"
    progress.done(f"{len(trials)} scripts and {passed} tests: {found}; nothing of it is a proof, ./fsw build proves")
    return 1 if progress.wrong else 0


if __name__ == "__main__":
    sys.exit(main(sys.argv[1:]))
