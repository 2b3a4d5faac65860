#!/usr/bin/env python3
"""Runs scripts with one request for memory refused, each request in turn: the program must then end
with the status of no memory and nothing written, or write the whole report.

    python3 docs/bench/refused_memory.py [--model FILE] SCRIPT|"run SCRIPT"|"gen N"|"soak N"|"run gen N" ..

The program is the built one, crates/host_run/out/host_run, or PROGRAM's; refuse_nth.c beside this file
refuses the request. A script is run in rotation, and on threads where `run` stands in front of it. On
threads the report of several applications is any that the executable model's checker holds for legal,
where its file is given, and else any that is whole. There each thread is refused too, one in each run and
then all: the report must be whole, since no answer tells of it; but where all are refused, a script whose
applications wait for later ones has no end. A line for each script says how many
requests it made and what came of refusing each.
"""
import os
import re
import subprocess
import sys
import tempfile

sys.dont_write_bytecode = True  # nothing is left beside the scripts

HERE = os.path.dirname(os.path.abspath(__file__))
PROGRAM = os.environ.get("PROGRAM", f"{HERE}/../../crates/host_run/out/host_run")
NO_MEMORY = 6
SECONDS = 60

sys.path.insert(0, f"{HERE}/../../.ci")

from model_answers import model_of


class Case:
    """A script with the words that run it, and the reports that a run of it may leave."""

    def __init__(self, name, model):
        self.name, self.model = name, model
        words = name.split()
        is_on_threads = words[0] == "run"
        words = words[is_on_threads:]
        if words[0] in ("gen", "soak"):
            self.words, self.script = words, b""
            if is_on_threads:
                self.script = subprocess.run([PROGRAM, *words], capture_output=True, check=True).stdout
        else:
            with open(words[0], "rb") as file:
                self.words, self.script = ["lockstep"], file.read()
        self.words = ["run"] if is_on_threads else self.words
        self.threads = len(re.findall(rb"(?m)^app ", self.script)) if is_on_threads else 0

    def run(self, library, number, told, threads=0):
        """The program's status and what it wrote, with this request refused (none: 0), and these threads,
        a bit for each; no status where it doesn't end."""
        refused = {"REFUSE": str(number), "THREADS": str(threads)}
        settings = {**os.environ, "LD_PRELOAD": library, "REQUESTS": told, **refused}
        given = dict(input=self.script, capture_output=True, env=settings, timeout=SECONDS)
        try:
            done = subprocess.run([PROGRAM, *self.words], **given)
        except subprocess.TimeoutExpired:
            return None, b""
        return done.returncode, done.stdout

    def is_report(self, answer, whole):
        """Whether this is an answer of a run to which nothing was refused; `whole` is one."""
        if self.threads < 2:
            return answer == whole
        status, written = answer
        is_whole = status == 0 and written.startswith(b"fsw 1\nbus\n") and written.endswith(b"\nend\n")
        return is_whole and not (self.model and self.model.check(self.model.read_script(self.script), written))


def tried(case, library, told):
    """What is wrong, a line each; and the counts of the script's runs."""
    whole = case.run(library, 0, told)
    with open(told) as file:
        requests = int(file.read())
    faults, none, done = [], 0, 0
    for number in range(1, requests + 1):
        status, written = case.run(library, number, told)
        if (status, written) == (NO_MEMORY, b""):
            none += 1
        elif case.is_report((status, written), whole):
            done += 1
        else:
            faults.append(f"{case.name}: request {number}: status {status}, {len(written)} bytes written")
    print(f"{case.name}: {requests} requests, {none} times no memory, {done} times the whole report", flush=True)
    return faults + tried_threads(case, library, told, whole)


def tried_threads(case, library, told, whole):
    """What is wrong where each thread is refused in turn, and then all are."""
    each = [1 << at for at in range(case.threads)]
    faults = []
    for threads in {*each, sum(each)} - {0}:
        answer = case.run(library, 0, told, threads)
        if answer[0] is None and threads not in each:
            print(f"{case.name}: with all threads refused it has no end: an application waits for a later one")
        elif not case.is_report(answer, whole):
            faults.append(f"{case.name}: threads {threads:b} refused: no whole report")
    return faults


def main(words):
    model = None
    if words[:1] == ["--model"]:
        model, words = model_of(words[1]), words[2:]
    with tempfile.TemporaryDirectory() as folder:
        library, told = f"{folder}/refuse_nth.so", f"{folder}/requests"
        subprocess.run(["cc", "-O2", "-shared", "-fPIC", "-o", library, f"{HERE}/refuse_nth.c", "-ldl"], check=True)
        faults = [fault for name in words for fault in tried(Case(name, model), library, told)]
    print("\n".join(faults) if faults else "no fault")
    return 1 if faults else 0


if __name__ == "__main__":
    sys.exit(main(sys.argv[1:]))
