"""Runs the tests of crates, and many scripts, over one compilation each without a proof.

rt prepares the whole program anew for each run, which takes it longer than a script takes. So the
scripts go in groups to tests that stand beside those of the crates: each runs its group, several
scripts at a time, by the call that `main` makes. Where a group has no answer, each of its scripts is
run by the program itself.
"""
import json
import re
import subprocess
import tempfile
from concurrent.futures import ThreadPoolExecutor
from pathlib import Path

from gathered import lay_out
from kit import SECONDS, TOP, Case, tell, try_cases

NAME = "all_tests"
# What the tests that run groups of scripts use.
USES = ("host_serve", "script_words", "fsw_base")
# A group has at most so many scripts.
MOST_SCRIPTS = 64
# rt tells of each test in a line, of the end in another, and in a third how many passed.
TEST = re.compile(r"test (\S+) \.\.\. ")
RESULT = re.compile(r"^test result: \w+\. (\d+) passed; (\d+) failed", re.M)
# A test that runs the scripts of a group, whose file it reads, and writes their answers to another.
GROUP = """
#[test]
fn {name}(rt: HostRuntime) -> io::Result<()> {{
    let input = fs::read(&rt, {input})?;
    let output = answers(&rt, rt.alloc(), &input)?;
    fs::write(&rt, {output}, output.as_slice())
}}
"""


def groups_of(cases):
    """The scripts in groups, in order."""
    return [cases[at : at + MOST_SCRIPTS] for at in range(0, len(cases), MOST_SCRIPTS)]


def framed(group):
    """The input of the test that runs these scripts."""
    text = b""
    for case in group:
        head = [str(len(case.words)), *case.words, str(len(case.text))]
        text += "".join(f"{line}\n" for line in head).encode() + case.text
    return text


def answers_in(output, count):
    """The status and the report of each script of a group; None where it isn't all there."""
    answers = []
    while output:
        found = re.match(rb"(\d+) (\d+)\n", output)
        if not found:
            return None
        end = found.end() + int(found[2])
        answers.append((int(found[1]), output[found.end() : end]))
        output = output[end:]
    return answers if len(answers) == count else None


class Groups:
    """The files of groups of scripts in a folder, and the tests that run them."""

    def __init__(self, folder, cases):
        self.folder, self.groups = Path(folder), groups_of(cases)
        self.names = [f"scripts_{at:03}" for at in range(len(self.groups))]
        for name, group in zip(self.names, self.groups):
            self.file(name, "in").write_bytes(framed(group))

    def file(self, name, ending):
        return self.folder / f"{name}.{ending}"

    def program(self):
        """The text of the tests that run them."""
        if not self.groups:
            return ""
        text = Path(TOP, "tools", "many_scripts.main").read_text(encoding="utf-8")
        spelled = lambda name, ending: json.dumps(str(self.file(name, ending)))
        tests = [GROUP.format(name=it, input=spelled(it, "in"), output=spelled(it, "out")) for it in self.names]
        return "".join([text, *tests])

    def answers(self):
        """The answers of all scripts, of which those in groups without one are run by themselves."""
        written = [self.file(name, "out") for name in self.names]
        found = [answers_in(path.read_bytes() if path.exists() else b"", len(group)) for path, group in zip(written, self.groups)]
        lone = [case for group, answers in zip(self.groups, found) if answers is None for case in group]
        if lone:
            tell(f"{len(lone)} scripts are run one by one, since in one process they had no answer")
        runs = iter((try_cases(lone)[0] if lone else None) or [(None, b"")] * len(lone))
        return [answer for group, answers in zip(self.groups, found) for answer in answers or [next(runs) for _ in group]]


class Outcome:
    """How many tests of crates passed, the answers of the scripts, and whether a test failed; what
    rt said. No test was run where `passed` is None."""

    def __init__(self, runs, groups):
        found = [RESULT.search(said) for _, said in runs]
        self.said = "".join(said for _, said in runs)
        self.is_good = all(status == 0 and it and it[2] == "0" for (status, _), it in zip(runs, found))
        # Of the tests that ended well, those of groups are none of a crate.
        good = re.findall(r"^test (\S+) \.\.\. ok$", self.said, re.M)
        self.passed = len(set(good) - set(groups.names)) if any(found) else None
        self.answers = groups.answers() if groups.names and found[-1] else None


def run_tests(crates, groups, is_told):
    """Compiles the tests of these crates, and of these groups of scripts, as one crate, and runs
    them: the status, and what rt said."""
    said = []
    with tempfile.TemporaryDirectory(prefix="fsw-tests-") as folder:
        uses = USES if groups.names else ()
        how = dict(cwd=lay_out(folder, NAME, crates, groups.program(), uses), stdin=subprocess.DEVNULL)
        how.update(stdout=subprocess.PIPE, stderr=subprocess.STDOUT, text=True, errors="replace")
        with subprocess.Popen(["rt", "try", "--test", "--seconds", SECONDS], **how) as rt:
            for line in rt.stdout:
                said.append(line)
                found = TEST.match(line)
                if found:
                    is_told(found[1])
        return rt.returncode, "".join(said)


def try_all(crates, cases, is_told=lambda test: None):
    """Runs the tests of these crates and these scripts, each over one compilation and side by side,
    since rt compiles on one processor and runs tests one by one. `is_told` is called with each test
    that begins or ends."""
    with tempfile.TemporaryDirectory(prefix="fsw-scripts-") as scripts, ThreadPoolExecutor(2) as pool:
        groups = Groups(scripts, cases)
        parts = [(crates, Groups(scripts, []))] * bool(crates) + [([], groups)] * bool(cases)
        runs = list(pool.map(lambda part: run_tests(*part, is_told), parts))
        return Outcome(runs, groups)
