"""The program compiled without a proof, kept until something that it is made from changes.

rt compiles a program for one run, and removes it behind the run. Meanwhile what it linked stands in its folder for
temporary files, and is taken from there. If no such file is seen, or if it doesn't run by itself, nothing is kept, and
the next run is compiled too.

Two programs are kept: one for the word `lockstep` alone, which is compiled in half of the time, and the whole one.
"""
import contextlib
import fcntl
import hashlib
import os
import re
import shutil
import stat
import subprocess
import sys
import tempfile
import threading
import time
from pathlib import Path

from build import crates_in_order
from gathered import lay_out_rotating, lay_out_whole
from kit import PROGRAM, SECONDS, TOP, tell

FOLDER = os.path.join(os.path.dirname(PROGRAM), "unproved")
LAY_OUTS = {"rotating": lay_out_rotating, "whole": lay_out_whole}
LOOK_EVERY = 0.03
# What every program answers to an empty script.
PROOF_OF_LIFE = (3, b"script:0:NoApp\n")


def form_of(words):
    """Which of the programs a run with these words takes, if none is compiled yet."""
    return "rotating" if words[:1] == ["lockstep"] else "whole"


def kept_path(form):
    return os.path.join(FOLDER, form)


def took_path(form):
    return os.path.join(FOLDER, f"{form}.took")


def digest_of_sources():
    """What both programs are made from, as one number."""
    whole = hashlib.sha256()
    folders = [Path(TOP, "crates", name, "src") for name in crates_in_order()]
    for path in sorted([Path(TOP, "crates.txt"), Path(TOP, "tools", "rotating.main"), *(it for folder in folders for it in folder.rglob("*.rt"))]):
        text = path.read_bytes()
        whole.update(f"{path.relative_to(TOP)} {len(text)}\n".encode() + text)
    return whole.hexdigest()


def current(form):
    """A kept program for runs that need this one, if one is made from the sources as they are."""
    for it in dict.fromkeys(["whole", form]):
        with contextlib.suppress(OSError):
            if Path(f"{kept_path(it)}.made_from").read_text().strip() == digest_of_sources():
                # The same text with a newer date, as git leaves it.
                os.utime(kept_path(it))
                return kept_path(it)
    return None


@contextlib.contextmanager
def alone():
    """Waits for others that compile here; goes on without that if no file can be made here."""
    try:
        os.makedirs(FOLDER, exist_ok=True)
        lock = open(os.path.join(FOLDER, "lock"), "ab")
    except OSError:
        yield False
        return
    with lock:
        try:
            fcntl.flock(lock, fcntl.LOCK_EX | fcntl.LOCK_NB)
        except BlockingIOError:
            tell("another ./fsw is compiling here: this one waits for it")
            fcntl.flock(lock, fcntl.LOCK_EX)
        for left in Path(FOLDER).glob("making-*"):
            shutil.rmtree(left, ignore_errors=True)
        yield True


class Clock:
    """A line on a terminal that says for how long the program is compiled, and how long it took the last time."""

    def __init__(self, form):
        self.began, self.shown, self.took = time.monotonic(), "", ""
        self.is_terminal = sys.stderr.isatty()
        with contextlib.suppress(OSError):
            self.took = f"; the last time it took {Path(took_path(form)).read_text().strip()}"

    def time(self):
        seconds = int(time.monotonic() - self.began)
        return f"{seconds // 60}:{seconds % 60:02}"

    def show(self):
        line = f"fsw: {self.time()}, compiling{self.took or '; it takes about a minute on an idle machine'}"
        if self.is_terminal and line != self.shown:
            self.shown = line
            print(f"\r\033[K{line}", end="", file=sys.stderr, flush=True)

    def end(self):
        if self.shown:
            print("\r\033[K", end="", file=sys.stderr, flush=True)


class Catch(threading.Thread):
    """Takes the program that is linked below a folder, as long as it stands there."""

    def __init__(self, folder, to, clock):
        super().__init__(daemon=True)
        self.folder, self.to, self.clock, self.seen, self.is_over = folder, to, clock, None, threading.Event()

    def run(self):
        while not self.is_over.wait(LOOK_EVERY):
            self.clock.show()
            with contextlib.suppress(OSError):
                self.look()
        self.clock.end()

    def look(self):
        for path, _, names in os.walk(self.folder):
            for name in names:
                file = os.path.join(path, name)
                found = os.lstat(file)
                if stat.S_ISREG(found.st_mode) and found.st_mode & stat.S_IXUSR and found.st_ino != self.seen:
                    with contextlib.suppress(FileNotFoundError):
                        os.remove(self.to)
                    os.link(file, self.to)
                    self.seen = found.st_ino

    def end(self):
        """Where the program is now, if there is one that runs."""
        self.is_over.set()
        self.join()
        try:
            run = subprocess.run([self.to, "lockstep"], stdin=subprocess.DEVNULL, capture_output=True, timeout=20)
        except (OSError, subprocess.TimeoutExpired):
            return None
        return self.to if (run.returncode, run.stdout) == PROOF_OF_LIFE else None


class Answer:
    """The status of a run, None if it didn't end; what it printed, and what rt said."""

    def __init__(self, rt_status, said, output):
        self.rt_status, self.output = rt_status, output
        self.said = said.decode(errors="replace").rstrip("\n")
        # The last line alone tells a status of the program from one of rt's own.
        ended = re.fullmatch(r"run=ended status=(\d+) .*proved=no", self.said.rpartition("\n")[2])
        self.status = int(ended[1]) if ended else None


def try_program(crate, words, text, folder=None):
    """Compiles the program that is laid out here, and makes this run; `folder` is for rt's files."""
    with tempfile.TemporaryFile() as script, tempfile.TemporaryFile() as output:
        script.write(text)
        script.seek(0)
        # One step of rt's interpreter, which else takes a while and says no more than the run behind it.
        command = ["rt", "try", "--steps", "1", "--seconds", SECONDS, "--", *words]
        how = dict(cwd=crate, stdin=script, stdout=output, stderr=subprocess.PIPE)
        if folder:
            how["env"] = dict(os.environ, TMPDIR=folder)
        with subprocess.Popen(command, **how) as rt:
            try:
                said = rt.communicate()[1]
            finally:
                if rt.poll() is None:
                    rt.terminate()
        output.seek(0)
        return Answer(rt.returncode, said, output.read())


def keep(form, program, digest, began, took):
    """Puts a program in its place, as old as the compilation's beginning, so that a change meanwhile counts as newer."""
    Path(took_path(form)).write_text(f"{took}\n")
    if digest == digest_of_sources():
        os.utime(program, (began, began))
        os.replace(program, kept_path(form))
        Path(f"{kept_path(form)}.made_from").write_text(f"{digest}\n")


def compile_and_run(form, words, text):
    """The answer of a run of this program, which is compiled for it and kept if it can be."""
    digest = digest_of_sources()
    with tempfile.TemporaryDirectory(prefix="fsw-program-") as sources:
        began = os.stat(sources).st_mtime
        crate = LAY_OUTS[form](sources)
        try:
            making = tempfile.TemporaryDirectory(prefix="making-", dir=FOLDER)
        except OSError:
            return try_program(crate, words, text)
        with making:
            files, caught = os.path.join(making.name, "rt"), os.path.join(making.name, "program")
            os.mkdir(files)
            clock = Clock(form)
            catch = Catch(files, caught, clock)
            catch.start()
            answer = try_program(crate, words, text, files)
            program = catch.end()
            if program:
                keep(form, program, digest, began, clock.time())
            return answer
