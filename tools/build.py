"""Proves the crates that the program is made of, several at a time, and builds it; then the library for C.

    build.py                     the program, and the library for x86-64
    build.py x86_64 | aarch64    the library for that processor, and no crate that it doesn't need

How far it is stands in one line on standard error, which is kept up to date on a terminal;
elsewhere there is a line for each crate. What the prover prints goes to a file. What is proved
stays, so a build that was interrupted goes on where it was.
"""
import contextlib
import fcntl
import os
import re
import shutil
import signal
import subprocess
import sys
import time

sys.dont_write_bytecode = True  # nothing is left beside the sources

from kit import CRATE, PROGRAM, TOP, stop_without_kit, tell

OUT = os.path.dirname(PROGRAM)
LOG = os.path.join(OUT, "build.log")
LIBRARY = os.path.join(TOP, "crates", "fsw_c")
# rt makes the library for each processor in the place of that for x86-64.
MADE = os.path.join(LIBRARY, "out", "libfsw_c.a")
TRIPLES = {"x86_64": "x86_64-unknown-linux-gnu", "aarch64": "aarch64-unknown-linux-gnu"}
BEGAN = os.path.join(OUT, "build.began")
# What a proof takes of memory, in bytes, with some room.
MEMORY = 3 << 30
EXPECTED = "from nothing it takes over 45 minutes on four processors"
PROVED = re.compile("logic=proved ")
NEXT = "./fsw lockstep < examples/first.fsw"
NEXT_FOR_LIBRARY = {"x86_64": "make -C c", "aarch64": "make -C c TARGET=aarch64-linux-gnu"}


def libraries():
    """The libraries that each crate uses, by crates.txt."""
    uses = {}
    with open(os.path.join(TOP, "crates.txt"), encoding="utf-8") as file:
        for line in file:
            names, colon, below = line.partition("#")[0].partition(":")
            if colon:
                uses[names.split()[0]] = below.split()
    return uses


def crates_in_order(top=os.path.basename(CRATE)):
    """The crates of the program, each with those below it, in the order in which rt takes them."""
    uses = libraries()

    def below(name):
        found = {}
        for library in uses[name]:
            if library in uses:
                found.update(dict.fromkeys([*below(library), library]))
        return list(found)

    names = sorted([*below(top), top], key=lambda name: len(below(name)))
    return {name: below(name) for name in names}


def free_memory():
    """The bytes that are free here, under a container's limit too."""
    with open("/proc/meminfo", encoding="utf-8") as file:
        free = 1024 * int(re.search(r"MemAvailable:\s+(\d+) kB", file.read())[1])
    with contextlib.suppress(OSError, ValueError):
        with open("/sys/fs/cgroup/memory.max", encoding="utf-8") as limit:
            with open("/sys/fs/cgroup/memory.current", encoding="utf-8") as used:
                free = min(free, int(limit.read()) - int(used.read()))
    return free


def lanes():
    """How many crates are proved at a time: as many as processors and memory allow, up to four."""
    return max(1, min(4, len(os.sched_getaffinity(0)), free_memory() // MEMORY))


def is_proof(said):
    """Whether rt says of a crate that it is proved, or nothing but notes of its own: it was."""
    lines = said.splitlines()
    return all(it.startswith("rt: ") for it in lines) or any(PROVED.match(it) for it in lines)


class Progress:
    """The line that says how far the build is."""

    def __init__(self, crates, at_once):
        self.crates, self.at_once, self.proved, self.shown = crates, at_once, [], ""
        self.began, self.is_terminal = time.monotonic(), sys.stderr.isatty()
        self.said, self.waits = "", False

    def time(self):
        seconds = int(time.monotonic() - self.began)
        return f"{seconds // 60}:{seconds % 60:02}"

    def count(self):
        return f"{len(self.proved)} of {len(self.crates)} crates proved"

    def at_work(self):
        """The next crates in order, but those that wait for one below."""
        taken = [name for name in self.crates if name not in self.proved][: self.at_once]
        names = [name for name in taken if all(it in self.proved for it in self.crates[name])]
        return "waiting for another rt" if self.waits else ", ".join(names) or "the last lines"

    def show(self, text):
        """Puts the time and the text in the place of the line before them, on a terminal."""
        line = f"fsw: {self.time()}, {text}"
        if self.is_terminal and line != self.shown:
            self.shown = line
            width = os.get_terminal_size(sys.stderr.fileno()).columns or 80
            sys.stderr.write(f"\r\033[K{line[: width - 1]}")
            sys.stderr.flush()

    def look(self, log):
        """Reads on in what rt prints: for each crate that has ended its name, and what was said."""
        more = log.read()
        self.said += more
        if more:
            # The rest of it may come later.
            return
        parts = re.split(r"^== (\w+)\n", self.said, flags=re.M)
        self.waits = bool(re.search(r"^rt: .*waiting for", parts[-1], re.M))
        for name, said in zip(parts[1::2], parts[2::2]):
            if name in self.crates and name not in self.proved and is_proof(said):
                self.proved.append(name)
                if not self.is_terminal:
                    tell(f"{self.time()}, {self.count()}: {name}")
        self.show(f"{self.count()}, now {self.at_work()}")

    def end(self, text):
        if self.is_terminal:
            sys.stderr.write("\r\033[K")
        tell(text)


class LibraryProgress(Progress):
    """The same line while rt proves what the library needs, a crate after the other."""

    def count(self):
        return f"{len(self.proved)} crates proved"

    def look(self, log):
        """rt names a crate as it begins, and none that stands proved."""
        self.said += log.read()
        parts = re.split(r"^rt: chose --jobs \d+ for (\w+)\n", self.said, flags=re.M)
        self.waits = bool(re.search(r"^rt: .*waiting for", parts[-1], re.M))
        begun = list(zip(parts[1::2], parts[2::2]))
        for name, said in begun:
            if name not in self.proved and any(map(PROVED.match, said.splitlines())):
                self.proved.append(name)
                if not self.is_terminal:
                    tell(f"{self.time()}, {self.count()}: {name}")
        self.show(f"{self.count()}, now {begun[-1][0] if begun else 'the sources are read'}")


def library_of(target):
    """Where the library for this processor is kept."""
    folders = [] if target == "x86_64" else [target]
    return os.path.join(LIBRARY, "out", *folders, os.path.basename(MADE))


def put_back():
    """Gives the library for x86-64 its place again, also after a build that was killed."""
    aside = f"{MADE}.aside"
    with contextlib.suppress(FileNotFoundError):
        os.replace(aside, MADE)
        if os.path.getsize(MADE) == 0:
            os.remove(MADE)


@contextlib.contextmanager
def put_aside():
    """Keeps the library for x86-64 from what rt makes in its place meanwhile; an empty file says that there is none."""
    copy, aside = f"{MADE}.copy", f"{MADE}.aside"
    os.makedirs(os.path.dirname(aside), exist_ok=True)
    if os.path.exists(MADE):
        shutil.copy2(MADE, copy)
    else:
        open(copy, "wb").close()
    os.replace(copy, aside)
    try:
        yield
    finally:
        put_back()


def make_library(look, target):
    """The status of rt, which proves and builds the library for this processor."""
    place = library_of(target)
    if target == "x86_64":
        return run(["lib"], subprocess.DEVNULL, look, LIBRARY)
    with put_aside():
        failed = run(["lib", "--target", TRIPLES[target]], subprocess.DEVNULL, look, LIBRARY)
        if not failed:
            os.makedirs(os.path.dirname(place), exist_ok=True)
            os.replace(MADE, place)
    return failed


def run(words, script, look, folder=CRATE):
    """The status of rt with these words in this crate; all that it prints is added to the log."""
    with open(LOG, "ab") as log, open(LOG, encoding="utf-8", errors="replace") as said:
        said.seek(0, os.SEEK_END)
        # In a session of its own, so that all of it ends where this ends.
        how = dict(stdin=script, stdout=log, stderr=log, start_new_session=True)
        rt = subprocess.Popen(["rt", *words], cwd=folder, **how)
        try:
            while rt.poll() is None:
                time.sleep(0.2)
                look(said)
            for _ in range(2):
                look(said)
        finally:
            if rt.poll() is None:
                os.killpg(rt.pid, signal.SIGTERM)
            rt.wait()
        return rt.returncode


def build(progress):
    """Proves and builds all; says what failed, or nothing."""
    proof = ["all", "check", "--jobs", str(progress.at_once)]
    if run(proof, subprocess.DEVNULL, progress.look):
        with open(LOG, encoding="utf-8", errors="replace") as log:
            failed = re.findall(r"^(\w+): failed \(\d+\)$", log.read(), re.M)
        return f"{', '.join(failed) or 'the sources'} could not be proved"
    # rt builds a program in order to run it, here on the crate's own example.
    with open(os.path.join(CRATE, "stdin"), "rb") as script:
        show = lambda _: progress.show("building the program")
        if run(["run", "--", "lockstep"], script, show):
            return "the program could not be built"
    if os.path.isdir(LIBRARY):
        show = lambda _: progress.show("the library for C")
        if make_library(show, "x86_64"):
            return "the library for C could not be built"
    return ""


def build_library(progress, target):
    """Proves and builds the library for this processor; says what failed, or nothing."""
    return "the library for C could not be built" if make_library(progress.look, target) else ""


def told_ends(progress, make, made, text):
    """Makes the file, tells how that ended, and gives the status of the run."""
    open(LOG, "wb").close()
    os.utime(BEGAN)
    try:
        failed = make()
    except KeyboardInterrupt:
        so_far = f"interrupted at {progress.time()}, {progress.count()}"
        progress.end(f"{so_far}: ./fsw build goes on from there")
        return 128 + signal.SIGINT
    if failed:
        progress.end(f"{failed}: what the prover says is in {os.path.relpath(LOG)}")
        return 1
    # It is as old as the build's beginning, so that a change meanwhile counts as newer.
    os.utime(made, ns=(os.stat(BEGAN).st_mtime_ns,) * 2)
    progress.end(text())
    return 0


def build_alone(target=None):
    """Builds, where no other build is at work here; the status of the run."""
    put_back()
    if target:
        crates = crates_in_order(os.path.basename(LIBRARY))
        tell(f"proving of {len(crates)} crates, one at a time, those that aren't proved yet")
        progress = LibraryProgress(crates, 1)
        text = lambda: f"the library is proved and built, in {progress.time()}: {NEXT_FOR_LIBRARY[target]}"
        return told_ends(progress, lambda: build_library(progress, target), library_of(target), text)
    crates, at_once = crates_in_order(), lanes()
    tell(f"proving {len(crates)} crates, {at_once} at a time; {EXPECTED}")
    progress = Progress(crates, at_once)
    text = lambda: f"the program is proved and built, in {progress.time()}: {NEXT}"
    return told_ends(progress, lambda: build(progress), PROGRAM, text)


def main():
    stop_without_kit()
    # Told to end otherwise than by Ctrl-C, it ends rt too.
    for number in (signal.SIGTERM, signal.SIGHUP):
        signal.signal(number, lambda number, _: sys.exit(128 + number))
    os.makedirs(OUT, exist_ok=True)
    with open(BEGAN, "ab") as began:
        try:
            fcntl.flock(began, fcntl.LOCK_EX | fcntl.LOCK_NB)
        except BlockingIOError:
            tell("another ./fsw build is at work here: wait for it to end")
            return 1
        return build_alone(*sys.argv[1:])


if __name__ == "__main__":
    sys.exit(main())
