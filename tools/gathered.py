"""Lays out one crate for a trial, of the modules of others, so that what they use is compiled once.

rt compiles all that a crate uses anew for each trial, and prepares the whole program again for each
script. So the tests of all crates become one crate, with tests beside them that run many scripts in
one process. It is for a trial alone: proofs and the gate go by the crates themselves.
"""
import json
import re
import shutil
from pathlib import Path

from build import libraries
from kit import TOP

# A module of a crate's root file, with the line above it that has it compiled for tests alone.
MODULE = re.compile(r"^(#\[cfg\(test\)\]\n)?mod (\w+);$", re.M)
# No processor is named so.
NO_PROCESSOR = "none"
# The crate is there for its tests, but only a program may name a processor.
MAIN = "fn main(_: HostRuntime) {}\n"
# What stands at the head of a root file, behind its comment.
HEAD = "#![tactic(auto)]"
PROGRAM_CRATE = "host_run"
# The modules that the word `lockstep` needs, where they are, and what they use; in the place of the program's memory, what
# a status has of it.
ROTATING_CRATE = "host_serve"
ROTATING = ("fault_line", "reading", "status")
ROTATING_USES = ("app_run", "host_report", "tbl_file")
MEMORY = """
/// That memory was refused.
#[derive(Clone, Copy, Debug, PartialEq, Eq)]
pub struct MemoryRefusal {
    _refused: (),
}
"""


def root_of(crate):
    """The root file of a crate."""
    sources = Path(TOP, "crates", crate, "src")
    return next(path for path in (sources / "main.rt", sources / "lib.rt") if path.exists())


def copy_crates(folder):
    """Copies the sources of all crates: rt takes no crate from outside of the folder."""
    for crate in libraries():
        shutil.copytree(Path(TOP, "crates", crate, "src"), Path(folder, "crates", crate, "src"))
    shutil.copy2(Path(TOP, "HANDLES"), folder)


def add_modules(crate, sources):
    """Copies the modules of a crate beside those that are there; the lines that declare them."""
    root = root_of(crate)
    modules = list(MODULE.finditer(root.read_text(encoding="utf-8")))
    for path in root.parent.iterdir():
        if path.is_dir():
            shutil.copytree(path, sources / path.name)
        elif path != root:
            shutil.copy2(path, sources)
    return [found[0] for found in modules]


def build_file(name, below):
    """What stands in the place of a line of crates.txt for a crate of this name that uses these.

    Beside each trial rt begins a check, which proves nothing and looks for names that a later proof would refuse: it takes a
    processor for as long as the trial itself. A crate that is only tried needs none, so its file names a processor that a check
    refuses at once. What is tried is compiled for the usual one, whatever stands here.
    """
    own = libraries()
    labels = [f"//crates/{it}" if it in own else f"@rattle//{it}" for it in below]
    lines = ["rattle_crate(", f'    name = "{name}",', f'    cpu = "{NO_PROCESSOR}",']
    return "\n".join([*lines, f"    deps = {json.dumps(labels)},", ")", ""])


def new_crate(folder, name):
    """Makes a crate of this name in a new repository in this folder; where its sources are."""
    copy_crates(folder)
    shutil.copy2(Path(TOP, "crates.txt"), folder)
    sources = Path(folder, "crates", name, "src")
    sources.mkdir(parents=True)
    return sources


def write_root(sources, below, lines, rest):
    """Writes what a crate uses, and its root file; where the crate is."""
    crate = sources.parent
    Path(crate, "BUILD.bazel").write_text(build_file(crate.name, below), encoding="utf-8")
    root = "\n".join([HEAD, "", *lines, "", rest])
    Path(sources, "main.rt").write_text(root, encoding="utf-8")
    return crate


def lay_out(folder, name, crates, rest="", rest_uses=()):
    """Writes a crate of this name to a new repository in this folder: the modules of these crates,
    with their tests, and behind them the text `rest`, which uses these crates. Where the crate is."""
    sources = new_crate(folder, name)
    lines = [line for crate in crates for line in add_modules(crate, sources)]
    uses = libraries()
    below = dict.fromkeys([*(it for crate in crates for it in uses[crate]), *rest_uses])
    return write_root(sources, below, lines, f"{rest}\n{MAIN}")


def lay_out_whole(folder):
    """Lays out the program with all its words; where it is."""
    root = root_of(PROGRAM_CRATE).read_text(encoding="utf-8")
    return write_root(new_crate(folder, "whole"), libraries()[PROGRAM_CRATE], [], root.partition(HEAD)[2])


def lay_out_rotating(folder):
    """Lays out the program for the word `lockstep` alone; where it is."""
    sources = new_crate(folder, "rotating")
    for module in ROTATING:
        shutil.copy2(Path(TOP, "crates", ROTATING_CRATE, "src", f"{module}.rt"), sources)
    Path(sources, "memory.rt").write_text(MEMORY, encoding="utf-8")
    uses = libraries()
    below = dict.fromkeys(name for it in ROTATING_USES for name in (it, *uses[it]))
    lines = [f"mod {it};" for it in ("memory", *ROTATING)]
    return write_root(sources, below, lines, Path(TOP, "tools", "rotating.main").read_text(encoding="utf-8"))
