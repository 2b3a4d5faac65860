"""Lays out a crate of one's own: a proved program on the bus, copied from crates/bus_example.

    new_crate.py NAME plain      the bus without a journal, from one thread
    new_crate.py NAME threads    each application with a port, on a thread of its own

The crate has a line in crates.txt. A name that can't be a crate's is refused with status 2.
"""
import os
import re
import shutil
import subprocess
import sys

sys.dont_write_bytecode = True  # nothing is left beside the sources

from kit import TOP, tell

EXAMPLE = "bus_example"
# The crates that each kind uses.
USES = {
    "plain": "bus_core buf_desc bus_words ccsds_msg step_count fsw_base",
    "threads": "bus_service bus_words ccsds_msg journal_store fsw_base",
}
HEADS = {
    "plain": "//! A program on the bus: one application sends another a message, from one thread.",
    "threads": "//! A program on the bus: one application sends another a message, each on a thread of its own.",
}
# Above the lines of such crates in crates.txt.
HEADING = "# Your own"
# What neither Rust's code nor the proofs' can have as a name.
KEYWORDS = """abbrev abstract alloc as async await axiom become box break const continue core crate data do dyn elim else ensures enum extern
false final fn for gen ghost if impl in infix infixl infixr let loop macro match mod module move mut mutual open override package priv pub
record ref requires return ruleset self static std struct super trait true try type typeof unfold unsafe unsized use using virtual where
while yield""".split()


def libraries_of_kit():
    """The libraries of the kit that is here; nothing without one."""
    try:
        page = subprocess.run(["rt", "doc"], stdin=subprocess.DEVNULL, capture_output=True, text=True).stdout.strip()
        return {it.removesuffix(".rlib") for it in os.listdir(os.path.join(os.path.dirname(page), "rlibs"))}
    except OSError:
        return set()


def fault_of(name, listed):
    """What is wrong with a crate's name, beside those that crates.txt has."""
    if not re.fullmatch(r"[a-z][a-z0-9_]{0,63}", name):
        return "a crate's name has a small letter, then small letters, digits and _: my_app"
    if name in KEYWORDS:
        return "it is a word of the language"
    if os.path.lexists(os.path.join(TOP, "crates", name)):
        return f"crates/{name} is there already"
    if re.search(rf"^{name}\b", listed, re.M):
        return "crates.txt has a crate of this name already"
    if name in listed.split() or name in libraries_of_kit():
        return "the kit has a library of this name"
    return None


def main_of(kind):
    """The example's main.rt, with this kind of program alone."""
    with open(os.path.join(TOP, "crates", EXAMPLE, "src", "main.rt"), encoding="utf-8") as file:
        lines = [line for line in file.read().splitlines() if not line.startswith("//!")]
    others = "|".join(it for it in USES if it != kind)
    text = "\n".join([HEADS[kind], *(line for line in lines if not re.search(rf"\b({others})\b", line)), ""])
    return text.replace(")?;\n}", ")\n}")


def printed_by(kind):
    """What this kind of program prints, of the example's stdout."""
    with open(os.path.join(TOP, "crates", EXAMPLE, "stdout"), encoding="utf-8") as file:
        return "".join(line for line in file if line.startswith(f"{kind}:"))


def write(path, text):
    os.makedirs(os.path.dirname(path), exist_ok=True)
    with open(path, "w", encoding="utf-8") as file:
        file.write(text)


def lay_out(name, kind):
    """Writes the crate's files."""
    example, crate = (os.path.join(TOP, "crates", it) for it in (EXAMPLE, name))
    write(os.path.join(crate, "src", "main.rt"), main_of(kind))
    write(os.path.join(crate, "stdout"), printed_by(kind))
    for module in ("message", kind):
        shutil.copyfile(os.path.join(example, "src", f"{module}.rt"), os.path.join(crate, "src", f"{module}.rt"))
    for folder, _, names in os.walk(os.path.join(example, "proofs", kind)):
        for each in names:
            with open(os.path.join(folder, each), encoding="utf-8") as file:
                text = file.read().replace(f"Rattle.{EXAMPLE}.", f"Rattle.{name}.")
            write(os.path.join(crate, os.path.relpath(folder, example), each), text)


def main(name, kind):
    listing = os.path.join(TOP, "crates.txt")
    with open(listing, encoding="utf-8") as file:
        listed = file.read()
    fault = fault_of(name, listed)
    if fault:
        tell(f"{name}: {fault}")
        return 2
    lay_out(name, kind)
    with open(listing, "a", encoding="utf-8") as file:
        file.write(("" if f"\n{HEADING}\n" in listed else f"\n{HEADING}\n") + f"{name}: {USES[kind]}\n")
    tell(f"crates/{name} is laid out, and crates.txt names it")
    tell(f"cd crates/{name} && rt try runs it at once, rt check proves it; docs/RATTLE.md leads on from there")
    return 0


if __name__ == "__main__":
    sys.exit(main(*sys.argv[1:]))
