"""Lists what is installed, and what it is for: ./fsw doctor

With `--version` it prints the versions alone. The status of `./fsw doctor` is 1 if something is missing that scripts
need, and else 0.
"""
import os
import re
import shutil
import subprocess
import sys

sys.dont_write_bytecode = True  # nothing is left beside the sources

from build import free_memory, lanes
from kit import PROGRAM, TOP, kit_of_readme, logic_of, tell

LEAST_PYTHON = (3, 8)
# Programs with the Debian package that has each, and what each is for.
FOR_C = (
    ("gcc", "gcc", "programs in C: make -C c"),
    ("make", "make", "the same"),
    ("clang", "clang", "the checks of the C sources"),
    ("valgrind", "valgrind", "the same"),
    ("cppcheck", "cppcheck", "the same"),
    ("aarch64-linux-gnu-gcc", "gcc-aarch64-linux-gnu", "programs in C for AArch64"),
    ("qemu-aarch64", "qemu-user", "runs them here"),
)
TO_LOOK = (
    ("man", "man-db", "the manual: man docs/fsw.1"),
    ("rsvg-convert", "librsvg2-bin", "turns a picture into PNG or PDF"),
    ("chromium", "chromium", "tries ./fsw page in .ci/run; any browser shows a page"),
    ("tshark", "tshark", "reads what ./fsw pcap writes, as Wireshark does"),
    ("xxd", "xxd", "spells a table file as a line of a script"),
)


def version_of(program):
    """What a program says of its version; None if it isn't there."""
    if not shutil.which(program):
        return None
    how = dict(stdin=subprocess.DEVNULL, stdout=subprocess.PIPE, stderr=subprocess.STDOUT)
    try:
        said = subprocess.run([program, "--version"], timeout=20, **how).stdout.decode(errors="replace")
    except (OSError, subprocess.TimeoutExpired):
        return "there, but it doesn't start"
    found = re.search(r"\d+\.\d[\w.~+-]*", said) or re.search(r"\d[\d-]+", said)
    return found[0] if found else "there"


def show(name, version, purpose):
    print(f"  {name:22} {version or 'missing':24} {purpose}")


def show_programs(title, programs):
    """These programs, and which packages have those that are missing."""
    print(title)
    packages = []
    for program, package, purpose in programs:
        version = version_of(program)
        show(program, version, purpose)
        packages += [] if version else [package]
    if packages:
        print(f"    on Debian: apt-get install {' '.join(packages)}")


def show_kit():
    """The kit; whether it is there."""
    found, wanted = version_of_kit(), kit_of_readme()
    show("rt", found, "compiles and proves: scripts, ./fsw test, ./fsw build")
    if not found:
        print(f"    install the Rattle kit, {wanted or 'which README names'}, and put its rt on the PATH")
    elif wanted and logic_of(found) != logic_of(wanted):
        print(f"    README names another kit, {wanted}: where a proof fails, take that one")
    return bool(found)


def version_of_kit():
    if not shutil.which("rt"):
        return None
    return subprocess.run(["rt", "version"], stdin=subprocess.DEVNULL, capture_output=True, text=True).stdout.strip()


def state_of(made):
    return "built" if os.path.exists(made) else "not built: ./fsw build"


def commit():
    git = subprocess.run(["git", "-C", TOP, "describe", "--always", "--dirty"], capture_output=True, text=True) if shutil.which("git") else None
    return git.stdout.strip() if git and not git.returncode else "unknown"


def show_versions():
    print(f"fsw, Jilvasto, commit {commit()}; scripts and reports of versions 1 and 2")
    with open(os.path.join(TOP, "c", "include", "fsw.h"), encoding="utf-8") as file:
        found = re.search(r"^#define FSW_VERSION (\d+)", file.read(), re.M)
    if found:
        print(f"library for C: FSW_VERSION {found[1]}")
    print(f"the proved program: {state_of(PROGRAM)}")


def main(words):
    if words == ["--version"]:
        show_versions()
        return 0
    print("For scripts, tests and proofs:")
    is_ready = show_kit()
    python = ".".join(map(str, sys.version_info[:3]))
    show("python3", python, f"the kit and ./fsw; {'.'.join(map(str, LEAST_PYTHON))} or later")
    is_ready = is_ready and sys.version_info >= LEAST_PYTHON
    memory = f"{free_memory() >> 30} GiB free"
    show("processors, memory", f"{len(os.sched_getaffinity(0))}, {memory}", f"./fsw build proves {lanes()} crates at a time")
    for title, programs in (("For programs in C:", FOR_C), ("To look at runs, none of it needed:", TO_LOOK)):
        show_programs(title, programs)
    print("Made here:")
    show("the proved program", state_of(PROGRAM), "without it scripts are compiled unproved")
    show("the library for C", state_of(os.path.join(TOP, "crates", "fsw_c", "out", "libfsw_c.a")), "what programs in C are linked with")
    if not is_ready:
        tell("something is missing without which no script runs: see above")
    return 0 if is_ready else 1


if __name__ == "__main__":
    sys.exit(main(sys.argv[1:]))
