"""Runs every example of docs/SCRIPT.md: each line must run, and each example of a fault must be answered with that fault at that
line.

    script_examples.py docs/SCRIPT.md
"""
import itertools
import re
import subprocess
import sys

# Examples that the page gives in words, since they are too long to be printed there.
IN_WORDS = {
    "LineTooLong": (b"#" * 1025 + b"\n", 1),
    "BadByte": (b"app A\x80\n", 1),
    "TooManyApps": (b"".join(b"app A%d\n" % n for n in range(1, 18)), 17),
    "TooManyCalls": (b"app A\n" + b"recv p0\n" * 20001, 20002),
    "TooManyBytes": (b"app A\n" + b"send 1 65542 0\n" * 256, 257),
    "TooLarge": (b"\n" * 1048577, 0),
    "NoApp": (b"", 0),
}
BEFORE = "app A\ncreate p0 4 A\nsub 0x0801 p0\n"


def run(text):
    done = subprocess.run(["./fsw", "lockstep"], input=text, capture_output=True)
    return done.returncode, done.stdout.decode()


def section(page, title):
    return page.split(f"\n## {title}\n", 1)[1].split("\n## ", 1)[0]


def rows(text):
    """The rows of the first table of a text."""
    lines = itertools.dropwhile(lambda line: not line.startswith("|"), text.splitlines())
    lines = list(itertools.takewhile(lambda line: line.startswith("|"), lines))
    return [[cell.strip() for cell in line.strip("|").split("|")] for line in lines[2:]]


def call_lines(page):
    """The example line of each row."""
    for title in "the software bus", "memory pools", "events", "housekeeping", "tables":
        for row in rows(section(page, f"Call lines of {title}")):
            yield row[-1].strip("`")


def faults(page):
    for name, _, example, line in rows(section(page, "Faults")):
        name = name.strip("`")
        if name in IN_WORDS:
            yield IN_WORDS[name][0], f"script:{IN_WORDS[name][1]}:{name}\n"
        else:
            text = "\n".join(re.findall(r"`([^`]*)`", example)) + "\n"
            yield text.encode(), f"script:{line}:{name}\n"


def main():
    page = open(sys.argv[1]).read()
    wrong = 0
    whole = re.search(r"```text\n(.*?)```", page, re.S).group(1)
    if run(whole.encode())[0] != 0:
        print("the page's first script doesn't run")
        wrong += 1
    for line in call_lines(page):
        status, text = run((BEFORE + line + "\n").encode())
        if status != 0 or not text.startswith("fsw 1\n"):
            print(f"{line}: status {status}, {text.splitlines()[:1]}")
            wrong += 1
    for text, told in faults(page):
        status, printed = run(text)
        if status != 3 or printed != told:
            print(f"{told.strip()}: status {status}, {printed.splitlines()[:1]}")
            wrong += 1
    sys.exit(1 if wrong else 0)


if __name__ == "__main__":
    main()
