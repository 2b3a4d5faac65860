"""Explains the fault of a script: the line, a mark under the word, and what is wanted there.

    faults.py explain PROGRAM WORD [NAME] < SCRIPT    the fault with which the program refuses it
    faults.py warn NAME < SCRIPT                      registers that are used and never set

All of it goes to standard error. If that is no terminal, a fault has one line.
"""
import difflib
import os
import re
import subprocess
import sys

sys.dont_write_bytecode = True  # nothing is left beside the sources

import forms

MOST_BYTES = 3 << 20
MOST_LINE, SHOWN = 1024, 100
FAULT = re.compile(rb"script:(\d+):(\w+)\n")
# Faults of no word, with what to do.
WHOLE = {
    "TooManyApps": "there are more applications than a script may have: 16, or 15 in a plan",
    "TooManyCalls": "a script has at most 20000 call lines: divide it",
    "TooManyBytes": "the bytes that a script sends and loads are at most 16777216: divide it",
    "TooLarge": "a script has at most 1048576 bytes, a plan 2097152",
    "MissingPart": "a plan is routes, a line ---, a script, a line --- and a second script",
}


class Found:
    """What is wrong with a line: from which to which column, why, and what is wanted."""

    def __init__(self, begin, end, why, *wanted):
        self.begin, self.end, self.why, self.wanted = begin, max(end, begin + 1), why, [it for it in wanted if it]


class Script:
    """The lines before a fault, as far as it takes them to explain it."""

    def __init__(self, text, number):
        self.text, self.number = text, number
        lines = text.split(b"\n")
        self.lines = [it[:-1] if it.endswith(b"\r") else it for it in lines]
        self.line = self.lines[number - 1].decode("latin-1") if 0 < number <= len(lines) else ""
        self.words = [(it.start(), it.end(), it[0]) for it in re.finditer(r"[^ \t]+", self.line)]

    def before(self):
        """The words of each line before this one that isn't skipped, with its number."""
        for number, line in enumerate(self.lines[: self.number - 1], 1):
            words = line.decode("latin-1").split()
            if words and not words[0].startswith("#"):
                yield number, words

    def version(self):
        versions = [words[1] for _, words in self.before() if words[0] == "script" and len(words) > 1]
        return 2 if versions[-1:] == ["2"] else 1

    def is_among_routes(self):
        """Whether the line stands before the first line --- of a plan."""
        is_plan = any(it == b"---" for it in self.lines)
        return is_plan and not any(words == ["---"] for _, words in self.before())


def nearest(word, words):
    """What a word is probably meant to be."""
    found = difflib.get_close_matches(word.lower(), words, 1, 0.6)
    return f"the nearest is {found[0]}" if found else ""


def form_of(word):
    form = {**forms.CONFIGURATION, **forms.CALLS, **forms.ROUTES}.get(word)
    return None if form is None else f"{word} {form}".rstrip()


def long_line(script):
    return Found(MOST_LINE, len(script.line), f"the line has {len(script.line)} bytes", f"a line has at most {MOST_LINE}")


def bad_byte(script):
    """A byte that no script has, and how it may have come there."""
    at = re.search(r"[^\x20-\x7e\t]", script.line).start()
    byte, whole = ord(script.line[at]), script.text
    if whole[:2] in (b"\xff\xfe", b"\xfe\xff") or "\0" in script.line:
        return Found(at, at + 1, "the file is UTF-16", "save it as plain ASCII: iconv -f UTF-16 -t ASCII")
    if script.number == 1 and script.line.startswith("\xef\xbb\xbf"):
        return Found(0, 3, "the file begins with a byte order mark", "save it without one: sed -i '1s/^\\xef\\xbb\\xbf//' FILE")
    if byte == 13:
        return Found(at, at + 1, "a carriage return inside the line", "lines end with a line feed, one carriage return before it is dropped: sed -i 's/\\r/\\n/g' FILE")
    letter = re.match(rb"[\xc2-\xf4][\x80-\xbf]+", script.line[at:].encode("latin-1"))
    spelled = f", {letter[0].decode(errors='replace')}" if letter else ""
    return Found(at, at + 1, f"a byte 0x{byte:02x}{spelled}", "a line has printable ASCII characters and tabs, in comments too")


def unknown_word(script):
    begin, end, word = script.words[0]
    if script.is_among_routes():
        return Found(begin, end, f"{word} stands among the routes of a plan", "a route is a line route ID LIMIT; a line --- ends them")
    if word == "tfile":
        return Found(begin, end, "tfile is a line of version 2", "begin the script with a line script 2")
    known = [*forms.CONFIGURATION, *forms.CALLS]
    if word == "---":
        return Found(begin, end, "--- stands in plans alone, twice", "./fsw bridge takes a plan, ./fsw check a script, --- and a report")
    if word.lower() in known:
        return Found(begin, end, f"no line begins with {word}", f"words have small letters: {word.lower()}")
    return Found(begin, end, f"no line begins with {word}", nearest(word, known) or "docs/SCRIPT.md has a table of all lines")


def misplaced(script):
    begin, end, word = script.words[0]
    if word == "script":
        return Found(begin, end, "the version isn't in the first line", "script 1 or script 2 stands before all other lines")
    if word in forms.CONFIGURATION:
        return Found(begin, end, f"{word} stands behind a line app", "lines of configuration stand before the first line app")
    return Found(begin, end, f"{word} is no application's", "call lines stand behind a line app NAME")


def wrong_count(script):
    word = script.words[0][2]
    _, least, most = forms.places_of(form_of(word)[len(word) :].strip())
    count = len(script.words) - 1
    many = f"{count} word{'' if count == 1 else 's'} behind {word}"
    if count > most:
        return Found(script.words[most + 1][0], script.words[-1][1], f"{many}, too many", f"the line is {form_of(word)}")
    end = script.words[-1][1]
    return Found(end + 1, end + 2, f"{many}, too few", f"the line is {form_of(word)}")


def wrong_word(script, name):
    """The first word with this fault."""
    word = script.words[0][2]
    places = forms.places_of(form_of(word)[len(word) :].strip())[0]
    for place, (begin, end, text) in zip(places, script.words[1:]):
        fault = forms.fault_of_word(word, place, text)
        if fault and fault[0] == name:
            found = nearest(text, forms.LIMITS) if (word, place) == ("set", "NAME") else ""
            return Found(begin, end, fault[1], forms.wanted(word, place), found)
    return wrong_whole(script, word)


def wrong_whole(script, word):
    """A fault of several words together, or of a word whose range is that of another one."""
    begin, end = script.words[1][0] if len(script.words) > 1 else 0, script.words[-1][1]
    if word == "set" and len(script.words) > 2 and script.words[1][2] in forms.LIMITS:
        low, high = forms.LIMITS[script.words[1][2]]
        return Found(script.words[2][0], end, "outside its range", f"{script.words[1][2]} is from {low} to {high}")
    if word == "sizes":
        return Found(begin, end, "these are no block sizes", forms.wanted("sizes", "S1"))
    if word == "event":
        return Found(begin, end, "the text has more than 200 bytes", "TEXT is at most 200 bytes")
    if word in ("seq", "route"):
        return Found(0, end, f"a seventeenth line {word}", "there are at most 16")
    return Found(begin, end, "a word is outside its range", f"the line is {form_of(word)}")


def repeated(script):
    """The word that comes a second time, and where it came first."""
    word, given = script.words[0][2], [it[2] for it in script.words[1:]]
    if word == "evreg":
        ids = [forms.number_of(it.split(":")[0]) for it in given]
        at = next(at for at, it in enumerate(ids) if it in ids[:at])
        return Found(*script.words[at + 1][:2], f"event {ids[at]} has a filter in this line already", "each id stands once")
    same = lambda it: word == "sizes" or it == given[0] or (word in ("seq", "route") and forms.number_of(it) == forms.number_of(given[0]))
    first = [number for number, words in script.before() if words[0] == word and same(words[1])]
    begin, end, _ = script.words[0 if word == "sizes" else 1]
    return Found(begin, end, f"the same stands in line {first[0] if first else '?'}", "each stands once")


def bad_image(script):
    image = "./fsw image says what is wrong with a file; ./fsw pack makes one"
    return Found(*script.words[-1][:2], "these bytes are no table file that a script can load", image)


def no_app(script):
    if not script.text.strip():
        return "the script is empty", "a script has a line app NAME, and call lines behind it: examples/first.fsw"
    return "no line begins an application", "a line app NAME stands before the call lines"


FINDERS = {
    "LineTooLong": long_line,
    "BadByte": bad_byte,
    "UnknownWord": unknown_word,
    "Misplaced": misplaced,
    "WrongCount": wrong_count,
    "BadWord": lambda script: wrong_word(script, forms.BAD),
    "OutOfRange": lambda script: wrong_word(script, forms.FAR),
    "Repeated": repeated,
    "BadImage": bad_image,
}


def shown(line):
    """A line as a terminal can show it."""
    return "".join(it if it == "\t" or " " <= it <= "~" else "?" for it in line)


def part_of(line, found):
    """The part of a long line that has the mark, and how far it is cut at the left."""
    cut = max(0, found.begin - SHOWN // 2) if len(line) > SHOWN else 0
    return line[cut : cut + SHOWN], cut


def explained(text, number, name, where):
    """The lines that explain a fault."""
    script = Script(text, number)
    if name not in FINDERS or not (script.words or name in ("LineTooLong", "BadByte")):
        why, wanted = no_app(script) if name == "NoApp" else (WHOLE.get(name, ""), "")
        place = f"{where}:{number}" if number else where
        return [f"{place}: {name}: {why}".rstrip(": "), *([f"  = {wanted}"] if wanted else [])]
    found = FINDERS[name](script)
    line, cut = part_of(shown(script.line), found)
    mark = "".join("\t" if it == "\t" else " " for it in line[: found.begin - cut].ljust(found.begin - cut))
    margin = " " * len(str(number))
    lines = [f"{where}:{number}:{found.begin + 1}: {name}: {found.why}", f"  {number} | {line}"]
    lines.append(f"  {margin} | {mark}{'^' * min(found.end - found.begin, SHOWN // 2)}")
    return lines + [f"  {margin} = {it}" for it in found.wanted]


def name_of_input():
    """The name of the file that standard input is."""
    path = os.path.realpath("/proc/self/fd/0")
    if not os.path.isfile(path):
        return "script"
    near = os.path.relpath(path)
    return path if near.startswith("..") else near


def tell_fault(text, line, where):
    """Explains the line in which the program told a fault, if it is one."""
    found = FAULT.fullmatch(line)
    if not found:
        return
    try:
        lines = explained(text, int(found[1]), found[2].decode(), where)
    except (IndexError, KeyError, AttributeError, StopIteration):
        lines = [f"{where}:{found[1].decode()}: {found[2].decode()}"]
    if not sys.stderr.isatty():
        lines = [": ".join([lines[0], *(it.split("= ", 1)[1] for it in lines[1:] if "= " in it and it.lstrip().startswith("="))])]
    lines[0] = f"fsw: {lines[0]}"
    print("\n".join(lines), file=sys.stderr)


def unset_registers(text):
    """The uses of registers that their application didn't set before: line, column, register, application."""
    app, known = "", set()
    for number, line in enumerate(text.decode("latin-1").splitlines(), 1):
        words = line.split()
        if not words or words[0].startswith("#"):
            continue
        if words[0] == "app":
            app, known = words[1] if len(words) > 1 else "", set()
        places = forms.places_of(forms.CALLS.get(words[0], ""))[0]
        for place, word in zip(places, words[1:]):
            if re.fullmatch(r"[pbqmt]N( or tN)?", place) and not (words[0] in forms.SETTERS[word[:1]] and place == places[0]) and word not in known:
                known.add(word)
                yield number, line.index(word) + 1, word, app
        known.update(word for word in words[1:2] if word[:1] in forms.SETTERS and words[0] in forms.SETTERS[word[:1]])


def warn(text, where):
    for number, column, word, app in unset_registers(text):
        setters = " or ".join(f"{it} {word}" for it in forms.SETTERS[word[0]])
        print(f"fsw: {where}:{number}:{column}: warning: {app} has not set {word}: a line {setters} does; until then it is 0, which no call accepts", file=sys.stderr)


def explain(program, word, text, where):
    """Explains the fault with which a program refuses a script: before it runs anything, so once more."""
    run = subprocess.run([program, word], input=text, stdout=subprocess.PIPE)
    tell_fault(text, run.stdout, where)


def main(words):
    try:
        text = sys.stdin.buffer.read(MOST_BYTES)
    except OSError:
        return 0
    if words[0] == "warn":
        warn(text, words[1] if len(words) > 1 else name_of_input())
    else:
        explain(words[1], words[2], text, words[3] if len(words) > 3 else name_of_input())
    return 0


if __name__ == "__main__":
    sys.exit(main(sys.argv[1:]))
