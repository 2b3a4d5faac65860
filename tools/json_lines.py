"""Prints a report as lines of JSON: ./fsw json < report

An object a line, in the order of the report; docs/REPORT.md has the table of them.
"""
import json
import re
import sys

sys.dont_write_bytecode = True  # nothing is left beside the sources

from given import lines_given
from report import EVENT, MESSAGE, SECTIONS, TABLE, read_call

WHOLE = re.compile(r"\d+")


def value_of(word):
    """A number of the counters, or two of them with a slash: now and at most."""
    if WHOLE.fullmatch(word):
        return int(word)
    now, slash, peak = word.partition("/")
    return {"now": int(now), "peak": int(peak)} if slash else word


def call_object(section, line):
    call = read_call(line)
    names = ("number", "app", "word", "given", "answer", "told")
    return {"kind": "call", "service": section, **{name: getattr(call, name) for name in names}}


def receipt_object(line):
    found = MESSAGE.fullmatch(line)
    if found:
        app, pipe, send, packet_id, count, size, total, head = found.groups()
        numbers = dict(app=int(app), pipe=int(pipe), send=int(send), id=int(packet_id, 16), count=int(count), size=int(size))
        return {"kind": "message", **numbers, "sum": int(total), "head": head}
    found = TABLE.fullmatch(line)
    if found:
        numbers = zip(("app", "handle", "version", "size", "sum"), map(int, found.groups()[:5]))
        return {"kind": "version", **dict(numbers), "head": found[6]}
    return {"kind": "none", "app": int(line.split()[0][1:])}


def event_object(line):
    app, number, level, text = EVENT.fullmatch(line).groups()
    return {"kind": "event", "app": int(app), "id": int(number), "type": int(level), "text": text or ""}


def counter_object(line):
    """A line of counters: its first word, the numbers behind that, and those with a name."""
    name, *words = line.split(" ")
    values = dict(word.split("=", 1) for word in words if "=" in word)
    return {"kind": "counters", "name": name, "of": [int(it) for it in words if "=" not in it], "values": {it: value_of(values[it]) for it in values}}


def object_of(section, line):
    if section in ("bus", "tables"):
        return call_object(section, line)
    return {"receipts": receipt_object, "events": event_object, "counters": counter_object}[section](line)


def objects(lines):
    """The objects of a whole report."""
    yield {"kind": "report", "version": int(lines[0].split()[1])}
    section, following = None, list(SECTIONS)
    for line in lines[1:]:
        if following and line == following[0]:
            section = following.pop(0)
            if section == "end":
                break
        else:
            yield object_of(section, line)
    yield {"kind": "end"}


def main(words):
    if words:
        print("fsw: json takes no word, and reads a report from standard input", file=sys.stderr)
        return 2
    for it in objects(lines_given()):
        print(json.dumps(it))
    return 0


if __name__ == "__main__":
    sys.exit(main(sys.argv[1:]))
