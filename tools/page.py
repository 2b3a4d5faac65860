"""Makes a page of a report to look at in a browser: ./fsw page [--script FILE] [--other REPORT] < report > run.html

One file, which fetches nothing. It has what the picture has, drawn as one scrolls, with filters; a message is followed from its
send to each receipt and miss when one points at it. With another report it shows both side by side from their first difference.
"""
import argparse
import json
import sys
from pathlib import Path

sys.dont_write_bytecode = True  # nothing is left beside the sources

from given import bytes_of, report_in, script_given, text_given
from picture import Tables, bus_texts, heads_of, packet_text

TEMPLATE = Path(__file__).with_name("page.html")
# Words whose first given number is a pipe's, and those whose second is.
FIRST_PIPE = ("delete", "opts", "getopts", "pname", "recv", "pend", "look")
SECOND_PIPE = ("sub", "unsub")


def line_of(call):
    return f"{call.number} a{call.app} {' '.join([call.word, *call.given])} -> {' '.join([call.answer, *call.told])}"


def pipes_of(story, call):
    """The pipes that a call is about."""
    sent = story.sent.get(call.number)
    if sent:
        return sorted({int(it.given[0]) for it in sent.receipts} | {it.pipe for it in sent.missed})
    if call.word in FIRST_PIPE:
        return [int(call.given[0])]
    if call.word in SECOND_PIPE:
        return [int(call.given[1])]
    return [int(call.told[0])] if call.word in ("create", "find") and call.told else []


def message_of(story, call):
    """The message that a call sends or receives: its call, and its id."""
    sent = story.sent.get(call.number)
    if sent is None and call.told and call.word in ("recv", "pend", "look"):
        sent = story.numbered.get(int(call.told[0]))
    return (sent.call.number, sent.id) if sent else (None, int(call.given[0], 16) if call.word in SECOND_PIPE else None)


def bus_row(story, call):
    kind, texts = bus_texts(story, call)
    message, packet_id = message_of(story, call)
    row = dict(n=call.number, a=call.app, k=kind, t=texts[:3], l=line_of(call), r=call.answer)
    row.update({name: it for name, it in (("m", message), ("i", packet_id), ("p", pipes_of(story, call))) if it not in (None, [])})
    return row


def messages(story):
    """Each message by the number of its call: what it is, its receipts, and the pipes that missed it."""
    for number, sent in story.sent.items():
        receipts = [[it.number, it.app, int(it.given[0])] for it in sent.receipts]
        misses = [[it.pipe, it.owner, it.why, it.dropped] for it in sent.missed]
        yield number, dict(s=sent.number, a=sent.call.app, x=packet_text(sent), d=sent.reached, r=receipts, m=misses)


def table_rows(report, tables):
    for call in report.tables:
        kind, texts = tables.texts(call)
        yield dict(n=call.number, a=call.app, k=kind, t=texts[:3], l=line_of(call), r=call.answer)


def versions(report, tables):
    """Each version of a table: which call made it, and which calls took it."""
    for (name, version), made in tables.made.items():
        takes = [call.number for call in report.tables if call.word == "tget" and call.is_done() and call.told == [str(version)] and tables.name(call) == name]
        yield dict(name=name, version=version, made=made.number, app=made.app, takes=takes)


def counters_in(text):
    return text.split("\ncounters\n", 1)[1].rsplit("\nend", 1)[0].split("\n")


def first_difference(one, two):
    """The number of the first line in which two reports differ; 0 if they are the same."""
    return next((at for at, (a, b) in enumerate(zip([*one, None], [*two, None]), 1) if a != b), 0)


def data_of(report, text, script, other):
    story, tables = script.story(report), Tables(report.tables)
    names = {}
    for number, (owner, name, _) in story.names.items():
        names.setdefault(owner, []).append(f"p{number} {name}")
    events = [dict(a=event.app, i=event.id, k=event.kind, t=event.text, n=call.number if call else None) for event, call in story.notes]
    data = dict(apps=heads_of(report, script.names), pipes=[", ".join(names.get(app, [])) for app in range(1, max(report.apps(), 1) + 1)])
    data.update(bus=[bus_row(story, call) for call in report.bus], messages=dict(messages(story)))
    data.update(tables=list(table_rows(report, tables)), versions=list(versions(report, tables)), events=events, counters=counters_in(text))
    if other is not None:
        one, two = text.split("\n"), other.split("\n")
        data.update(one=one, two=two, differs=first_difference(one, two))
    return data


def page_of(data):
    # No text of a report ends the script that holds it.
    spelled = json.dumps(data, separators=(",", ":")).replace("<", "\\u003c")
    return TEMPLATE.read_text(encoding="utf-8").replace("{{data}}", spelled)


def main(words):
    usage = argparse.ArgumentParser(prog="./fsw page", description="makes a page of the report on standard input, for a browser")
    usage.add_argument("--script", metavar="FILE", help="the script that was run: tells names, and the ids of messages that nobody received")
    usage.add_argument("--other", metavar="REPORT", help="another report, to be shown beside this one")
    options = usage.parse_args(words)
    text = text_given()
    report, other = report_in(text), None
    if options.other:
        other = bytes_of(options.other)
        report_in(other, options.other)
        other = other.decode("ascii")
    script = script_given(report, options.script)
    sys.stdout.write(page_of(data_of(report, text.decode("ascii"), script, other)))
    return 0


if __name__ == "__main__":
    sys.exit(main(sys.argv[1:]))
