"""A report read back into its calls, receipts, event log and counters: of version 1 or 2."""
import re
from dataclasses import dataclass, field

SECTIONS = ("bus", "tables", "receipts", "events", "counters", "end")
# Answers behind which a number stands as behind a success.
DONE = ("CFE_SUCCESS", "CFE_TBL_WARN_DUPLICATE", "CFE_TBL_INFO_UPDATED", "CFE_TBL_ERR_NEVER_LOADED")
CALL = re.compile(r"(\d+) a(\d+) (\S+)((?: \S+)*) -> (\S+)((?: \S+)*)")
MESSAGE = re.compile(
    r"a(\d+) msg p(\d+) n(\d+) id=0x([0-9a-f]{4}) seq=(\d+) size=(\d+) sum=(\d+) head=([0-9a-f]*)"
)
TABLE = re.compile(r"a(\d+) tbl h(\d+) v(\d+) size=(\d+) sum=(\d+) head=([0-9a-f]*)")
NOTHING = re.compile(r"a(\d+) none")
EVENT = re.compile(r"a(\d+) (\d+) (\d)(?: (.*))?", re.DOTALL)


class NoReport(Exception):
    """A text that is no whole report; says which line, and why."""


@dataclass
class Call:
    """A call of the bus or of the tables, with its answer."""

    number: int
    app: int
    word: str
    given: list
    answer: str
    told: list

    def is_done(self):
        return self.answer in DONE


@dataclass
class Message:
    """A receipt of a message, as its reader found it."""

    app: int
    pipe: int
    number: int
    id: int
    count: int
    size: int
    sum: int
    head: bytes


@dataclass
class Held:
    """A receipt of a version of a table."""

    app: int
    handle: int
    version: int
    size: int
    sum: int


@dataclass
class Event:
    """A line of the event log; application 0 is the bus itself."""

    app: int
    id: int
    kind: int
    text: str


@dataclass
class Report:
    version: int = 1
    bus: list = field(default_factory=list)
    tables: list = field(default_factory=list)
    receipts: list = field(default_factory=list)
    events: list = field(default_factory=list)
    counters: dict = field(default_factory=dict)

    def apps(self):
        """How many applications it tells of."""
        return max((call.app for call in self.bus + self.tables), default=0)


def read_call(line):
    found = CALL.fullmatch(line)
    if not found:
        return None
    number, app, word, given, answer, told = found.groups()
    return Call(int(number), int(app), word, given.split(), answer, told.split())


def read_receipt(line):
    found = MESSAGE.fullmatch(line)
    if found:
        app, pipe, number, packet_id, count, size, total, head = found.groups()
        numbers = (int(app), int(pipe), int(number), int(packet_id, 16), int(count), int(size), int(total))
        return Message(*numbers, bytes.fromhex(head))
    found = TABLE.fullmatch(line)
    if found:
        return Held(*map(int, found.groups()[:5]))
    return () if NOTHING.fullmatch(line) else None


def read_event(line):
    found = EVENT.fullmatch(line)
    return found and Event(*map(int, found.groups()[:3]), found[4] or "")


def read_counters(line):
    """The numbers of a line, by its first word and the word before each."""
    head, *words = line.split(" ")
    return head, dict(word.split("=", 1) for word in words if "=" in word)


def add_line(report, section, line):
    """Adds what a line tells; False where it is none of this section."""
    if section in ("bus", "tables"):
        found = read_call(line)
        getattr(report, section).append(found)
    elif section == "receipts":
        found = read_receipt(line)
        report.receipts += [found] if found else []
    elif section == "events":
        found = read_event(line)
        report.events.append(found)
    else:
        found = read_counters(line)
        report.counters.setdefault(*found)
    return found is not None


def read_report(text):
    """The report that a text is; raises `NoReport` where it is none, or isn't whole."""
    lines = text.split("\n")
    head = re.fullmatch(r"fsw ([12])", lines[0])
    if not head:
        raise NoReport("line 1: a report begins with fsw 1 or fsw 2")
    report, sections = Report(int(head[1])), iter(SECTIONS)
    section, following = None, next(sections)
    for number, line in enumerate(lines[1:], 2):
        if line == following:
            section, following = following, next(sections, None)
            if section == "end":
                return report
        elif not section or not add_line(report, section, line):
            raise NoReport(f"line {number} is no line of a report: {line[:60]!r}")
    raise NoReport("the last line isn't end: the report isn't whole")
