"""What the words about a finished run are given: its report on standard input, and maybe its script.

What is wrong with either ends the run with status 3, as a faulty script does.
"""
import re
import sys

from kit import tell
from packets import OtherScript, held_events, names_in, sent_packets
from report import NoReport, read_report
from story import Story

FAULTY = 3


def what_it_is(text):
    """What is given in the place of a report, if it is seen at once."""
    fault = re.fullmatch(rb"script:(\d+):(\w+)\n", text)
    if fault:
        return f"it is the fault of a script, {fault[2].decode()} in line {fault[1].decode()}, of which there is no run"
    if not text.strip():
        return "it is empty"
    if text.startswith(b"== "):
        return "it has the reports of several scripts, and each is taken alone"
    if text.startswith(b"side 1\n"):
        return "it has the reports of two buses, and each is taken alone"
    if re.search(rb"(?m)^[ \t]*app \w+[ \t\r]*$", text) and not text.startswith(b"fsw "):
        return "it is a script, of which ./fsw lockstep prints a report"
    return ""


def text_given():
    """What is on standard input, which is to be a report."""
    if sys.stdin.isatty():
        tell("a report is read from standard input, as ./fsw lockstep FILE prints it")
        sys.exit(2)
    return sys.stdin.buffer.read()


def report_in(text, name="standard input"):
    """The report that these bytes are; ends the run if they are none."""
    try:
        return read_report(text.decode("ascii"))
    except NoReport as error:
        tell(f"{name} is no report: {what_it_is(text) or error}")
    except UnicodeDecodeError as error:
        tell(f"{name} is no report: a byte at {error.start} isn't ASCII")
    sys.exit(FAULTY)


def report_given():
    """The report on standard input."""
    return report_in(text_given())


def lines_given():
    """The lines of the report on standard input."""
    text = text_given()
    report_in(text)
    return text.decode("ascii").split("\n")


def bytes_of(path):
    """The bytes of a file that was named; ends the run where it can't be read."""
    try:
        with open(path, "rb") as file:
            return file.read()
    except OSError as error:
        tell(f"{path}: {error.strerror}")
        sys.exit(2)


class Given:
    """What a script tells of its report: the packets that were sent, the names of applications, and the events that a
    filter held back; of the last None if no script is given."""

    def __init__(self, packets=None, names=(), held=None):
        self.packets, self.names, self.held = packets or {}, list(names), held

    def story(self, report):
        return Story(report, {number: packet.id for number, packet in self.packets.items()}, self.held)


def script_given(report, path):
    """What the script of this name tells; nothing if none is named."""
    if path is None:
        return Given()
    text = bytes_of(path)
    try:
        return Given(sent_packets(report, text), names_in(text), held_events(report, text))
    except (OtherScript, ValueError, IndexError, KeyError) as error:
        tell(f"{path} isn't the script of this report: {error}")
        sys.exit(FAULTY)
