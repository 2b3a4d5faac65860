"""The bytes of the packets that were sent in a run, made from its script and its report.

The report says in which order the calls were taken, and which were accepted; the script says what
each application gave. Of the housekeeping packet neither has more than the header and what a
receipt shows.
"""
from dataclasses import dataclass

from story import HOUSEKEEPING, SENDS

HEADER, HOUSEKEEPING_BYTES = 6, 64
# Up to so many events a filter counts.
MOST_EVENTS = 65535
# Lines that are no call of the bus: those that write a buffer, those of the tables, and what an
# application looks at again.
WRITES = ("form", "put")
NO_CALLS = ("show", "treg", "tshare", "tunreg", "tstage", "tval", "tupd", "tabort", "tload", "tget", "trel", "tstat", "tfile")
# How the report prints a line's word, where it is another one.
PRINTED = {"sendraw": "send"}


@dataclass
class Packet:
    """A packet as far as it is known: its first bytes, or all of them, and how many it has."""

    call: object
    bytes: bytes
    size: int

    @property
    def id(self):
        return int.from_bytes(self.bytes[:2], "big")


class OtherScript(Exception):
    """The script isn't the one of the report."""


def number_of(word):
    return int(word, 16 if word.startswith("0x") else 10)


def counting(size, first):
    return bytes((first + at) % 256 for at in range(size))


def header(packet_id, size):
    return packet_id.to_bytes(2, "big") + b"\xc0\x00" + (size - HEADER - 1).to_bytes(2, "big")


def read_script(text):
    """The lines of each application, each as its words, and the counts at which ids start."""
    apps, starts = [], {}
    for line in text.decode("latin-1").split("\n"):
        words = line.split()
        if not words or words[0].startswith("#"):
            continue
        if words[0] == "app":
            apps.append([])
        elif words[0] == "seq":
            starts[number_of(words[1])] = number_of(words[2])
        elif apps:
            apps[-1].append(words)
    return apps, starts


class Sender:
    """An application's buffers, as its script writes them."""

    def __init__(self, lines):
        self.lines, self.registers, self.buffers = iter(lines), {}, {}

    def write(self, words):
        """`form` or `put`: writes into a buffer, where there is one and the bytes fit."""
        number = self.registers.get(words[1], 0)
        old = self.buffers.get(number)
        if old is None:
            return
        if words[0] == "form":
            packet_id, fill = number_of(words[2]), number_of(words[3])
            self.buffers[number] = header(packet_id, len(old)) + counting(len(old) - HEADER, fill)
        else:
            offset, new = number_of(words[2]), bytes.fromhex(words[3])
            if offset + len(new) <= len(old):
                self.buffers[number] = old[:offset] + new + old[offset + len(new) :]

    def next_call(self, call):
        """The line that made this call: what lies before it is written."""
        for words in self.lines:
            if words[0] in WRITES:
                self.write(words)
            elif words[0] not in NO_CALLS:
                if PRINTED.get(words[0], words[0]) != call.word:
                    break
                return words
        raise OtherScript(f"call {call.number} of the bus isn't what the script says")

    def packet(self, call, words):
        """The bytes that a send was given, cut to the message's own size."""
        if words[0] == "send":
            packet_id, size, fill = map(number_of, words[1:4])
            return header(packet_id, size) + counting(size - HEADER, fill)
        if words[0] == "sendraw":
            return bytes.fromhex(words[1])
        if words[0] == "hk":
            return header(HOUSEKEEPING, HOUSEKEEPING_BYTES)
        given = self.buffers.pop(self.registers.get(words[1], 0), b"")
        return given[: int.from_bytes(given[4:6], "big") + HEADER + 1]

    def keep(self, call, words):
        """Keeps what an accepted call did to the registers and the buffers."""
        if words[0] == "alloc":
            number = int(call.told[0]) if call.is_done() else 0
            self.registers[words[1]] = number
            if number:
                self.buffers[number] = bytes(number_of(words[2]))
        elif words[0] == "release" and call.is_done():
            self.buffers.pop(self.registers.get(words[1], 0), None)


class Counts:
    """The sequence counts that the bus gave out, by message id."""

    def __init__(self, starts):
        self.given = dict(starts)

    def stamped(self, packet, mode):
        """The packet with the next count of its id, where it asks for one."""
        if mode == "keep":
            return packet
        packet_id = int.from_bytes(packet[:2], "big")
        count = self.given[packet_id] = (self.given.get(packet_id, 0) + 1) % 16384
        flags = packet[2] & 0xC0 | count >> 8
        return packet[:2] + bytes([flags, count & 0xFF]) + packet[4:]


def sent_packets(report, text):
    """The packet of each accepted send, by the number of its call."""
    lines, starts = read_script(text)
    senders, counts, packets = [Sender(it) for it in lines], Counts(starts), {}
    if len(senders) != report.apps():
        raise OtherScript(f"the script has {len(senders)} applications, and the report {report.apps()}")
    for call in report.bus:
        if call.word in ("look", "end"):
            continue
        sender = senders[call.app - 1]
        words = sender.next_call(call)
        sender.keep(call, words)
        if call.word in SENDS and call.is_done():
            packet = sender.packet(call, words)
            if call.told[0] != "0":
                mode = "inc" if call.word == "hk" else call.given[-1]
                packet = counts.stamped(packet, mode)
            size = int.from_bytes(packet[4:6], "big") + HEADER + 1
            packets[call.number] = Packet(call, packet, size)
    compare(report, packets)
    return packets


def compare(report, packets):
    """Stops where a receipt shows other bytes than the script makes; takes from it what it shows of
    a housekeeping packet."""
    numbered = {it.call.told[0]: it for it in packets.values()}
    for seen in (it for it in report.receipts if hasattr(it, "pipe")):
        packet = numbered.get(str(seen.number))
        shown = packet and packet.bytes[: len(seen.head)]
        is_whole = packet and len(packet.bytes) == seen.size
        if not packet or not seen.head.startswith(shown) or is_whole and sum(packet.bytes) != seen.sum:
            raise OtherScript(f"message {seen.number} was received with other bytes than the script makes")
        if not is_whole and len(packet.bytes) < len(seen.head):
            packet.bytes = seen.head


def names_in(text):
    """The names of a script's applications."""
    lines = (line.split() for line in text.decode("latin-1").split("\n"))
    return [words[1] for words in lines if words[:1] == ["app"]]


class Filters:
    """The filters of an application: how each counts the events of its id."""

    def __init__(self):
        self.filters = {}

    def follow(self, call, words):
        """Whether a call that was accepted is an event that a filter holds back."""
        if call.word == "evreg":
            self.filters = {number_of(it.split(":")[0]): [number_of(it.split(":")[1]), 0] for it in words[1:]}
        elif call.word == "evreset":
            self.filters[number_of(words[1])][1] = 0
        elif call.word == "event":
            found = self.filters.get(number_of(words[1]), [0, 0])
            is_held = found[0] & found[1] != 0
            found[1] = min(found[1] + 1, MOST_EVENTS)
            return is_held
        return False


def held_events(report, text):
    """The numbers of the calls of events that a filter held back."""
    lines, _ = read_script(text)
    senders, filters, held = [Sender(it) for it in lines], [Filters() for _ in lines], set()
    for call in report.bus:
        if call.word not in ("look", "end"):
            words = senders[call.app - 1].next_call(call)
            if call.is_done() and filters[call.app - 1].follow(call, words):
                held.add(call.number)
    return held


def told_packets(report):
    """The packet of each accepted send of which the report shows bytes, by the number of its call:
    those that were received, with at most their first 16 bytes."""
    seen = {it.number: it for it in report.receipts if hasattr(it, "pipe")}
    packets = {}
    for call in report.bus:
        if call.word in SENDS and call.is_done() and int(call.told[0]) in seen:
            receipt = seen[int(call.told[0])]
            packets[call.number] = Packet(call, receipt.head, receipt.size)
    return packets
