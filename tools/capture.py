"""Writes the messages of a report as a capture file: ./fsw pcap [--script FILE] < report > run.pcap

A packet for each accepted send, in order, as Wireshark and tshark open it. The report has of a
message at most the first 16 bytes, and those only where somebody received it: so many were captured
then, of the size that the packet tells. With its script each message is there whole, but for the
housekeeping packet, whose numbers neither tells behind what a receipt shows.
"""
import argparse
import struct
import sys

sys.dont_write_bytecode = True  # nothing is left beside the sources

from given import report_given, script_given
from kit import tell
from packets import told_packets
from story import SENDS

# The link type of packets that say which dissector reads them, and the tags that say so.
UPPER_PDU = 252
DISSECTOR_NAME, END_OF_TAGS = 12, 0
LONGEST = 262144


def tags():
    """What stands before each packet: that the dissector of CCSDS space packets reads it."""
    name = b"ccsds\0\0\0"
    return struct.pack(">HH", DISSECTOR_NAME, len(name)) + name + struct.pack(">HH", END_OF_TAGS, 0)


def capture_of(packets):
    """The capture file; the time of a packet is the number of its call, in seconds."""
    parts = [struct.pack("<IHHiIII", 0xA1B2C3D4, 2, 4, 0, 0, LONGEST, UPPER_PDU)]
    for packet in packets:
        frame = tags() + packet.bytes
        whole = len(tags()) + packet.size
        parts.append(struct.pack("<IIII", packet.call.number, 0, len(frame), whole) + frame)
    return b"".join(parts)


def tell_what_lacks(report, packets):
    sends = sum(call.word in SENDS and call.is_done() for call in report.bus)
    if len(packets) < sends:
        tell(
            f"{sends - len(packets)} of {sends} messages aren't in the capture: "
            "nobody received them, and the report has none of their bytes; --script FILE has them"
        )
    cut = sum(len(packet.bytes) < packet.size for packet in packets)
    if cut:
        tell(f"{cut} of {len(packets)} packets are cut short, as the report is; their sizes are told")


def main(words):
    usage = argparse.ArgumentParser(prog="./fsw pcap", description="writes the messages of the report on standard input as a capture file")
    usage.add_argument("--script", metavar="FILE", help="the script that was run: makes the bytes that the report hasn't")
    options = usage.parse_args(words)
    report = report_given()
    found = script_given(report, options.script).packets or told_packets(report)
    packets = [found[call.number] for call in report.bus if call.number in found]
    tell_what_lacks(report, packets)
    sys.stdout.buffer.write(capture_of(packets))
    return 0


if __name__ == "__main__":
    sys.exit(main(sys.argv[1:]))
