#!/usr/bin/env python3
"""Asks tshark's CCSDS dissector what it reads in the packets that rows_packets prints.

    ccsds_tshark.py [--install] [FILE]    compares the packets of FILE, or of standard input
    ccsds_tshark.py --table               prints the packets of the table below, built here

A line is one packet in hexadecimal. The packets are those of the table, in its order. Each is
compared with the packet that this script builds from the bits of the standard (CCSDS 133.0-B-2,
section 4.1.3), and tshark's fields with the table's. The status is 0 where all agree, and 1 where
anything differs. Where there is no tshark with that dissector it is 0 with a word that says so;
with --install the packages of Debian are tried first.
"""
import itertools
import os
import shutil
import struct
import subprocess
import sys
import tempfile

PORT = 27000
PAYLOAD = 0x5A
# Packet type (1 is a command), secondary header flag, APID, size in bytes, sequence count: the last
# varies fastest.
TABLE = list(itertools.product((0, 1), (0, 1), (0, 1, 0x7FF), (7, 8, 64, 300), (0, 1, 16383)))
FIELDS = ("version", "type", "secheader", "apid", "seqflag", "seqnum", "length")


def expected_fields(row):
    """What tshark is to say of a packet of the table, by its names of the fields."""
    kind, secondary, apid, size, count = row
    return dict(version=0, type=kind, secheader=secondary, apid=apid, seqflag=3, seqnum=count, length=size - 7)


def packet(row):
    """The packet's bytes, its header as a string of 48 bits."""
    kind, secondary, apid, size, count = row
    bits = f"{0:03b}{kind:01b}{secondary:01b}{apid:011b}{3:02b}{count:014b}{size - 7:016b}"
    return int(bits, 2).to_bytes(6, "big") + bytes([PAYLOAD]) * (size - 6)


def capture(packets):
    """A capture file with each packet in a UDP datagram of its own, over bare IPv4."""
    raw_ip = 101
    parts = [struct.pack("<IHHiIII", 0xA1B2C3D4, 2, 4, 0, 0, 65535, raw_ip)]
    address = bytes([127, 0, 0, 1])
    for number, data in enumerate(packets):
        udp = struct.pack(">HHHH", PORT, PORT, 8 + len(data), 0) + data
        ip = struct.pack(">BBHHHBBH", 0x45, 0, 20 + len(udp), number, 0, 64, 17, 0) + address + address
        frame = ip + udp
        parts.append(struct.pack("<IIII", number, 0, len(frame), len(frame)) + frame)
    return b"".join(parts)


def dissected(tshark, packets):
    """For each packet a dictionary of tshark's fields, None where it gave no number."""
    with tempfile.TemporaryDirectory() as folder:
        path = os.path.join(folder, "packets.pcap")
        with open(path, "wb") as file:
            file.write(capture(packets))
        command = [tshark, "-n", "-r", path, "-d", f"udp.port=={PORT},ccsds", "-T", "fields", "-E", "separator=,"]
        for field in FIELDS:
            command += ["-e", f"ccsds.{field}"]
        run = subprocess.run(command, capture_output=True, text=True, timeout=100)
    if run.returncode != 0:
        sys.exit(f"ccsds_tshark: tshark ended with status {run.returncode}: {run.stderr.strip()}")
    return [dict(zip(FIELDS, map(number_of, line.split(",")))) for line in run.stdout.splitlines()]


def number_of(text):
    """tshark prints numbers in decimal or with 0x, and flags as a number or a word."""
    words = {"True": 1, "False": 0}
    try:
        return words[text] if text in words else int(text, 0)
    except ValueError:
        return None


def find_tshark(install):
    """The path of a tshark that knows the dissector, or None."""
    if install and not shutil.which("tshark") and shutil.which("apt-get"):
        quiet = dict(stdout=subprocess.DEVNULL, stderr=subprocess.DEVNULL, stdin=subprocess.DEVNULL)
        environment = dict(os.environ, DEBIAN_FRONTEND="noninteractive")
        subprocess.run(["apt-get", "update"], env=environment, **quiet)
        subprocess.run(["apt-get", "install", "-y", "tshark"], env=environment, **quiet)
    tshark = shutil.which("tshark")
    if tshark is None:
        return None
    known = subprocess.run([tshark, "-G", "protocols"], capture_output=True, text=True)
    names = [name for line in known.stdout.splitlines() for name in line.split("\t")]
    return tshark if "ccsds" in names else None


def main(words):
    if words == ["--table"]:
        for row in TABLE:
            print(packet(row).hex())
        return 0
    install = "--install" in words
    files = [word for word in words if word != "--install"]
    if len(files) > 1 or any(word.startswith("--") for word in files):
        sys.exit(__doc__)
    with open(files[0]) if files else sys.stdin as lines:
        packets = [bytes.fromhex(line) for line in lines]
    differences = []
    if len(packets) != len(TABLE):
        differences.append(f"{len(packets)} packets, and {len(TABLE)} in the table")
    for number, (row, data) in enumerate(zip(TABLE, packets), 1):
        if data != packet(row):
            differences.append(f"packet {number}: begins {data[:7].hex()}, wanted {packet(row)[:7].hex()}")
    tshark = find_tshark(install)
    seen = dissected(tshark, packets) if tshark else []
    if tshark and len(seen) != len(packets):
        differences.append(f"tshark read {len(seen)} of {len(packets)} packets")
    for number, (row, fields) in enumerate(zip(TABLE, seen), 1):
        for name, wanted in expected_fields(row).items():
            if fields.get(name) != wanted:
                differences.append(f"packet {number}: tshark reads {name} {fields.get(name)}, wanted {wanted}")
    for difference in differences:
        print(f"ccsds_tshark: {difference}")
    if differences:
        return 1
    if tshark is None:
        print("ccsds_tshark: no tshark with a CCSDS dissector here: its part is skipped")
    else:
        print(f"ccsds_tshark: {len(packets)} packets, tshark reads the fields of each as the table has them")
    return 0


if __name__ == "__main__":
    sys.exit(main(sys.argv[1:]))
