#!/usr/bin/env python3
"""Makes table images by Python's struct, and compares them with what the program reads and packs.

    images.py [PROGRAM]
"""
import os
import re
import struct
import subprocess
import sys
from pathlib import Path

TOP = Path(__file__).resolve().parent.parent
PROGRAM = os.environ.get("PROGRAM", str(TOP / "fsw"))
# cFE's file header, and the header of a table file behind it: all numbers are big-endian.
HEADERS = struct.Struct(">8I32s3I40s")
CONTENT_ID = 0x63464531
FAULTS = 0


def image(name, offset, table, sub=8, **fields):
    """A table image; each field of the headers may be given otherwise than `pack` leaves it."""
    of = {"content": CONTENT_ID, "length": 64, "made": (0, 0, 0, 0, 0), "text": b"", "reserved": 0, "size": len(table), **fields}
    return HEADERS.pack(of["content"], sub, of["length"], *of["made"], of["text"], of["reserved"], offset, of["size"], name) + table


def fsw(words, given):
    """The status, and what is written."""
    run = subprocess.run([PROGRAM, *words], input=given, stdout=subprocess.PIPE, timeout=600)
    return run.returncode, run.stdout


def expect(what, told, wanted):
    global FAULTS
    if told != wanted:
        print(f"{what}: {told[0]}, {told[1][:200]!r} and not {wanted[0]}, {wanted[1][:200]!r}")
        FAULTS += 1


def shown(name, offset, table, sub):
    return b"name=%s offset=%d size=%d sum=%d sub=%d\n" % (name, offset, len(table), sum(table), sub)


def main():
    largest = bytes(range(256)) * 4096
    for name, offset, table, sub in ((b"A.T", 0, b"\1\2\3\4", 8), (b"!" * 39, 4294967295, b"\xff", 0), (b"~", 65536, largest, 4294967295)):
        file = image(name, offset, table, sub)
        expect("image", fsw(["image"], file), (0, shown(name, offset, table, sub)))
        expect("pack", fsw(["pack", name.decode(), str(offset), str(sub)], table), (0, file))
    free = image(b"A.T\0old name", 2, b"\1\2", made=(0x42, 1, 7, 1000, 1 << 31), text=b"by hand", reserved=9, length=0)
    expect("fields that are free", fsw(["image"], free), (0, shown(b"A.T", 2, b"\1\2", 8)))
    refused = {
        "Short": image(b"A.T", 0, b"")[:-1],
        "NotCfe": image(b"A.T", 0, b"\1", content=CONTENT_ID + 1),
        "BadName": image(b"N" * 40, 0, b"\1"),
        "Empty": image(b"A.T", 0, b""),
        "Size": image(b"A.T", 0, b"\1", size=2),
        "TooLarge": image(b"A.T", 0, largest + b"\0"),
    }
    for name, file in refused.items():
        expect(name, fsw(["image"], file), (8, b"image:%s\n" % name.encode()))
    expect("pack of nothing", fsw(["pack", "A.T", "0", "8"], b""), (8, b"image:Empty\n"))
    expect("pack of too much", fsw(["pack", "A.T", "0", "8"], largest + b"\0"), (8, b"image:TooLarge\n"))
    file = (TOP / "examples/limits.image").read_bytes()
    lines = re.findall(rb"(?m)^tfile t\d+ (\S+)$", (TOP / "examples/table_file.fsw").read_bytes())
    expect("the example's file", (0, file), (0, image(b"PWR.Limits", 0, bytes([5, 24, 33, 40] * 2))))
    expect("the example's first line", (0, lines[0]), (0, file.hex().encode()))
    return 1 if FAULTS else 0


if __name__ == "__main__":
    if len(sys.argv) > 1:
        PROGRAM = sys.argv[1]
    sys.exit(main())
