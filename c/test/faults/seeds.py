"""Writes inputs that the fuzzers begin with: a folder for each of them.

    seeds.py FOLDER
"""
import shutil
import struct
import subprocess
import sys
from pathlib import Path

C = Path(__file__).resolve().parents[2]


def command(ident):
    made = bytearray(struct.pack('>HHHBB', ident, 0xC000, 5, 2, 0) + b'word')
    made[7] = 0xFF
    for byte in made[:7] + made[8:]:
        made[7] ^= byte
    return bytes(made)


def frames():
    """Packets, a gap, a sign of life, one replayed, one stale; the clock of fuzz_frame begins at 0x10000."""
    packet, made = struct.pack('>HHH', 0x0901, 0xC000, 3) + b'four', b''
    for number, start, sent, data in ((1, 0xF000, 0x10000, packet), (3, 0xF000, 0x10010, packet), (3, 0xF000, 0x10010, b''),
                                      (2, 0xF000, 0x10020, packet), (4, 0xF000, 0xF100, packet), (1, 0xFF00, 0x10030, packet)):
        frame = struct.pack('>QQQ', number, start, sent) + data
        made += struct.pack('>HB', len(frame), 8) + frame
    return made


def main():
    folder = Path(sys.argv[1])
    for name in ('datagram', 'frame', 'config', 'table'):
        (folder / name).mkdir(parents=True)
    (folder / 'datagram' / 'command').write_bytes(command(0x1882))
    (folder / 'datagram' / 'telemetry').write_bytes(command(0x0883))
    (folder / 'frame' / 'frames').write_bytes(frames())
    shutil.copy(C / 'examples' / 'sbn.conf', folder / 'config')
    subprocess.run([sys.executable, C / 'table_file.py', 'make', folder / 'table' / 'whole', 'APP.Table', '-'], input=bytes(range(64)), check=True)
    part = bytearray((folder / 'table' / 'whole').read_bytes()[:116 + 8])
    part[68:76] = struct.pack('>II', 16, 8)
    (folder / 'table' / 'part').write_bytes(part)


main()
