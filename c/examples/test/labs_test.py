"""Plays ground for the five applications of labs: commands by UDP, tables loaded in flight, telemetry back.

    labs_test.py PROGRAM ..      the command that runs labs
"""
import signal
import socket
import struct
import subprocess
import sys
import tempfile
import time
from pathlib import Path

TOP = Path(__file__).resolve().parents[3]
SECONDS = 60
TBL_CMD, EVENTS = 0x1804, 0x0808
CI_CMD, CI_SEND_HK, CI_HK = 0x1884, 0x1885, 0x0884
TO_CMD, TO_SEND_HK, TO_HK = 0x1880, 0x1881, 0x0880
HK_CMD, HK_SEND_HK, HK_SEND_COMBINED, HK_HK, COMBINED = 0x189A, 0x189B, 0x189C, 0x089B, 0x089C
LC_CMD, LC_SEND_HK, LC_HK = 0x18A4, 0x18A5, 0x08A7
NOOP, RESET, OUTPUT_ENABLE = 0, 1, 6
LOAD, VALIDATE, ACTIVATE, ABORT = 2, 4, 5, 9


def packet(ident, code, argument=b''):
    return struct.pack('>HHHBB', ident, 0xC000, len(argument) + 1, code, 0) + argument


def table_file(path, name, form, *values):
    subprocess.run([sys.executable, TOP / 'c' / 'table_file.py', 'make', path, name, '--as', form, *map(str, values)], check=True)


def schedule(path, tick, *entries):
    values = [number for entry in entries for number in (*entry, 0)] + [0] * (4 * (8 - len(entries)))
    table_file(path, 'SCH_LAB_APP.ScheduleTable', 'I' + 'IIHH' * 8, tick, *values)


class Ground:
    def __init__(self):
        self.down = socket.socket(socket.AF_INET, socket.SOCK_DGRAM)
        self.down.bind(('127.0.0.1', 0))
        with socket.socket(socket.AF_INET, socket.SOCK_DGRAM) as up:
            up.bind(('127.0.0.1', 0))
            self.port = up.getsockname()[1]
        self.deadline = time.monotonic() + 4 * SECONDS

    def command(self, ident, code, argument=b''):
        self.down.sendto(packet(ident, code, argument), ('127.0.0.1', self.port))

    def receive(self, ident, seconds=SECONDS):
        """What the next packet of this id has behind its header."""
        end = min(time.monotonic() + seconds, self.deadline)
        while time.monotonic() < end:
            self.down.settimeout(max(end - time.monotonic(), 0.01))
            data = self.down.recv(65536)
            if struct.unpack('>H', data[:2])[0] == ident:
                return data[16:]
        raise TimeoutError(f'no packet {ident:#x}')

    def event(self, app, text):
        """Waits for an event of an application's that begins so."""
        while True:
            data = self.receive(EVENTS)
            if data[:20].split(b'\0')[0].decode() == app and data[32:154].split(b'\0')[0].decode().startswith(text):
                return

    def enable(self):
        """Has telemetry sent; the first commands may come before the program hears."""
        while True:
            self.command(TO_CMD, OUTPUT_ENABLE, b'127.0.0.1'.ljust(16, b'\0'))
            self.command(TO_CMD, NOOP)
            try:
                self.receive(EVENTS, 0.5)
                return
            except TimeoutError:
                if time.monotonic() > self.deadline:
                    raise

    def counters(self, send_hk, ident):
        self.command(send_hk, 0)
        return struct.unpack('<BBHI', self.receive(ident)[:8])

    def load(self, file, table, send_hk, verdict=''):
        """Has a table staged and validated in flight. Its owner does its part with its housekeeping."""
        self.command(TBL_CMD, LOAD, file.encode().ljust(64, b'\0'))
        self.event('CFE_TBL', f'load of {table}')
        self.command(TBL_CMD, VALIDATE, struct.pack('<H40s', 0, table.encode()))
        self.command(send_hk, 0)
        self.event('CFE_TBL', f'validation of {table}{verdict}')

    def activate(self, table):
        self.command(TBL_CMD, ACTIVATE, table.encode().ljust(40, b'\0'))


def expect(found, wanted):
    if found != wanted:
        sys.exit(f'labs_test: {found}, not {wanted}')


def play(ground, folder):
    ground.enable()
    # Each application obeys; what is none is counted.
    for cmd, send_hk, hk, name in ((CI_CMD, CI_SEND_HK, CI_HK, 'CI_LAB'), (TO_CMD, TO_SEND_HK, TO_HK, 'TO_LAB'),
                                   (HK_CMD, HK_SEND_HK, HK_HK, 'HK'), (LC_CMD, LC_SEND_HK, LC_HK, 'LC')):
        app = {'CI_LAB': 'CI_LAB_APP', 'TO_LAB': 'TO_LAB_APP', 'HK': 'HK_APP'}.get(name, name)
        ground.command(cmd, RESET)
        ground.command(cmd, NOOP)
        ground.event(app, f'{name}: NOOP command')
        ground.command(cmd, 99)
        ground.event(app, f'{name}: no command 99')
        expect(ground.counters(send_hk, hk)[:2], (1, 1))
    ground.down.sendto(b'no command', ('127.0.0.1', ground.port))
    ground.event('CI_LAB_APP', 'CI_LAB: 10 bytes are no command')
    # The schedule of the file has the combiner send every tick; it combines the counts of CI_LAB's and LC's housekeeping.
    ingested = ground.counters(CI_SEND_HK, CI_HK)[3]
    while struct.unpack('<I', ground.receive(COMBINED)[4:8])[0] < ingested:
        pass
    # Ground loads the limits, and the limit checker says that one is passed.
    table_file(folder / 'cf' / 'lc_wdt.tbl', 'LC.LC_WDT', 'I' * 24, CI_HK, 20, ingested + 3, *[0] * 21)
    ground.load('/cf/lc_wdt.tbl', 'LC.LC_WDT', LC_SEND_HK)
    ground.activate('LC.LC_WDT')
    ground.command(LC_SEND_HK, 0)
    ground.event('LC', 'LC: new definition table')
    for _ in range(4):
        ground.command(LC_CMD, NOOP)
    ground.command(CI_SEND_HK, 0)
    ground.event('LC', 'LC: watchpoint 0 passed its limit')
    expect(ground.counters(LC_SEND_HK, LC_HK)[3] >= 1, True)
    # A table that isn't valid stays out, and goes.
    table_file(folder / 'cf' / 'bad.tbl', 'LC.LC_WDT', 'I' * 24, 0x2000, *[0] * 23)
    ground.load('/cf/bad.tbl', 'LC.LC_WDT', LC_SEND_HK, ' refused')
    ground.activate('LC.LC_WDT')
    ground.event('CFE_TBL', 'Inactive image not validated')
    ground.command(TBL_CMD, ABORT, b'LC.LC_WDT'.ljust(40, b'\0'))
    ground.event('CFE_TBL', 'Load aborted')
    ground.command(TBL_CMD, LOAD, b'/../outside.tbl'.ljust(64, b'\0'))
    ground.event('CFE_TBL', 'load of no table refused 0xcc00002c')
    # The copy table and the schedule change in flight.
    table_file(folder / 'cf' / 'copy.tbl', 'HK_APP.CopyTable', 'I' + 'IHHI' * 8, COMBINED, TO_HK, 16, 0, 2, *[0] * 28)
    ground.load('/cf/copy.tbl', 'HK_APP.CopyTable', HK_SEND_HK)
    ground.activate('HK_APP.CopyTable')
    ground.command(HK_SEND_HK, 0)
    ground.event('HK_APP', 'HK: new copy table')
    schedule(folder / 'cf' / 'sch.tbl', 20, (TO_CMD, 1, NOOP), (HK_SEND_COMBINED, 2, 0), (TO_SEND_HK, 3, 0))
    ground.load('/cf/sch.tbl', 'SCH_LAB_APP.ScheduleTable', HK_SEND_HK)
    ground.activate('SCH_LAB_APP.ScheduleTable')
    ground.event('CFE_TBL', 'update of SCH_LAB_APP.ScheduleTable')
    ground.event('TO_LAB_APP', 'TO_LAB: NOOP command')
    while ground.receive(COMBINED)[1] < 3:
        pass


def main():
    ground = Ground()
    with tempfile.TemporaryDirectory() as name:
        folder = Path(name)
        (folder / 'cf').mkdir()
        schedule(folder / 'cf' / 'sch_lab.tbl', 50, (HK_SEND_COMBINED, 1, 0), (CI_SEND_HK, 2, 0), (LC_SEND_HK, 4, 0))
        table_file(folder / 'cf' / 'to_lab_sub.tbl', 'TO_LAB_APP.TO_LAB_Subs', 'I' * 16, EVENTS, CI_HK, TO_HK, HK_HK, LC_HK, COMBINED,
                   *[0] * 10)
        table_file(folder / 'cf' / 'hk_cpy_tbl.tbl', 'HK_APP.CopyTable', 'I' + 'IHHI' * 8, COMBINED, CI_HK, 20, 4, 4, LC_HK, 20, 8, 4,
                   *[0] * 24)
        words = [*sys.argv[1:], str(folder), str(ground.port), str(ground.down.getsockname()[1])]
        with subprocess.Popen(words, stdout=subprocess.DEVNULL, stderr=subprocess.PIPE, text=True) as program:
            try:
                play(ground, folder)
            finally:
                program.send_signal(signal.SIGTERM)
                printed = program.communicate(timeout=SECONDS)[1]
            if program.returncode:
                sys.exit(f'labs_test: status {program.returncode}: {printed}')
    print('labs_test passed')


main()
