"""Plays an ordinary ground tool for ground_link: commands by UDP, telemetry back, every packet read by tshark where there is one.
The tables that it has loaded are files of table_file.py.

    ground_test.py PROGRAM ..      the command that runs mission; ports are appended where 1234 and 1235 are taken
"""
import importlib.util
import select
import shutil
import signal
import socket
import struct
import subprocess
import sys
import tempfile
import time
from pathlib import Path

TOP = Path(__file__).resolve().parents[3]
CMD, SEND_HK, HK, EVENTS = 0x1882, 0x1883, 0x0883, 0x0808
LINK_SEND_HK, LINK_HK = 0x1885, 0x0885
SECONDS = 60
# The table of sample_app's, compiled; it stands beside the program.
OBJECT = Path(sys.argv[-1]).resolve().parent / 'sample_app_tbl.o'


def packet(ident, code, count, argument=b''):
    """A command as cFE has it: the primary header, the function code, no checksum."""
    return struct.pack('>HHHBB', ident, 0xC000 | count, len(argument) + 1, code, 0) + argument


def fields_of(data):
    """What tshark is to say of a packet."""
    ident, sequence, length = struct.unpack('>HHH', data[:6])
    return {'version': ident >> 13, 'type': ident >> 12 & 1, 'secheader': ident >> 11 & 1, 'apid': ident & 0x7FF,
            'seqflag': sequence >> 14, 'seqnum': sequence & 0x3FFF, 'length': length}


def udp(port):
    made = socket.socket(socket.AF_INET, socket.SOCK_DGRAM)
    made.settimeout(SECONDS)
    made.bind(('127.0.0.1', port))
    return made


def ports():
    """The usual ports, or free ones: a socket for telemetry and where commands go."""
    try:
        udp(1234).close()
        return udp(1235), 1234
    except OSError:
        down, up = udp(0), udp(0)
        port = up.getsockname()[1]
        up.close()
        return down, port


class Ground:
    def __init__(self, down, port):
        self.down, self.port, self.count, self.seen, self.sent = down, port, 0, [], []

    def command(self, ident, code, argument=b''):
        data = packet(ident, code, self.count, argument)
        self.count += 1
        self.sent.append(data)
        self.raw(data)

    def raw(self, data):
        self.down.sendto(data, ('127.0.0.1', self.port))

    def receive(self, ident):
        """The next packet of this id. What it has behind the header, the telemetry's secondary header left out."""
        while True:
            data = self.down.recv(65536)
            self.seen.append(data)
            if fields_of(data)['apid'] == ident & 0x7FF:
                return data[16:]

    def event(self, text):
        """Waits for an event with this text."""
        while True:
            found = self.receive(EVENTS)[32:154].split(b'\0')[0].decode()
            if found == text:
                return

    def housekeeping(self):
        self.command(SEND_HK, 0)
        return struct.unpack('<BBH', self.receive(HK)[:4])

    def link_housekeeping(self):
        """Commands, no commands, wrong checksums, strangers, those without room, packets down."""
        self.command(LINK_SEND_HK, 0)
        return struct.unpack('<6I', self.receive(LINK_HK))


def table_file(*words, **more):
    run = subprocess.run([sys.executable, TOP / 'c' / 'table_file.py', *map(str, words)], capture_output=True, check=False, **more)
    return run.returncode, run.stdout, run.stderr.decode()


def load_tables(ground):
    """Two files for sample_app's table, by values and from bytes; one for another table; one of its source; and what is none."""
    with tempfile.TemporaryDirectory() as folder:
        file = Path(folder) / 'sample.tbl'
        for words, table, event in (
                (['SAMPLE_APP.SampleAppTable', '--as', 'HH', 9, 0x10], struct.pack('HH', 9, 16), f'SAMPLE: {file} loaded'),
                (['SAMPLE_APP.SampleAppTable', '-'], struct.pack('HH', 4, 5), f'SAMPLE: {file} loaded'),
                (['SAMPLE_APP.Other', '--as', 'HH', 1, 1], struct.pack('HH', 1, 1), f'SAMPLE: {file} not loaded, 0xcc000020')):
            expect(table_file('make', file, *words, input=table), (0, b'', ''))
            expect(table_file('bytes', file), (0, table, ''))
            shown = dict(line.split(maxsplit=1) for line in table_file('show', file)[1].decode().splitlines() if ' ' in line.strip())
            expect([shown[key].strip() for key in ('content', 'subtype', 'bytes', 'table')], ['cFE1', '8', '4', words[0]])
            ground.command(CMD, 4, str(file).encode().ljust(64, b'\0'))
            ground.event(event)
        ground.command(CMD, 2)
        ground.event('SAMPLE: sum 9')
        expect(table_file('object', OBJECT, cwd=folder), (0, b'', ''))
        expect(table_file('bytes', Path(folder) / 'sample_app.tbl'), (0, struct.pack('HH', 3, 8), ''))
        file.write_bytes(file.read_bytes()[:-1])
        expect(table_file('show', file), (1, b'', f'table_file: {file}: 3 bytes, where the header says 4\n'))


def expect(found, wanted):
    if found != wanted:
        sys.exit(f'ground_test: {found}, not {wanted}')


def play(ground):
    deadline = time.monotonic() + SECONDS
    ground.down.settimeout(0.3)
    while True:
        try:
            expect(ground.housekeeping(), (0, 0, 0))
            break
        except TimeoutError:
            if time.monotonic() > deadline:
                sys.exit('ground_test: no telemetry')
    ground.down.settimeout(SECONDS)
    ground.command(CMD, 0)
    ground.event('SAMPLE: NOOP command')
    ground.command(CMD, 2)
    ground.event('SAMPLE: sum 3')
    ground.command(CMD, 3, struct.pack('<I12s', 7, b'from ground'))
    ground.event('SAMPLE: value 7, text from ground')
    ground.command(CMD, 50)
    ground.event('SAMPLE: invalid command code 50')
    # No whole command of ground's: cut, too long, telemetry, another id, nothing.
    for data in (packet(CMD, 0, 0)[:7], packet(CMD, 0, 0) + b'x', packet(HK, 0, 0), packet(CMD, 0, 0, bytes(2000)), packet(0x1884, 0, 0), b''):
        ground.raw(data)
        ground.event(f"GROUND_LINK: {min(len(data), 1024)} bytes are no command of ground's")
    with socket.socket(socket.AF_INET, socket.SOCK_DGRAM) as stranger:
        stranger.bind(('127.0.0.2', 0))
        stranger.sendto(packet(CMD, 0, 0), ('127.0.0.1', ground.port))
        ground.event('GROUND_LINK: 8 bytes come from another address')
    while select.select([ground.down], [], [], 0.05)[0]:
        ground.seen.append(ground.down.recv(65536))
    expect(ground.housekeeping(), (1, 3, 3))
    for number in range(50):
        ground.command(CMD, 0)
        ground.event('SAMPLE: NOOP command')
    expect(ground.housekeeping(), (1, 53, 3))
    load_tables(ground)
    expect(ground.housekeeping(), (2, 56, 9))
    expect(ground.link_housekeeping()[1:5], (6, 0, 1, 0))
    counts = [fields_of(data)['seqnum'] for data in ground.seen if fields_of(data)['apid'] == EVENTS & 0x7FF]
    expect(counts, list(range(counts[0], counts[0] + len(counts))))


def read_by_tshark(packets):
    if not shutil.which('tshark'):
        print('ground_test: tshark is not installed')
        return
    place = importlib.util.spec_from_file_location('ccsds_tshark', TOP / '.ci' / 'ccsds_tshark.py')
    ccsds = importlib.util.module_from_spec(place)
    place.loader.exec_module(ccsds)
    for data, found in zip(packets, ccsds.dissected('tshark', packets), strict=True):
        expect(found, fields_of(data))
    print(f'ground_test: tshark reads {len(packets)} packets')


def main():
    down, port = ports()
    words = sys.argv[1:] + [str(port), str(down.getsockname()[1])]
    with subprocess.Popen(words, stdout=subprocess.DEVNULL, stderr=subprocess.PIPE, text=True) as program:
        ground = Ground(down, port)
        try:
            play(ground)
        finally:
            program.send_signal(signal.SIGTERM)
            printed = program.communicate(timeout=SECONDS)[1]
        if program.returncode:
            sys.exit(f'ground_test: status {program.returncode}: {printed}')
        if 'GROUND_LINK: ' not in printed or ', 7 refused' not in printed:
            sys.exit(f'ground_test: {printed}')
    read_by_tshark(ground.sent + ground.seen)
    print('ground_test passed')


main()
