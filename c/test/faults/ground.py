"""Floods ground_link with datagrams that are no commands, while nobody reads what the program prints; then tests checksums.

    ground.py [--seconds SECONDS] PROGRAM ..      the command that runs mission; so long for random datagrams (5)
"""
import random
import select
import signal
import socket
import struct
import subprocess
import sys
import time

CMD, HK_ASK, HK = 0x1882, 0x1885, 0x0885
COUNTS = ('commands', 'no commands', 'checksums', 'strangers', 'full', 'sent')


def fail(what):
    sys.exit(f'ground: {what}')


def packet(ident, code, argument=b'', checksum=None):
    made = bytearray(struct.pack('>HHHBB', ident, 0xC000, len(argument) + 1, code, 0) + argument)
    if checksum:
        made[7] = 0xFF
        for byte in made[:7] + made[8:]:
            made[7] ^= byte
    return bytes(made)


class Mission:
    """The program with a pipe that nobody reads, and ground's side of its link."""

    def __init__(self, command, *words):
        self.down = socket.socket(socket.AF_INET, socket.SOCK_DGRAM)
        self.down.bind(('127.0.0.1', 0))
        with socket.socket(socket.AF_INET, socket.SOCK_DGRAM) as up:
            up.bind(('127.0.0.1', 0))
            self.up = up.getsockname()
        self.program = subprocess.Popen([*command, str(self.up[1]), str(self.down.getsockname()[1]), *words],
                                        stdout=subprocess.PIPE, stderr=subprocess.STDOUT)
        self.sum = bool(words)
        self.first = self.counts(30)

    def send(self, data):
        self.down.sendto(data, self.up)

    def counts(self, seconds=10):
        """What the link has counted; asked again until an answer comes."""
        deadline = time.monotonic() + seconds
        while select.select([self.down], [], [], 0)[0]:
            self.down.recv(65536)
        while time.monotonic() < deadline:
            self.send(packet(HK_ASK, 0, checksum=self.sum))
            while select.select([self.down], [], [], 0.3)[0]:
                data = self.down.recv(65536)
                if struct.unpack('>H', data[:2])[0] == HK:
                    return dict(zip(COUNTS, struct.unpack('<6I', data[16:])))
        return fail('no housekeeping: the link is deaf')

    def flood(self, datagrams, at_a_time=50):
        """Sends them, never more at a time than a socket's buffer or a pipe takes."""
        for place, data in enumerate(datagrams):
            self.send(data)
            if place % at_a_time == at_a_time - 1:
                self.counts()

    def kibibytes(self):
        with open(f'/proc/{self.program.pid}/status', encoding='ascii') as file:
            return next(int(line.split()[1]) for line in file if line.startswith('VmRSS'))

    def stop(self):
        """Ends within ten seconds, with nobody reading; what it printed."""
        self.program.send_signal(signal.SIGTERM)
        try:
            status = self.program.wait(timeout=10)
        except subprocess.TimeoutExpired:
            self.program.kill()
            fail('deaf to SIGTERM')
        if status:
            fail(f'status {status}')
        return self.program.stdout.read().decode(errors='replace')


def nobody_reads(command):
    mission = Mission(command)
    before = mission.kibibytes()
    mission.flood([b'x'] * 3000)
    counts = mission.counts()
    if counts['no commands'] != 3000:
        fail(f'3000 datagrams of one byte: {counts}')
    # Each of these is printed by sample_app: more than a pipe takes.
    mission.flood([packet(CMD, 0)] * 2500, 1)
    mission.counts()
    grown = mission.kibibytes() - before
    printed = mission.stop()
    if len(printed) < 60000:
        fail(f'{len(printed)} bytes of output fill no pipe')
    if printed.count('no command') != 16 or 'pipe read error' in printed:
        fail(f'the filter lets {printed.count("no command")} events through')
    # A sanitizer keeps what was freed.
    if grown > 8192 * (8 if command[-1].endswith('.address') else 1):
        fail(f'memory has grown by {grown} KiB')


def one_reads_again(command):
    mission = Mission(command)
    mission.flood([packet(CMD, 0)] * 2500, 1)
    text, deadline = b'', time.monotonic() + 20
    while b"lines weren't printed" not in text and time.monotonic() < deadline:
        mission.send(packet(CMD, 0))
        if select.select([mission.program.stdout], [], [], 0.1)[0]:
            text += mission.program.stdout.read1(65536)
    if b"lines weren't printed" not in text:
        fail('what was dropped is not said')
    mission.stop()


def checksums(command):
    mission = Mission(command, 'checksum')
    good = packet(CMD, 0, checksum=True)
    mission.flood([good, packet(CMD, 0), good[:7] + bytes([good[7] ^ 1]), packet(CMD, 3, b'abc', True), struct.pack('>HHHB', CMD, 0xC000, 0, 0)])
    counts = mission.counts()
    found = counts['checksums'], counts['no commands']
    if found != (3, 0):
        fail(f'checksums: {counts}')
    mission.stop()


def random_datagrams(command, seconds):
    """Changed commands and noise; each is counted."""
    mission, drawn, sent = Mission(command), random.Random(7), 0
    deadline = time.monotonic() + seconds
    while time.monotonic() < deadline:
        datagrams = []
        for _ in range(49):
            data = bytearray(packet(drawn.choice([CMD, 0x1883, HK_ASK, 0x0883]), drawn.randrange(6), drawn.randbytes(drawn.randrange(80))))
            for _ in range(drawn.randrange(4)):
                data[drawn.randrange(len(data))] = drawn.randrange(256)
            datagrams.append(bytes(data[:drawn.randrange(len(data) + 1)]) if drawn.random() < 0.3 else bytes(data))
        for data in datagrams:
            mission.send(data)
        sent += len(datagrams)
        # The first answer may be an earlier one's. The requests for housekeeping are commands too.
        until = time.monotonic() + 10
        while sum(mission.counts()[count] for count in COUNTS[:5]) < sent:
            if time.monotonic() > until:
                fail(f'{sent} datagrams, {mission.counts()}')
    mission.stop()
    print(f'ground: {sent} random datagrams, all counted')


def main():
    words = sys.argv[1:]
    seconds = 5.0
    if words[:1] == ['--seconds']:
        seconds, words = float(words[1]), words[2:]
    for trial in (nobody_reads, one_reads_again, checksums):
        trial(words)
        print(f'ground: {trial.__name__}: passed', flush=True)
    random_datagrams(words, seconds)


main()
