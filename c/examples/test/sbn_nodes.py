"""Processes that sbn_zmq joins: their configuration and keys, what they print, and ZeroMQ's sockets for those who attack them."""
import ctypes
import ctypes.util
import signal
import socket
import struct
import subprocess
import sys
import threading
import time
from pathlib import Path

# So long a machine that is busy may take; the age of messages is chosen so too.
SECONDS = 180
NAMES = ['alpha', 'beta', 'gamma']


def fail(what):
    sys.exit(f'{Path(sys.argv[0]).stem}: {what}')


def expect(condition, what):
    if not condition:
        fail(what)


def wait(what, condition, seconds=SECONDS):
    deadline = time.monotonic() + seconds
    while not condition():
        if time.monotonic() > deadline:
            fail(f'not within {seconds} s: {what}')
        time.sleep(0.05)


def free_ports(count):
    made = [socket.socket() for _ in range(count)]
    for each in made:
        each.bind(('127.0.0.1', 0))
    ports = [each.getsockname()[1] for each in made]
    for each in made:
        each.close()
    return ports


# ---- ZeroMQ ----

zmq = ctypes.CDLL(ctypes.util.find_library('zmq'))
zmq.zmq_ctx_new.restype = zmq.zmq_socket.restype = ctypes.c_void_p
zmq.zmq_socket.argtypes = [ctypes.c_void_p, ctypes.c_int]
zmq.zmq_close.argtypes = [ctypes.c_void_p]
zmq.zmq_send.argtypes = [ctypes.c_void_p, ctypes.c_char_p, ctypes.c_size_t, ctypes.c_int]
zmq.zmq_recv.argtypes = [ctypes.c_void_p, ctypes.c_char_p, ctypes.c_size_t, ctypes.c_int]
zmq.zmq_setsockopt.argtypes = [ctypes.c_void_p, ctypes.c_int, ctypes.c_void_p, ctypes.c_size_t]
zmq.zmq_bind.argtypes = zmq.zmq_connect.argtypes = [ctypes.c_void_p, ctypes.c_char_p]
CONTEXT = zmq.zmq_ctx_new()
DEALER, ROUTER, SUB = 5, 6, 2
NOW, MORE = 1, 2


def key_pair():
    """A public and a secret key, which no file has."""
    public, secret = ctypes.create_string_buffer(41), ctypes.create_string_buffer(41)
    zmq.zmq_curve_keypair(public, secret)
    return public.value.decode(), secret.value.decode()


class Socket:
    """A socket with keys: of its own, and of the server if it is a client."""

    def __init__(self, kind, own=None, server=None):
        self.at = zmq.zmq_socket(CONTEXT, kind)
        self.number(17, 0)    # ZMQ_LINGER
        self.number(27, 500)  # ZMQ_RCVTIMEO
        self.number(28, 500)  # ZMQ_SNDTIMEO
        if own and not server:
            self.number(47, 1)        # ZMQ_CURVE_SERVER
            self.text(49, own[1])     # ZMQ_CURVE_SECRETKEY
        elif own:
            self.text(48, own[0])     # ZMQ_CURVE_PUBLICKEY
            self.text(49, own[1])
            self.text(50, server)     # ZMQ_CURVE_SERVERKEY

    def number(self, option, value):
        zmq.zmq_setsockopt(self.at, option, ctypes.byref(ctypes.c_int(value)), 4)

    def text(self, option, value):
        data = value.encode()
        expect(zmq.zmq_setsockopt(self.at, option, data, len(data)) == 0, f'option {option} of a socket')

    def connect(self, address):
        expect(zmq.zmq_connect(self.at, address.encode()) == 0, f'no connection to {address}')
        return self

    def bind(self, address):
        # A socket that was closed leaves its address some time later.
        wait(f'a socket at {address}', lambda: zmq.zmq_bind(self.at, address.encode()) == 0)
        return self

    def send(self, *frames, flags=0):
        return all(zmq.zmq_send(self.at, frame, len(frame), flags | (MORE if place + 1 < len(frames) else 0)) >= 0
                   for place, frame in enumerate(frames))

    def receive(self):
        room = ctypes.create_string_buffer(70000)
        length = zmq.zmq_recv(self.at, room, len(room), 0)
        return room.raw[:length] if length >= 0 else None

    def close(self):
        zmq.zmq_close(self.at)


# ---- Messages ----

def node_packet(ident, number):
    """The message of a node, as sbn_node's struct has it."""
    return struct.pack('>HHH', ident, 0xC000, 20 - 7) + bytes(10) + struct.pack('<I', number)


def command_packet(ident):
    return struct.pack('>HHHBB', ident, 0xC000, 1, 0, 0)


def milliseconds():
    return int(time.time() * 1000)


def frame(number, packet=b'', start=1, sent=None):
    return struct.pack('>QQQ', number, start, milliseconds() if sent is None else sent) + packet


# ---- Processes ----

class Net:
    """The configuration of some processes, and the files of their keys."""

    def __init__(self, folder, names=NAMES, hosts=None, **peers):
        self.folder, self.names, self.keys, self.peers = Path(folder), names, {}, peers
        hosts = hosts or ['127.0.0.1'] * len(names)
        self.address = {name: f'tcp://{host}:{port}' for name, host, port in zip(names, hosts, free_ports(len(names)))}
        for name in names:
            self.new_key(name)
        self.config = self.write('sbn.conf')

    def new_key(self, name):
        self.keys[name] = key_pair()
        file = self.secret(name)
        file.unlink(missing_ok=True)
        file.write_text(self.keys[name][1], encoding='ascii')
        file.chmod(0o600)

    def secret(self, name):
        return self.folder / f'{name}.secret'

    def write(self, file):
        """All telemetry to all, so that what is sent back or twice shows, unless `peers` says else."""
        usual = 'publishes = [0x0901, 0x0902, 0x0903]; receives = [0x0901, 0x0902, 0x0903];'
        groups = ',\n'.join(f'{{ name = "{name}"; address = "{self.address[name]}"; key = "{self.keys[name][0]}";\n'
                            f'  {self.peers.get(name, usual)} }}' for name in self.names)
        path = self.folder / file
        path.write_text(f'age = 30000;\npeers = (\n{groups}\n);\n', encoding='ascii')
        return path


class Node:
    """A process, its events, and the last counts that it printed."""

    def __init__(self, command, net, name, config=None, burst=1):
        self.name, self.events, self.links, self.nodes, self.strangers, self.ended, self.echoes, self.refused = name, [], {}, {}, 0, 0, 0, 0
        words = [*command, config or net.config, name, net.secret(name), str(burst)]
        self.program = subprocess.Popen(words, stdout=subprocess.PIPE, stderr=subprocess.PIPE, text=True)
        self.reader = threading.Thread(target=self.read, daemon=True)
        self.reader.start()

    def read(self):
        for line in self.program.stdout:
            words = line.split()
            if line.startswith('EVS '):
                self.events.append(line.split(': ', 1)[1].strip())
            elif words[0] == 'link':
                self.links[words[1]] = dict(zip(words[2::2], map(int, words[3::2])))
            elif words[0] == 'node':
                self.nodes[NAMES[int(words[1]) - 1]] = dict(zip(words[2::2], map(int, words[3::2])))
            elif words[0] == 'strangers':
                self.strangers, self.ended = int(words[1]), int(words[3])
            self.echoes += words[0] == 'echo'
            self.refused += words[0] == 'refused'

    def stop(self, how=signal.SIGTERM):
        self.program.send_signal(how)
        self.reader.join()
        errors = self.program.stderr.read()
        self.program.stderr.close()
        status = self.program.wait(timeout=SECONDS)
        if how == signal.SIGTERM and status:
            fail(f'{self.name}: status {status}: {errors}')

    def link(self, other, count):
        return self.links.get(other, {}).get(count, 0)

    def hears(self, other, count):
        return self.link(other, 'there') == 1 and self.nodes.get(other, {}).get('count', 0) >= count

    def says(self, text):
        return any(text in event for event in self.events)

    def kibibytes(self):
        """The memory that the process has now."""
        for line in Path(f'/proc/{self.program.pid}/status').read_text(encoding='ascii').splitlines():
            if line.startswith('VmRSS'):
                return int(line.split()[1])
        return 0


def hear_each_other(nodes, more=20):
    for node in nodes:
        for other in nodes:
            if other is not node:
                before = node.nodes.get(other.name, {}).get('count', 0)
                wait(f'{node.name} hears {other.name}', lambda: node.hears(other.name, before + more))
