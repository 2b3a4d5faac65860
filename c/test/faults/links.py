"""Attacks processes that sbn_zmq joins, takes their power, and stops them: nothing is accepted that the file doesn't allow, memory is
bounded, and each refusal is counted and said.

    links.py [--long] PROGRAM ..      the command that runs sbn_node; --long: silence and power lost for 15 s
"""
import os
import signal
import socket
import struct
import subprocess
import sys
import tempfile
import time
from pathlib import Path

sys.path.insert(0, str(Path(__file__).resolve().parents[2] / 'examples' / 'test'))
from sbn_nodes import (DEALER, NOW, ROUTER, SUB, Net, Node, Socket, command_packet, expect, fail, frame, hear_each_other,  # noqa: E402
                       key_pair, milliseconds, node_packet, wait)

LONG = '--long' in sys.argv
COMMAND = [word for word in sys.argv[1:] if word != '--long']
QUIET = 15 if LONG else 4
# What strangers may add to a process's memory, in KiB: their connections, and what the kernel's caches take.
MOST_KIB = 24 * 1024 * (8 if COMMAND[-1:] and COMMAND[-1].endswith('.address') else 1)  # a sanitizer keeps what was freed
GREETING = b'\xff' + bytes(8) + b'\x7f' + b'\x03\x00' + b'NULL'.ljust(20, b'\0') + b'\0' + bytes(31)


def host_of(net, name):
    host, port = net.address[name][6:].rsplit(':', 1)
    return host, int(port)


def tcp(net, name, data, then=b'', times=1):
    """A connection that sends bytes, some of them many times, until the other end has enough."""
    try:
        with socket.create_connection(host_of(net, name), timeout=5) as made:
            made.sendall(data)
            for _ in range(times):
                made.sendall(then)
            time.sleep(0.1)
    except OSError:
        pass


def ends(nodes):
    for node in nodes:
        if node.program.poll() is None:
            node.stop()


# ---- Strangers ----

def strangers(folder):
    """No key, no CURVE, no ZeroMQ; subscriptions and frames without end. The link beside them goes on."""
    net = Net(folder)
    nodes = [Node(COMMAND, net, name) for name in ('alpha', 'beta')]
    alpha, beta = nodes
    try:
        hear_each_other(nodes)
        before = alpha.kibibytes()
        tcp(net, 'alpha', b'GET / HTTP/1.0\r\n\r\n')
        tcp(net, 'alpha', os.urandom(4096), os.urandom(65536), 64)
        tcp(net, 'alpha', GREETING, b'\x00\x21\x01' + os.urandom(32), 100000)  # subscriptions
        tcp(net, 'alpha', GREETING + b'\x02' + struct.pack('>Q', 1 << 30), bytes(65536), 1024)  # a frame of 1 GiB
        tcp(net, 'alpha', GREETING, b'\x01\xff' + bytes(255), 100000)  # a message without an end
        idle = [socket.create_connection(host_of(net, 'alpha'), timeout=5) for _ in range(200)]
        wait('strangers are counted', lambda: alpha.strangers >= 5)
        # No key; one that is in no file; one that takes another for the server; a stranger that subscribes.
        makers = [lambda: Socket(DEALER), lambda: Socket(DEALER, key_pair(), net.keys['alpha'][0]),
                  lambda: Socket(DEALER, key_pair(), net.keys['beta'][0]), lambda: Socket(SUB),
                  lambda: Socket(DEALER, net.keys['beta'], net.keys['gamma'][0])]
        for make in makers:
            seen, one = alpha.strangers, make().connect(net.address['alpha'])
            for _ in range(50):
                one.send(b'beta', flags=NOW)
            wait('a stranger is counted', lambda: alpha.strangers > seen)
            expect(one.receive() is None, 'a stranger is answered')
            one.close()
        one = Socket(DEALER, key_pair(), net.keys['alpha'][0]).connect(net.address['alpha'])
        wait('strangers are said', lambda: alpha.says('SBN: strangers refused') and alpha.says('the last: 127.0.0.1'))
        one.close()
        for each in idle:
            each.close()
        hear_each_other(nodes)
        expect(alpha.kibibytes() - before < MOST_KIB, f'strangers: {before} KiB became {alpha.kibibytes()}')
        expect(alpha.link('beta', 'missed') == 0 and beta.link('alpha', 'missed') == 0, f'strangers: {alpha.links} {beta.links}')
        expect(alpha.link('gamma', 'received') == 0 and not alpha.says('gamma is there'), 'strangers: one is taken for gamma')
    finally:
        ends(nodes)


# ---- Keys that were stolen ----

def stolen_key(folder):
    """Who has beta's key may say hello as beta alone, in small frames, and has no link while beta is there."""
    net = Net(folder)
    nodes = [Node(COMMAND, net, name) for name in ('alpha', 'beta')]
    alpha = nodes[0]
    try:
        hear_each_other(nodes)
        before = alpha.kibibytes()
        thieves = [Socket(DEALER, net.keys['beta'], net.keys['alpha'][0]).connect(net.address['alpha']) for _ in range(8)]
        for name, count in ((b'beta', 'doubled'), (b'gamma', 'refused'), (b'', 'refused'), (b'x' * 900, 'refused')):
            seen = alpha.link('beta', count)
            for thief in thieves:
                thief.send(name)
            wait(f'a stolen key that says {name[:9]} is counted', lambda: alpha.link('beta', count) > seen)
        seen = alpha.link('beta', 'refused')
        thieves[0].send(b'beta', b'beta')
        wait('two frames are counted', lambda: alpha.link('beta', 'refused') > seen)
        for _ in range(200):
            for thief in thieves:
                thief.send(b'beta', flags=NOW)
        seen = alpha.ended
        thieves[7].send(b'x' * 100000)
        wait('a hello that is too large ends its connection', lambda: alpha.ended > seen)
        expect(all(thief.receive() is None for thief in thieves[:2]), 'a stolen key gets messages while its owner has the link')
        wait('it is said', lambda: alpha.says('SBN: beta: refused'))
        hear_each_other(nodes)
        expect(alpha.kibibytes() - before < MOST_KIB, f'stolen key: {before} KiB became {alpha.kibibytes()}')
        expect(alpha.link('gamma', 'received') == 0 and alpha.link('beta', 'replayed') == 0, f'stolen key: {alpha.links}')
    finally:
        ends(nodes)


class Impostor:
    """Has beta's place and a key; sends what it likes to alpha."""

    def __init__(self, net, key, start=None):
        self.socket = Socket(ROUTER, key).bind(net.address['beta'])
        self.route, self.number, self.start = None, 0, start or milliseconds() - 1000

    def find(self, seconds=8):
        """Waits for a hello by another connection than the last."""
        last, deadline = self.route, time.monotonic() + seconds
        while self.route == last and time.monotonic() < deadline:
            route = self.socket.receive()
            expect(route is None or self.socket.receive() == b'alpha', 'alpha says hello with another name')
            self.route = route or last
        return self.route != last

    def send(self, *frames):
        self.socket.send(self.route, *frames)

    def packet(self, packet, **more):
        self.number += 1
        self.send(frame(self.number, packet, start=self.start, **more))


def in_betas_place(folder):
    """Another process at beta's address: with a key of its own nothing is heard of it. With beta's it speaks for beta, and for that alone."""
    may = {'alpha': 'publishes = [0x0901]; receives = [0x0902, 0x1902];',
           'beta': 'publishes = [0x0902, 0x0903]; commands = [0x1902, 0x1903]; receives = [0x0901];',
           'gamma': 'publishes = [0x0903]; commands = [0x1901]; receives = [0x0901, 0x0902, 0x0903, 0x1903];'}
    net = Net(folder, **may)
    alpha = Node(COMMAND, net, 'alpha')
    try:
        other = Impostor(net, key_pair())
        wait('a handshake with another key is counted', lambda: alpha.link('beta', 'failed') > 0)
        expect(not other.find(3), 'alpha said hello to a key that is not beta\'s')
        wait('it is said', lambda: alpha.says('SBN: beta: refused 0'))
        other.socket.close()
        thief = Impostor(net, net.keys['beta'])
        expect(thief.find(), 'alpha never says hello')
        count_each(alpha, thief)
        silence_and_flood(alpha, thief)
        thief.socket.close()
    finally:
        ends([alpha])


def count_each(alpha, thief):
    """Each kind of frame once and more, and what is counted of it. The last one good shows that the others were looked at."""
    good = node_packet(0x0902, 7)
    thief.packet(good)
    wait('a good message is taken', lambda: alpha.link('beta', 'received') == 1)
    bad = [node_packet(0x0901, 7), node_packet(0x0903, 7), node_packet(0x0883, 7), command_packet(0x1901), command_packet(0x1903),
           command_packet(0x1882), good + b'x', good[:-1], good[:6], b'abc', node_packet(0x0891, 1)]
    for packet in bad:
        thief.packet(packet)
    for raw in (b'', b'x', bytes(23), frame(0, good, thief.start), frame(5, good, 0)):
        thief.send(raw)
    thief.send(frame(9, good, thief.start), good)
    refused = len(bad) + 5
    now = milliseconds()
    for sent, start in ((now - 60000, now - 70000), (now + 60000, now - 1000), (0, 0x10), (now, now + 500)):
        thief.send(frame(thief.number + 1, good, start=start, sent=sent))
    for number, start in ((1, thief.start), (thief.number - 1, thief.start), (0, thief.start), (thief.number + 5, thief.start - 1)):
        thief.send(frame(number, b'' if number == 0 else good, start=start))
    thief.number += 10
    thief.packet(good)
    thief.packet(command_packet(0x1902))
    wait('the last good message is taken', lambda: alpha.link('beta', 'received') == 3)
    link = alpha.links['beta']
    # Ten numbers were never sent.
    want = {'refused': refused, 'stale': 4, 'replayed': 5, 'missed': 10}
    found = {count: link[count] for count in want}
    expect(found == want, f'in beta\'s place: {found}, not {want}')
    wait('it is said', lambda: alpha.says(f'SBN: beta: refused {refused} stale 4 replayed 5 missed 10'))
    expect(alpha.nodes['beta']['count'] == 2 and alpha.nodes['beta']['commands'] == 1, f'in beta\'s place: {alpha.nodes}')
    expect(alpha.echoes == 0 and 'gamma' not in alpha.nodes, f'in beta\'s place: {alpha.nodes}')


def silence_and_flood(alpha, thief):
    """A frame that is too large ends the connection; a message without an end is let go when its sender has been silent for 4 s."""
    before = alpha.kibibytes()
    ended = alpha.link('beta', 'ended')
    thief.send(frame(thief.number + 1, bytes(70000), thief.start))
    wait('the connection\'s end is counted', lambda: alpha.link('beta', 'ended') > ended)
    expect(thief.find(), 'alpha doesn\'t come back after a frame that is too large')
    thief.packet(node_packet(0x0902, 8))
    wait('a good message is taken again', lambda: alpha.link('beta', 'received') == 4)
    lost, part = alpha.link('beta', 'lost'), bytes(60000)
    thief.socket.send(thief.route, flags=2)
    for _ in range(600):
        thief.socket.send(part, flags=2)
        time.sleep(0.01)
    wait('beta is lost', lambda: alpha.link('beta', 'lost') > lost)
    thief.socket.send(b'')
    expect(thief.find(12), 'alpha doesn\'t come back after a message without an end')
    wait('memory is let go', lambda: alpha.kibibytes() - before < MOST_KIB)


def new_key(folder):
    """Beta gets a new key: each process reads the new file when it starts again; the old key is a stranger's."""
    net = Net(folder)
    nodes = {name: Node(COMMAND, net, name) for name in net.names}
    try:
        hear_each_other(nodes.values())
        old = net.keys['beta']
        net.new_key('beta')
        config = net.write('new.conf')
        for name in ('beta', 'alpha', 'gamma'):
            nodes[name].stop()
            nodes[name] = Node(COMMAND, net, name, config)
        hear_each_other(nodes.values())
        seen = nodes['alpha'].strangers
        with_old = Socket(DEALER, old, net.keys['alpha'][0]).connect(net.address['alpha'])
        with_old.send(b'beta')
        wait('the old key is refused', lambda: nodes['alpha'].strangers > seen)
        expect(with_old.receive() is None, 'the old key gets messages')
        with_old.close()
        expect(nodes['alpha'].link('beta', 'doubled') == 0, 'the old key is taken for beta\'s')
    finally:
        ends(nodes.values())


# ---- Silence and power ----

def is_exact(nodes, first):
    """Every message of alpha's that isn't at beta is counted: its numbers say how many there were. On a machine that is too slow for them
    the buses drop some, which they say."""
    link, counts = nodes[1].links['alpha'], nodes[1].nodes['alpha']
    expect(link['missed'] > 0 and link['refused'] == link['replayed'] == 0, f'silence: {link}')
    more = counts['last'] - counts['count'] - link['missed'] - first
    return more == 0 or (more > 0 and any(event.startswith(('limit id', 'overflow id')) for node in nodes for event in node.events))


def silence(folder):
    """Beta stands still while alpha sends 3,000 messages a second. What is lost is counted to the last message on both sides."""
    net = Net(folder, ['alpha', 'beta'])
    nodes = [Node(COMMAND, net, 'alpha', burst=60), Node(COMMAND, net, 'beta')]
    alpha, beta = nodes
    try:
        hear_each_other(nodes)
        before, first = alpha.kibibytes(), exact_first(beta)
        beta.program.send_signal(signal.SIGSTOP)
        time.sleep(QUIET)
        beta.program.send_signal(signal.SIGCONT)
        wait('alpha has lost beta', lambda: alpha.says('SBN: beta is lost'))
        wait('what is missed is counted', lambda: beta.link('alpha', 'missed') > 0)
        hear_each_other(nodes, 500)
        wait('what is missed is counted exactly', lambda: is_exact(nodes, first))
        wait('it is said', lambda: any('missed' in event and 'missed 0' not in event for event in beta.events))
        expect(alpha.link('beta', 'unsent') > 0, f'silence: {alpha.links}')
        expect(alpha.kibibytes() - before < MOST_KIB, f'silence: {before} KiB became {alpha.kibibytes()}')
        print(f'links: {QUIET} s of silence: {beta.link("alpha", "missed")} messages missed, all counted')
    finally:
        beta.program.send_signal(signal.SIGCONT)
        ends(nodes)


def exact_first(node):
    """How many of the other's messages there were before the first one that was received."""
    counts = node.nodes['alpha']
    return counts['last'] - counts['count']


def ip(*words):
    return subprocess.run(['ip', *words], capture_output=True, check=False).returncode == 0


def power(folder):
    """Beta has a network of its own, whose cable is cut: no word comes, as of a machine without power. Then it starts anew."""
    name = f'fsw{os.getpid() % 100000}'
    made = ip('netns', 'add', name) and ip('link', 'add', f'{name}a', 'type', 'veth', 'peer', 'name', f'{name}b', 'netns', name)
    try:
        if not made or not all([ip('addr', 'add', '198.18.7.1/30', 'dev', f'{name}a'), ip('link', 'set', f'{name}a', 'up'),
                                ip('-n', name, 'addr', 'add', '198.18.7.2/30', 'dev', f'{name}b'),
                                ip('-n', name, 'link', 'set', f'{name}b', 'up'), ip('-n', name, 'link', 'set', 'lo', 'up')]):
            print('links: power lost: skipped, no network namespace can be had')
            return
        net = Net(folder, ['alpha', 'beta'], ['198.18.7.1', '198.18.7.2'])
        lose_power(net, name)
    finally:
        ip('link', 'del', f'{name}a')
        ip('netns', 'del', name)


def lose_power(net, name):
    beside = ['ip', 'netns', 'exec', name, *COMMAND]
    nodes = [Node(COMMAND, net, 'alpha'), Node(beside, net, 'beta')]
    alpha, beta = nodes
    try:
        hear_each_other(nodes)
        # The cable is out for a while; both keep their numbers.
        ip('link', 'set', f'{name}a', 'down')
        wait('alpha loses beta', lambda: alpha.says('SBN: beta is lost'))
        time.sleep(QUIET)
        ip('link', 'set', f'{name}a', 'up')
        hear_each_other(nodes)
        expect(beta.link('alpha', 'missed') > 20 and alpha.link('beta', 'missed') > 20, f'cable: {alpha.links} {beta.links}')
        # Power lost: the process is gone, and no packet of its system's says so.
        lost = alpha.link('beta', 'lost')
        ip('link', 'set', f'{name}a', 'down')
        beta.stop(signal.SIGKILL)
        wait('alpha loses beta again', lambda: alpha.link('beta', 'lost') > lost)
        ip('link', 'set', f'{name}a', 'up')
        nodes[1] = Node(beside, net, 'beta')
        hear_each_other(nodes)
    finally:
        ends(nodes)


def main():
    if not COMMAND:
        fail('no program')
    for trial in (strangers, stolen_key, in_betas_place, new_key, silence, power):
        began = time.monotonic()
        with tempfile.TemporaryDirectory() as folder:
            trial(folder)
        print(f'links: {trial.__name__}: passed, {time.monotonic() - began:.0f} s', flush=True)


main()
