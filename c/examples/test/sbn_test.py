"""Joins processes by sbn_zmq, first two, then three, takes one away and has it come back.

    sbn_test.py [--two] [--beside OTHER] PROGRAM ..

PROGRAM .. is the command that runs sbn_node; OTHER is a sbn_node of another processor, which is the second process.
"""
import signal
import sys
import tempfile

from sbn_nodes import NAMES, Net, Node, expect, hear_each_other, wait


def is_lost(node, name):
    return node.says(f'SBN: {name} is lost') and not node.link(name, 'there')


def lose_and_find(nodes, start):
    """Takes the last one away without a word, and has it come back with its numbers from 1 on."""
    name = nodes[-1].name
    nodes.pop().stop(signal.SIGKILL)
    for node in nodes:
        wait(f'{node.name} loses {name}', lambda: is_lost(node, name))
    hear_each_other(nodes)
    nodes.append(start(name))
    hear_each_other(nodes)
    for node in nodes[:-1]:
        link = node.links[name]
        expect(link['found'] >= 2 and link['lost'] >= 1, f'{node.name}: {link}')
        expect(node.events.count(f'SBN: {name} is there') >= 2, f'{node.name}: {node.events}')


def compare_counts(nodes):
    for node in nodes:
        expect(node.echoes == 0 and node.refused == 0, f'{node.name}: {node.echoes} messages came back')
        for other in nodes[:-1]:
            if other is node:
                continue
            link, counts = node.links[other.name], node.nodes[other.name]
            expect(all(link[count] == 0 for count in ('refused', 'stale', 'replayed', 'missed', 'doubled')), f'{node.name}: {link}')
            # One behind another, none twice.
            expect(counts['gaps'] == 0, f'{node.name}: {counts}')
            expect(abs(counts['count'] - link['received']) <= 100, f'{node.name}: {counts} {link}')


def main():
    words = sys.argv[1:]
    names = NAMES[:2] if '--two' in words else NAMES
    command = [word for word in words if word != '--two']
    beside = [command.pop(0) for _ in range(2)][1:] if '--beside' in words else command
    commands = dict(zip(NAMES, (command, beside, command)))
    with tempfile.TemporaryDirectory() as folder:
        net, nodes = Net(folder, names), []
        try:
            for name in names:
                nodes.append(Node(commands[name], net, name))
                hear_each_other(nodes)
            lose_and_find(nodes, lambda name: Node(commands[name], net, name))
        finally:
            for node in nodes:
                node.stop()
        compare_counts(nodes)
    print(f'sbn_test passed: {len(names)} processes, one lost and back')


main()
