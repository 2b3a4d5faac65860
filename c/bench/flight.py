"""The figures of docs/FLIGHT.md, of what `make bench` left in build and, with TARGET, in build/aarch64.

    flight.py              prints the page's tables
    flight.py --write      puts them into the page
    flight.py --check      the status is 1 if code, stack or memory grew by 5 percent over the page

A processor of which nothing is built has empty cells, or on --check is left out.
"""
import os
import re
import subprocess
import sys
from pathlib import Path

import stack

TOP = Path(__file__).resolve().parent.parent
PAGE = TOP.parent / 'docs' / 'FLIGHT.md'
CRATES = TOP.parent / 'crates'
BUILDS = {'x86-64': TOP / 'build', 'AArch64': TOP / 'build' / 'aarch64'}
TOOLS = {'x86-64': '', 'AArch64': 'aarch64-linux-gnu-'}
# Else glibc clears and copies by instructions of x86-64 that repeat, each byte of which counts as one.
WHOLE = {'GLIBC_TUNABLES': ':'.join(f'glibc.cpu.x86_rep_{it}_threshold=1000000000' for it in ('movsb', 'stosb'))}
EMULATORS = {'x86-64': 'qemu-x86_64', 'AArch64': 'qemu-aarch64'}
GROWTH = 1.05

# The layer's files, by service.
SERVICES = {}
for file in sorted((TOP / 'cfe').glob('*.c')):
    SERVICES.setdefault(file.stem.partition('_')[0], []).append(f'{file.stem}.o')
PARTS = [('the library', ['libfsw.a']), ('its memory from malloc', ['heap.o']), ('its memory from one block', ['arena.o']),
         ("the layer in cFE's names", ['libfsw_cfe.a']), ('the OS layer', ['libfsw_osal.a']),
         *((f'of the layer `{service}`', files) for service, files in SERVICES.items())]

STACKS = [('a call of the library', 'calls_test', ('fsw_raw_',)), ('a call of the layer', 'layer_test', ('CFE_', 'OS_')),
          ('`fsw_run`', 'layer_test', ('fsw_run',))]

# Each call with its file, the clause `cost` behind what it was before, and what that says.
SENT = ('32 + 4 * length (route self.old.whole.bus.subscriptions {0}) + 8 * drops_for self.old.whole.bus app {0}',
        '32, 4 for each subscription of the id, 8 for each oldest message that is dropped')
STEPS = [('`fsw_transmit`', 'bus_core/src/sending.rt', 'transmit', SENT[0].format('(message_id bytes.now)'), SENT[1]),
         ('`fsw_transmit_buffer`', 'bus_core/src/lending.rt', 'transmit_buffer_lending',
          SENT[0].format('(message_id (bytes_at held.old buf))'), SENT[1]),
         ('`fsw_send_housekeeping`', 'bus_core/src/counters.rt', 'send_housekeeping', SENT[0].format('housekeeping_id'), SENT[1]),
         ('`fsw_receive`', 'bus_core/src/lending.rt', 'receive_lending', '32', '32'),
         ('`fsw_pend`', 'bus_core/src/lending.rt', 'pend_lending', '32', '32'),
         ('`fsw_allocate_buffer`', 'bus_core/src/lending.rt', 'allocate_lending', '32', '32'),
         ('`fsw_release_buffer`', 'bus_core/src/lending.rt', 'release_lending', '32', '32'),
         ('`fsw_subscribe`', 'bus_core/src/subscribing.rt', 'subscribe',
          '2 * length (route self.old.whole.bus.subscriptions id) + 10', '10, 2 for each subscription of the id'),
         ('`fsw_unsubscribe`', 'bus_core/src/subscribing.rt', 'unsubscribe',
          '3 * length (route self.old.whole.bus.subscriptions id) + 10', '10, 3 for each subscription of the id'),
         ('`fsw_pool_get`', 'bus_core/src/pools.rt', 'pool_get', '8', '8'),
         ('`fsw_pool_put`', 'bus_core/src/pools.rt', 'pool_put', '8', '8'),
         ('`fsw_table_register`', 'table_core/src/registering.rt', 'register', '16', '16'),
         ('`fsw_table_unregister`', 'table_core/src/leaving.rt', 'unregister', '16', '16'),
         ('`fsw_end`, of the tables', 'table_core/src/leaving.rt', 'end',
          '16 * count_by (λ h. h.app == app) self.old.state.handles', '16 for each of its handles')]

# Each call, what calls_range counts at its least and at its most, and when these are.
CALLS = [('transmit', 'transmit_least', '7 bytes, nobody subscribes', 'transmit_most', '64 bytes, 64 pipes are full: 64 events'),
         ('transmit', 'transmit_one', '64 bytes, 1 pipe', 'transmit_all', '64 bytes, 64 pipes'),
         ('transmit', 'transmit_one', 'the same', 'transmit_oldest', '64 bytes, 64 pipes drop their oldest message: 64 events'),
         ('receive', 'receive_least', 'no message', 'receive_most', 'a message; the last reader lets the one before go'),
         ('allocate_buffer', 'allocate_buffer_least', '7 bytes', 'allocate_buffer_most', '65542 bytes, zeros'),
         ('transmit_buffer', 'transmit_buffer_least', 'nobody subscribes', 'transmit_buffer_most', '64 pipes are full: 64 events'),
         ('release_buffer', 'release_buffer_least', '7 bytes', 'release_buffer_most', '65542 bytes'),
         ('create_pipe', 'create_pipe_least', 'the first', 'create_pipe_most', 'the 256th'),
         ('find_pipe', 'find_pipe_least', 'of 1 pipe', 'find_pipe_most', 'the last of 256'),
         ('delete_pipe', 'delete_pipe_least', 'the only one, no subscription', 'delete_pipe_most',
          'of 256, with 1019 subscriptions and 1024 messages'),
         ('subscribe', 'subscribe_least', 'the first', 'subscribe_most', 'the 64th of its id'),
         ('unsubscribe', 'unsubscribe_least', 'the only one', 'unsubscribe_most', 'the last of 64'),
         ('pool_create', 'pool_create_least', 'the first', 'pool_create_most', 'the 8th'),
         ('pool_get', 'pool_get_least', 'the first', 'pool_get_most', 'the 501st'),
         ('pool_put', 'pool_put_least', 'the only one', 'pool_put_most', 'of 501'),
         ('register', 'register_least', 'no filter', 'register_most', '8 filters'),
         ('send_event', 'send_event_least', 'no text', 'send_event_most', '200 bytes, the 8th filter, the log is full'),
         ('send_housekeeping', 'send_housekeeping_least', 'nobody subscribes', 'send_housekeeping_most', '64 pipes'),
         ('table_register', 'table_register_least', '4 bytes, the first', 'table_register_most', '65536 bytes, 8 rules, the 256th'),
         ('table_share', 'table_share_least', 'of 1 table', 'table_share_most', 'the last of 256'),
         ('table_load', 'table_load_least', '4 bytes', 'table_load_most', '65536 bytes, 8 rules'),
         ('table_get_address', 'table_get_address_least', 'of 1 handle', 'table_get_address_most', 'of 1024 handles'),
         ('table_release_address', 'table_release_address_least', 'of 1 handle', 'table_release_address_most', 'of 1024 handles'),
         ('table_unregister', 'table_unregister_least', 'the only one', 'table_unregister_most', 'of 1024 handles'),
         ('end', 'end_least', 'nothing is left', 'end_most', '254 pipes, 500 grants, 255 tables')]

# When the layer's mutex is held longest.
RUNS = 7
HELD = {'CFE_SB_TransmitMsg': '64 pipes are full, 64 events are sent', 'CFE_SB_ReceiveBuffer': 'a message of 64 readers',
        'CFE_EVS_SendEvent': '120 bytes, sent as a packet', 'CFE_TBL_Load': '65536 bytes',
        'CFE_SB_DeletePipe': 'of 256, with 1000 subscriptions and 1024 messages',
        'CFE_ES_ExitApp': 'the same, and 255 pipes more'}

# What a call goes over one by one: two counts, and how many more there are in the second.
GROWS = [('`fsw_create_pipe`: a live pipe, by name', 'create_pipe_least', 'create_pipe_most', 255),
         ('`fsw_find_pipe`: a live pipe, by name', 'find_pipe_least', 'find_pipe_most', 255),
         ('`fsw_delete_pipe`: a subscription that there ever was at once', 'delete_pipe_least', 'delete_pipe_empty', 1275),
         ('`fsw_delete_pipe`: a subscription of the pipe', 'delete_pipe_empty', 'delete_pipe_routed', 1019),
         ('`fsw_delete_pipe`: a message that waits', 'delete_pipe_routed', 'delete_pipe_most', 1024),
         ('`fsw_end`: a pipe of the application', 'end_least', 'end_most', 254),
         ('`fsw_table_register`, `fsw_table_share`: a table, by name', 'table_share_least', 'table_share_most', 255)]


def is_there(processor):
    return (BUILDS[processor] / 'calls_range').exists()


def sizes(processor, files):
    """The bytes of code and constants, and of variables."""
    build = BUILDS[processor]
    told = subprocess.run([f'{TOOLS[processor]}size', '-t', *(build / file for file in files)], capture_output=True, text=True,
                          check=True).stdout
    text, data, bss = (int(word) for word in told.splitlines()[-1].split()[:3])
    return text, data + bss


def code_table():
    rows = []
    for part, files in PARTS:
        cells = [sizes(processor, files) if is_there(processor) else ('', '') for processor in BUILDS]
        rows.append([part, *(shown(each) for pair in cells for each in pair)])
    return ['Part', *(f'{processor}, {what}' for processor in BUILDS for what in ('code', 'variables'))], rows


def stack_table():
    rows = []
    known = {}
    for what, program, prefixes in STACKS:
        row = [what]
        for processor, build in BUILDS.items():
            if not is_there(processor):
                row += ['', '']
                continue
            key = build / program
            known[key] = known.get(key) or stack.Stacks(key)
            found = [(depth, name) for prefix in prefixes for name, (depth, _) in known[key].all_of(prefix).items()]
            depth, name = max(found)
            row += [shown(depth), f'`{name.replace("fsw_raw_", "fsw_")}`']
        rows.append(row)
    return ['Greatest stack of', *(word for processor in BUILDS for word in (f'{processor}, bytes', 'in'))], rows


def memory_table():
    rows = {}
    for processor, build in BUILDS.items():
        words = [*([] if processor == 'x86-64' else [EMULATORS[processor]]), build / 'calls_range', 'memory']
        told = subprocess.run(words, capture_output=True, text=True, check=True).stdout if is_there(processor) else ''
        for what, taken, needed in re.findall(r'^(\w+) taken (\d+) needed (\d+)$', told, re.M):
            rows.setdefault(what, [what, shown(int(needed))]).append(shown(int(taken)))
    return ['Limits', '`fsw_bytes_needed`', *(f'taken at open, {processor}' for processor in BUILDS)], list(rows.values())


def instructions():
    """Those of each call that calls_range makes, by processor, as qemu counts them."""
    found = {}
    for processor, build in BUILDS.items():
        if is_there(processor):
            words = [EMULATORS[processor], '-plugin', BUILDS['x86-64'] / 'counted.so', build / 'calls_range']
            run = subprocess.run(words, capture_output=True, text=True, check=True, env={**os.environ, **WHOLE})
            found[processor] = {name: int(count) for name, count in re.findall(r'^(\w+) (\d+)$', run.stderr, re.M)}
    return found


def calls_table(found):
    rows = []
    for call, least, when_least, most, when_most in CALLS:
        cells = [shown(counts[name]) for name in (least, most) for counts in found.values()]
        each = len(found)
        rows.append([f'`fsw_{call}`', when_least, *cells[:each], when_most, *cells[each:]])
    return ['Call', 'At least, when', *found, 'At most, when', *found], rows


def growth_table(found):
    rows = [[what, *(f'{(counts[second] - counts[first]) / more:.1f}' for counts in found.values())]
            for what, first, second, more in GROWS]
    return ['Instructions for each', *found], rows


def held_table():
    """The mutex's times on this machine: the least of several runs, so that what else it does isn't in them."""
    held = {}
    for _ in range(RUNS if is_there('x86-64') else 0):
        told = subprocess.run([BUILDS['x86-64'] / 'layer_held'], capture_output=True, text=True, check=True).stdout
        for call, time in re.findall(r'^(\w+) held (\d+)$', told, re.M):
            held[call] = min(int(time), held.get(call, int(time)))
    return ['Call', 'When', 'Held, µs'], [[f'`{call}`', HELD[call], f'{time / 1000:.1f}'] for call, time in held.items()]


def steps_table():
    """The clauses are read, so that the page says what is proved."""
    rows = []
    for call, file, name, clause, says in STEPS:
        text = (CRATES / file).read_text(encoding='utf-8')
        body = text[re.search(rf'fn {name}\b', text).start():]
        read = ' '.join(re.search(r'ensures cost \{(.*?)\}', body, re.S)[1].split())
        if read != f'steps.new ≤ steps.old + {clause}':
            sys.exit(f'{file}: the cost of {name} is now {read}')
        rows.append([call, says])
    return ['Call', 'At most'], rows


def shown(number):
    return f'{number:,}' if isinstance(number, int) else number


def text_of(table):
    columns, rows = table
    return '\n'.join(f'| {" | ".join(cells)} |' for cells in [columns, ['---'] * len(columns), *rows]) + '\n'


def table_below(text, heading):
    """Where the table below this heading stands in the page."""
    found = re.compile(rf'^## {re.escape(heading)}\n.*?^((?:\|[^\n]*\n)+)', re.M | re.S).search(text)
    if not found:
        sys.exit(f'flight: {PAGE} has no table below {heading}')
    return found.span(1)


def grown(text, heading, table):
    """What grew by more than the page allows."""
    begin, end = table_below(text, heading)
    lines = [[cell.strip() for cell in line.strip().strip('|').split('|')] for line in text[begin:end].splitlines()]
    columns, page = lines[0], {line[0]: line for line in lines[2:]}
    for row in table[1]:
        for column, cell in zip(table[0], row):
            now = cell.replace(',', '')
            was = dict(zip(columns, page.get(row[0], []))).get(column, '').replace(',', '')
            if now.isdigit() and (not was.isdigit() or int(now) > GROWTH * int(was)):
                yield f'{heading}, {row[0]}, {column}: {cell}, the page has {was or "nothing"}'


def main():
    sizes_of = {'Code': code_table(), 'Stack': stack_table(), 'Memory': memory_table()}
    text = PAGE.read_text(encoding='utf-8') if PAGE.exists() else ''
    if '--check' in sys.argv:
        steps_table()
        faults = [fault for heading, table in sizes_of.items() for fault in grown(text, heading, table)]
        print('\n'.join(faults) or 'flight: code, stack and memory are within 5 percent of the page')
        return 1 if faults else 0
    found = instructions()
    all_of = {**sizes_of, 'Steps': steps_table(), 'Instructions': calls_table(found),
              'Not bounded by a constant': growth_table(found), 'Mutex': held_table()}
    for heading, table in all_of.items():
        if '--write' in sys.argv:
            begin, end = table_below(text, heading)
            text = text[:begin] + text_of(table) + text[end:]
        else:
            print(f'## {heading}\n\n{text_of(table)}')
    if '--write' in sys.argv:
        PAGE.write_text(text, encoding='utf-8')
    return 0


if __name__ == '__main__':
    sys.exit(main())
