"""Random lists of calls, made on the library by ctypes and on the executable model: answers, bytes, counters, events and
figures are the same, and bytes that are held stay.

    random_calls.py MODEL LIBRARY.so LISTS [CALLS [FIRST]]

MODEL is the model's file. LIBRARY.so has the exports of fsw.h; of another processor it is the command that runs calls_server
there, as one word. A list that differs is named by its number: it is made again by
`random_calls.py MODEL LIBRARY.so 1 CALLS NUMBER`.
"""
import ctypes
import importlib.util
import random
import shlex
import struct as packing
import subprocess
import sys

U8, U16, U32, U64 = ctypes.c_uint8, ctypes.c_uint16, ctypes.c_uint32, ctypes.c_uint64
SIZE, POINTER, FLAG = ctypes.c_size_t, ctypes.c_void_p, ctypes.c_bool
OVERHEAD = 16

STATUS = {
    'CFE_SB_TIME_OUT': 0xCA000001, 'CFE_SB_NO_MESSAGE': 0xCA000002, 'CFE_SB_BAD_ARGUMENT': 0xCA000003,
    'CFE_SB_MAX_PIPES_MET': 0xCA000004, 'CFE_SB_PIPE_CR_ERR': 0xCA000005, 'CFE_SB_MSG_TOO_BIG': 0xCA000007,
    'CFE_SB_BUFFER_INVALID': 0xCA00000E, 'CFE_SB_BUF_ALOC_ERR': 0xCA000008, 'CFE_SB_MAX_MSGS_MET': 0xCA000009, 'CFE_SB_MAX_DESTS_MET': 0xCA00000A,
    'CFE_ES_ERR_MEM_BLOCK_SIZE': 0xC4000008, 'NO_SUCH_POOL': 0xC4000001,
    'CFE_ES_BUFFER_NOT_IN_POOL': 0xC4000025, 'CFE_ES_POOL_BLOCK_INVALID': 0xC400002C,
    'CFE_EVS_APP_NOT_REGISTERED': 0xC2000002, 'CFE_EVS_EVT_NOT_REGISTERED': 0xC2000006,
    'CFE_TBL_ERR_INVALID_HANDLE': 0xCC000001, 'CFE_TBL_ERR_INVALID_NAME': 0xCC000002,
    'CFE_TBL_ERR_INVALID_SIZE': 0xCC000003, 'CFE_TBL_ERR_NEVER_LOADED': 0xCC000005,
    'CFE_TBL_ERR_REGISTRY_FULL': 0xCC000006, 'CFE_TBL_ERR_NO_ACCESS': 0xCC000008,
    'CFE_TBL_ERR_UNREGISTERED': 0xCC000009, 'CFE_TBL_ERR_HANDLES_FULL': 0xCC00000B,
    'CFE_TBL_ERR_DUPLICATE_DIFF_SIZE': 0xCC00000C, 'CFE_TBL_ERR_DUPLICATE_NOT_OWNED': 0xCC00000D,
    'CFE_TBL_INFO_UPDATED': 0x4C00000E, 'CFE_TBL_ERR_NO_BUFFER_AVAIL': 0xCC00000F, 'CFE_TBL_ERR_DUMP_ONLY': 0xCC000010,
    'CFE_TBL_ERR_LOAD_IN_PROGRESS': 0xCC000012, 'CFE_TBL_ERR_FILE_TOO_LARGE': 0xCC000014,
    'CFE_TBL_INFO_NO_UPDATE_PENDING': 0x4C000017, 'CFE_TBL_INFO_TABLE_LOCKED': 0x4C000018, 'NOT_VALIDATED': 0x4C000019,
    'NO_LOAD': 0x4C00001A, 'CFE_TBL_ERR_PARTIAL_LOAD': 0xCC000023, 'CFE_TBL_ERR_INVALID_OPTIONS': 0xCC000025,
    'CFE_SUCCESS': 0,
}
PENDING, NO_APPLICATION, NOT_ACTIVE = 0x40000001, 0xC0000005, 0xC0000007
NO_ROOM, BUFFER_OUT = 0xC0000009, 0xC000000A
RULE_FAILED, DUPLICATE = 0xC0000100, 0x4C000007

LIMITS = ('apps', 'buffers', 'msgids', 'pipes', 'dests', 'depth', 'msgmax', 'pool', 'apppool', 'tables', 'handles',
          'tablemax', 'tablepool', 'version', 'blockmin')


def struct(*fields):
    return type('Struct', (ctypes.Structure,), {'_fields_': list(fields)})


Core = struct(('at', POINTER), ('is_open', U64))
Limits = struct(*((name, U32) for name in LIMITS))
Sent = struct(('number', U64), ('reached', U32))
Bytes = struct(('at', POINTER), ('len', SIZE))
Buffer = struct(('at', POINTER), ('len', SIZE), ('number', U64), ('is_out', U64))
Message = struct(('at', POINTER), ('len', SIZE), ('number', U64))
PoolBlock = struct(('offset', U32), ('size', U32))
PoolStats = struct(('size', U32), ('requests', U32), ('errors', U32), ('free', U32))
Filter = struct(('id', U16), ('mask', U16))
Line = struct(('app', U32), ('id', U32), ('kind', U32), ('text', POINTER), ('text_len', SIZE))
EventCounts = struct(*((name, U32) for name in ('sent', 'filtered', 'cut', 'refused', 'lost', 'logged', 'mode')))
Counters = struct(*((name, U32) for name in ('nosub', 'send', 'recv', 'create', 'sub', 'opts', 'find', 'dup', 'limit',
                                             'overflow', 'oldest')))
Use = struct(*((name, U32) for name in ('msgids', 'pipes', 'subs', 'buffers', 'bytes')))
Rule = struct(('offset', U32), ('low', U8), ('high', U8))
Address = struct(('at', POINTER), ('len', SIZE), ('version', U64))
TableStatus = struct(('version', U64), ('staged', U32), ('holds', U32), ('loaded', FLAG))
TableUse = struct(('tables', U32), ('handles', U32), ('bytes', U32))


class Differs(Exception):
    pass


def same(what, library, model):
    if library != model:
        raise Differs(f'{what}: the library has {library}, the model {model}')


def fields(value):
    return {name: getattr(value, name) for name, _ in value._fields_}


class Here:
    """The library in this process."""

    def __init__(self, path):
        self.calls, self.core = ctypes.CDLL(path), Core()

    def call(self, name, words):
        call = getattr(self.calls, 'fsw_raw_' + name)
        call.restype = U32
        return call(ctypes.byref(self.core), *words)

    read = staticmethod(ctypes.string_at)
    write = staticmethod(lambda at, data: ctypes.memmove(at, data, len(data)))


class Served:
    """The library behind calls_server."""

    def __init__(self, command):
        pipes = dict(stdin=subprocess.PIPE, stdout=subprocess.PIPE)
        self.server = subprocess.Popen(shlex.split(command), **pipes)

    def send(self, *parts):
        self.server.stdin.write(b''.join(parts))
        self.server.stdin.flush()

    def call(self, name, words):
        """A word is bytes, an array, what byref was given, or a number; what isn't bytes is written back."""
        memory, sent = [], []
        for word in words:
            there = getattr(word, '_obj', word)
            if there is not word or isinstance(word, (bytes, ctypes.Array)):
                memory.append(there)
                sent += [b'B', packing.pack('<Q', len(bytes(there))), bytes(there)]
            else:
                sent += [b'N', packing.pack('<Q', getattr(word, 'value', word))]
        self.send(b'C', name.encode().ljust(24, b'\0'), bytes([len(words)]), *sent)
        status, = packing.unpack('<I', self.server.stdout.read(4))
        for there in memory:
            data = self.server.stdout.read(len(bytes(there)))
            if not isinstance(there, bytes):
                ctypes.memmove(ctypes.byref(there), data, len(data))
        return status

    def read(self, at, length):
        self.send(b'R', packing.pack('<QQ', at, length))
        return self.server.stdout.read(length)

    def write(self, at, data):
        self.send(b'W', packing.pack('<QQ', at, len(data)), data)


class Places:
    """Where the blocks of a pool lie: a place is an offset and a size."""

    def __init__(self):
        self.out = {}       # grant: place, of those that are out
        self.free = []      # the places of the others
        self.cut = 0        # the bytes that were cut

    def due(self, size):
        """The places that a grant of a block of this size may have: a free one, or else behind what was cut."""
        return [place for place in self.free if place[1] == size] or [(self.cut + OVERHEAD, size)]

    def give(self, grant, place):
        if place in self.free:
            self.free.remove(place)
        else:
            self.cut += OVERHEAD + place[1]
        self.out[grant] = place

    def put(self, grant):
        self.free.append(self.out.pop(grant))


class Run:
    """One list of calls, on both."""

    def __init__(self, model, library, number):
        self.model, self.library, self.draw = model, library, random.Random(number)
        self.cfg = self.configuration()
        self.apps = self.draw.randint(1, 4)
        self.bus = model.Bus(self.cfg, self.apps)
        self.tables = model.Tables(self.cfg, self.apps)
        self.views = {}     # key: (address, bytes) of what is held
        self.pools = []     # the places of each pool's blocks
        self.buffers = []   # (application, size asked for, Buffer), of those that are out
        self.room = self.draw.randint(0, 3)
        limits = Limits(**{name: getattr(self.cfg, name, 0) for name in LIMITS})
        limits.apps, limits.buffers = self.apps, self.room
        same('open', self.ask('open', ctypes.byref(limits)), 0)

    def configuration(self):
        cfg, draw = self.model.Config(), self.draw
        cfg.msgids, cfg.pipes, cfg.dests, cfg.depth = (draw.randint(1, 6) for _ in range(4))
        cfg.msgmax = draw.choice((7, 64, 200, 65542, 65542, 65542))
        cfg.pool, cfg.tablepool = draw.choice((200, 1000, 4000, 200000)), draw.choice((100, 500, 4000, 4000))
        cfg.apppool, cfg.tables, cfg.handles = draw.choice((200, 2000, 100000)), draw.randint(1, 5), draw.randint(1, 8)
        cfg.tablemax, cfg.version = draw.choice((4, 40)), draw.randint(1, 2)
        cfg.blockmin = draw.choice((0, 0, 8, 9, 33, 64, 80000))
        cfg.sizes = [size for size in cfg.sizes if size >= cfg.blockmin]
        return cfg

    def ask(self, name, *words):
        return self.library.call(name, words)

    # --- drawing

    def app(self):
        return self.draw.randint(1, self.apps) if self.draw.random() < 0.97 else self.draw.choice((0, self.apps + 1, 2**32 - 1))

    def near(self, most):
        return self.draw.randint(1, max(1, most + 1))

    def pipe_of(self, app):
        """A pipe of the application, mostly."""
        own = [number for number, pipe in self.bus.pipes.items() if pipe.owner == app]
        return self.draw.choice(own) if own and self.draw.random() < 0.85 else self.near(self.bus.pipes_created)

    def some_id(self):
        """An id that somebody subscribes to, mostly."""
        heard = [mid for mid, subs in self.bus.route.items() if subs]
        return self.draw.choice(heard) if heard and self.draw.random() < 0.8 else self.draw.choice((0x801, 0x802, 0x803, 0x1804))

    def pool_number(self):
        there = self.pools and self.draw.random() < 0.9
        return self.draw.randint(1, len(self.pools)) if there else self.draw.choice((0, len(self.pools) + 1))

    def handle_of(self, app):
        """A handle of the application, mostly."""
        own = [number for number, handle in self.tables.handles.items() if handle.app == app]
        return self.draw.choice(own) if own and self.draw.random() < 0.85 else self.near(self.tables.handles_made)

    def message(self):
        draw, size = self.draw, self.draw.choice((7, 8, 20, 60, 64, 100, 201))
        data = bytearray(self.model.make_message(self.some_id(), size, draw.randint(0, 255)))
        if draw.random() < 0.1:
            data[draw.randint(0, 5)] ^= draw.randint(1, 255)
        return bytes(data[:draw.randint(0, size)] if draw.random() < 0.05 else data)

    def name(self, letters='ABCDEFGH'):
        return self.draw.choice((*(2 * [letter.encode() for letter in letters]), b'A' * self.draw.choice((15, 16, 19, 20)), b''))

    # --- a call of an application

    def may_bus(self, app):
        """The status of a call of the bus that may not be made."""
        if not 1 <= app <= self.apps:
            return NO_APPLICATION
        return 0 if self.bus.state[app] == self.model.ACTIVE else NOT_ACTIVE

    def may_table(self, app):
        if not 1 <= app <= self.apps:
            return NO_APPLICATION
        return NOT_ACTIVE if app in self.tables.ended else 0

    def step(self, service, app, call, status, numbers=()):
        """Makes the call on the model, and compares the status and the numbers that the library told."""
        may = self.may_bus(app) if service is self.bus else self.may_table(app)
        if may:
            same(f'{call} by {app}', status, may)
            return None
        answer = service.call(app, call, '')
        kind = answer[0]
        wanted = {'refused': lambda: STATUS[answer[1]], 'timeout': lambda: STATUS['CFE_SB_TIME_OUT'],
                  'pending': lambda: PENDING, 'duplicate': lambda: DUPLICATE, 'address': lambda: STATUS[answer[1]],
                  'validation': lambda: RULE_FAILED + answer[1]}.get(kind, lambda: 0)()
        same(f'{call} by {app}', status, wanted)
        told = {'number': answer[1:], 'sent': answer[1:], 'duplicate': answer[1:]}.get(kind)
        if told is not None and numbers:
            same(f'{call} by {app}, numbers', tuple(number.value if hasattr(number, 'value') else number for number in numbers),
                 tuple(told))
        return answer

    def hold(self, key, at, data):
        same(f'bytes of {key}', self.library.read(at, len(data)), data)
        same(f'alignment of {key}', at % 8, 0)
        self.views[key] = (at, data)

    def check_views(self):
        for key, (at, data) in self.views.items():
            same(f'held bytes of {key}', self.library.read(at, len(data)), data)

    def drop_views(self, test):
        self.views = {key: view for key, view in self.views.items() if not test(key)}

    # --- the bus

    def create(self, app):
        pipe, name, depth = U32(), self.name(), self.draw.choice((0, 1, self.cfg.depth, self.cfg.depth, self.cfg.depth + 1))
        status = self.ask('create_pipe', app, depth, name, SIZE(len(name)), ctypes.byref(pipe))
        self.step(self.bus, app, ('create', depth, name), status, (pipe,))

    def delete(self, app):
        if self.draw.random() < 0.7:
            return
        pipe = self.pipe_of(app)
        answer = self.step(self.bus, app, ('delete', pipe), self.ask('delete_pipe', app, pipe))
        if answer == ('done',):
            self.drop_views(lambda key: key == ('pipe', pipe))

    def options(self, app):
        pipe, bits, now = self.pipe_of(app), self.draw.randint(0, 4), U8()
        self.step(self.bus, app, ('opts', pipe, bits), self.ask('set_options', app, pipe, U8(bits)))
        reader = next((a for a in range(1, self.apps + 1) if not self.may_bus(a)), None)
        if reader:
            self.step(self.bus, reader, ('getopts', pipe), self.ask('get_options', pipe, ctypes.byref(now)), (now,))

    def names(self, _):
        reader = next((a for a in range(1, self.apps + 1) if not self.may_bus(a)), None)
        if not reader:
            return
        name, pipe, into, length = self.name(), U32(), ctypes.create_string_buffer(19), U32()
        status = self.ask('find_pipe', name, SIZE(len(name)), ctypes.byref(pipe))
        self.step(self.bus, reader, ('find', name), status, (pipe,))
        number = self.pipe_of(self.app())
        status = self.ask('pipe_name', number, into, SIZE(19), ctypes.byref(length))
        answer = self.step(self.bus, reader, ('pname', number), status)
        if answer[0] == 'name':
            same('a name', into.raw[:length.value], answer[1])

    def subscribe(self, app):
        mid = self.draw.choice((0, 0x801, 0x801, 0x801, 0x801, 0x802, 0x802, 0x802, 0x803, 0x803, 0x1804, 0x2000))
        pipe, limit, scope = self.pipe_of(app), self.draw.choice((0, 1, 2, 5, 5, 9)), self.draw.randint(0, 1)
        status = self.ask('subscribe', app, U16(mid), pipe, limit, scope)
        self.step(self.bus, app, ('sub', mid, pipe, limit, scope), status)

    def unsubscribe(self, app):
        if self.draw.random() < 0.7:
            return
        mid, pipe = self.draw.choice((0x801, 0x802, 0x803)), self.pipe_of(app)
        self.step(self.bus, app, ('unsub', mid, pipe), self.ask('unsubscribe', app, U16(mid), pipe))

    def send(self, app):
        data, counts, sent = self.message(), self.draw.random() < 0.7, Sent(77, 77)
        status = self.ask('transmit', app, data, SIZE(len(data)), FLAG(counts), ctypes.byref(sent))
        self.step(self.bus, app, ('send', data, counts), status, (sent.number, sent.reached))

    def got(self, pipe, message, answer):
        self.drop_views(lambda key: key == ('pipe', pipe))
        if answer[0] == 'got':
            item = self.bus.pipes[pipe].last
            same('the number of a message', message.number, answer[1])
            same('the length of a message', message.len, len(item.m))
            self.hold(('pipe', pipe), message.at, item.m)

    def receive(self, app):
        pipe, message = self.pipe_of(app), Message()
        kind = 'pend' if self.draw.random() < 0.15 else 'recv'
        status = self.ask('receive' if kind == 'recv' else 'pend', app, pipe, ctypes.byref(message))
        answer = self.step(self.bus, app, (kind, pipe), status)
        if answer and answer != ('refused', 'CFE_SB_BAD_ARGUMENT'):
            self.got(pipe, message, answer)

    def look(self, app):
        message = Message()
        status = self.ask('look', app, ctypes.byref(message))
        if not 1 <= app <= self.apps:
            return same('look', status, NO_APPLICATION)
        pipe = self.bus.state[app]
        if pipe in (self.model.ACTIVE, self.model.ENDED):
            return same('look', status, NOT_ACTIVE)
        answer = self.bus.look(app)
        same('look', status, {'got': 0, 'timeout': STATUS['CFE_SB_TIME_OUT'], 'pending': PENDING}[answer[0]])
        if answer[0] == 'got':
            self.got(pipe, message, answer)
        return None

    def waiting(self, _):
        count, pipe = U32(), self.pipe_of(self.app())
        status = self.ask('waiting', pipe, ctypes.byref(count))
        if pipe in self.bus.pipes:
            same('messages that wait', (status, count.value), (0, len(self.bus.pipes[pipe].queue)))
        else:
            same('messages that wait', status, STATUS['CFE_SB_BAD_ARGUMENT'])

    # --- buffers

    def allocate(self, app):
        buffer, size = Buffer(), self.draw.choice((0, 6, 7, 20, 60, 64, 100, 200, 201, 65543))
        status = self.ask('allocate_buffer', app, size, ctypes.byref(buffer))
        if not self.may_bus(app) and sum(owner == app for owner, _, _ in self.buffers) >= self.room:
            return same('a buffer more', (status, fields(buffer)), (NO_ROOM, fields(Buffer())))
        answer = self.step(self.bus, app, ('alloc', size), status, (buffer.number,))
        same('whether a buffer is out', buffer.is_out, int(bool(answer) and answer[0] == 'number'))
        if buffer.is_out:
            same('a block', (buffer.len, buffer.at % 8), (min(each for each in self.cfg.sizes if each >= size), 0))
            same('a new buffer', self.library.read(buffer.at, size), bytes(size))
            same('a second one', self.ask('allocate_buffer', app, size, ctypes.byref(buffer)), BUFFER_OUT)
            self.buffers.append((app, size, buffer))
        return None

    def some_buffer(self, app):
        """A buffer of the application, mostly; else of another, or none."""
        own = [each for each in self.buffers if each[0] == app]
        if own and self.draw.random() < 0.85:
            return self.draw.choice(own)
        return self.draw.choice(self.buffers) if self.buffers and self.draw.random() < 0.5 else (app, 0, Buffer())

    def pass_buffer(self, app):
        """Writes a message in place, and sends it or gives the buffer back."""
        owner, size, buffer = self.some_buffer(app)
        if buffer.is_out and self.draw.random() < 0.9:
            self.library.write(buffer.at, self.message()[:size])
        whole = self.library.read(buffer.at, buffer.len) if buffer.is_out else b''
        written, before = whole[:size] if owner == app else b'', fields(buffer)
        if self.draw.random() < 0.8:
            counts, sent = self.draw.random() < 0.7, Sent(77, 77)
            status = self.ask('transmit_buffer', app, ctypes.byref(buffer), FLAG(counts), ctypes.byref(sent))
            answer = self.step(self.bus, app, ('xmit', before['number'], written, counts), status, (sent.number, sent.reached))
        else:
            status = self.ask('release_buffer', app, ctypes.byref(buffer))
            answer = self.step(self.bus, app, ('release', before['number']), status)
        if answer and answer[0] != 'refused':
            same('a buffer that is gone', fields(buffer), fields(Buffer()))
            self.buffers = [each for each in self.buffers if each[2] is not buffer]
        else:
            same('a buffer that stays', fields(buffer), before)
            same('its bytes', self.library.read(buffer.at, buffer.len) if buffer.is_out else b'', whole)

    # --- pools, events, counters

    def pool(self, app):
        number, most = U32(), self.cfg.apppool
        size = self.draw.choice((0, 23, 24, 200, most, most, most + 1))
        answer = self.step(self.bus, app, ('pool', size), self.ask('pool_create', app, size, ctypes.byref(number)), (number,))
        if answer and answer[0] == 'number':
            self.pools.append(Places())

    def block_of(self, pool, grant):
        """The place that the library shows."""
        block = PoolBlock()
        same('a block', self.ask('pool_block', pool, U64(grant), ctypes.byref(block)), 0)
        return block.offset, block.size

    def pool_get(self, app):
        pool, size, grant = self.pool_number(), self.draw.choice((0, 1, 8, 9, 30, 64, 500, 9000, 80001)), U64()
        status = self.ask('pool_get', app, pool, size, ctypes.byref(grant))
        answer = self.step(self.bus, app, ('pget', pool, size), status, (grant,))
        if answer and answer[0] == 'number':
            place, places = self.block_of(pool, grant.value), self.pools[pool - 1]
            due = places.due(min(each for each in self.cfg.sizes if each >= size))
            same(f'where {place} lies, of {due}', place in due, True)
            places.give(grant.value, place)
            self.check_blocks(pool)

    def check_blocks(self, pool):
        """Each grant's block lies where it lay, and no two that are out have a byte in common."""
        out = self.pools[pool - 1].out
        shown = {grant: self.block_of(pool, grant) for grant in out}
        same('the places of blocks', shown, out)
        in_order = sorted(shown.values())
        same('blocks that overlap', [(a, b) for a, b in zip(in_order, in_order[1:]) if b[0] < a[0] + a[1]], [])

    def pool_put(self, app):
        pool = self.pool_number()
        grant = self.near(len(self.bus.apools[pool - 1].grants) if 1 <= pool <= len(self.pools) else 1)
        stats = PoolStats()
        status = self.ask('pool_put', app, pool, U64(grant))
        answer = self.step(self.bus, app, ('pput', pool, grant), status)
        if answer == ('done',):
            self.pools[pool - 1].put(grant)
            self.check_blocks(pool)
        status = self.ask('pool_stats', pool, ctypes.byref(stats))
        reader = next((a for a in range(1, self.apps + 1) if not self.may_bus(a)), None)
        if reader:
            answer = self.step(self.bus, reader, ('pstats', pool), status)
            if answer[0] == 'words':
                same('the figures of a pool', (stats.size, stats.requests, stats.errors, stats.free), answer[1])

    def register(self, app):
        ids = self.draw.sample(range(1, 12), self.draw.randint(0, 8))
        pairs = [(number, self.draw.choice((0, 1, 3, 0xFFFC, 0xFFFF))) for number in ids]
        filters = (Filter * max(1, len(pairs)))(*pairs)
        self.step(self.bus, app, ('evreg', pairs), self.ask('register', app, filters, SIZE(len(pairs))))

    def event(self, app):
        number, kind = self.draw.randint(1, 12), self.draw.randint(1, 4)
        text, passed = b'x' * self.draw.choice((0, 1, 30, 122, 123, 200)), U32(7)
        before = self.bus.desk.sent
        status = self.ask('send_event', app, U16(number), kind, text, SIZE(len(text)), ctypes.byref(passed))
        answer = self.step(self.bus, app, ('event', number, kind, text), status)
        if answer == ('done',):
            same('whether an event passed', passed.value, self.bus.desk.sent - before)

    def event_settings(self, app):
        way, number = self.draw.randint(0, 5), self.draw.randint(1, 12)
        if way == 0:
            self.step(self.bus, app, ('logclear',), self.ask('clear_log', app))
        elif way == 1:
            self.step(self.bus, app, ('logmode', number % 2), self.ask('set_log_mode', app, U8(number % 2)))
        else:
            self.step(self.bus, app, ('evreset', number), self.ask('reset_filter', app, U16(number)))

    def housekeeping(self, app):
        sent = Sent()
        self.step(self.bus, app, ('hk',), self.ask('send_housekeeping', app, ctypes.byref(sent)), (sent.number, sent.reached))

    # --- tables

    def table(self, app):
        draw, handle, name = self.draw, U32(), self.name('TUVW')
        size, option = draw.choice((0, 1, 4, 4, 4, 4, 4, 40, 41)), draw.choice((0, 0, 1, 1, 1, 1, 2, 3))
        rules = [(draw.randint(0, 4), draw.randint(0, 100), draw.randint(90, 255)) for _ in range(draw.choice((0, 0, 0, 0, 1, 2, 8)))]
        given = (Rule * max(1, len(rules)))(*rules)
        status = self.ask('table_register', app, name, SIZE(len(name)), size, option, given, SIZE(len(rules)),
                          ctypes.byref(handle))
        self.step(self.tables, app, ('treg', name, size, option, rules), status, (handle,))

    def share(self, app):
        handle, name = U32(), self.name('TUVW')
        status = self.ask('table_share', app, name, SIZE(len(name)), ctypes.byref(handle))
        self.step(self.tables, app, ('tshare', name), status, (handle,))

    def unregister(self, app):
        if self.draw.random() < 0.7:
            return
        handle = self.handle_of(app)
        answer = self.step(self.tables, app, ('tunreg', handle), self.ask('table_unregister', app, handle))
        if answer == ('done',):
            self.drop_views(lambda key: key == ('table', handle))

    def load(self, app):
        handle, draw = self.handle_of(app), self.draw
        offset, length = draw.choice((0, 0, 0, 0, 0, 1, 3)), draw.choice((1, 3, 4, 4, 4, 4, 4, 40))
        data = bytes(draw.randint(90, 130) if draw.random() < 0.9 else draw.randint(0, 255) for _ in range(length))
        kind, name = draw.choice((('tload', 'table_load'), ('tstage', 'table_stage')))
        status = self.ask(name, app, handle, offset, data, SIZE(length))
        self.step(self.tables, app, (kind, handle, offset, data), status)

    def staged(self, app):
        handle, found, figures = self.handle_of(app), Bytes(), TableStatus()
        status = self.ask('table_status', app, handle, ctypes.byref(figures))
        answer = self.step(self.tables, app, ('tstat', handle), status)
        if answer and answer[0] == 'words':
            told = (figures.version, int(figures.loaded), figures.staged, figures.holds)
            same('figures of a table', told, answer[1])
        status = self.ask('table_staged', app, handle, ctypes.byref(found))
        if status == 0:
            same('a staged value', self.library.read(found.at, found.len), self.tables.handles[handle].table.staged[0])
        kind, name = self.draw.choice((('tval', 'table_validate'), ('tupd', 'table_update'), ('tabort', 'table_abort')))
        self.step(self.tables, app, (kind, handle), self.ask(name, app, handle))

    def address(self, app):
        handle, address = self.handle_of(app), Address()
        status = self.ask('table_get_address', app, handle, ctypes.byref(address))
        answer = self.step(self.tables, app, ('tget', handle), status)
        if answer and answer[0] == 'address':
            version, value = self.tables.handles[handle].hold
            same('an address', (address.version, address.len), (version, len(value)))
            self.hold(('table', handle), address.at, value)

    def leave_address(self, app):
        handle = self.handle_of(app)
        answer = self.step(self.tables, app, ('trel', handle), self.ask('table_release_address', app, handle))
        if answer == ('done',):
            self.drop_views(lambda key: key == ('table', handle))

    # --- ends

    def end(self, app):
        if self.draw.random() < 0.97:
            return
        status, may = self.ask('end', app), self.may_table(app)
        if may:
            return same('end', status, may)
        if any(owner == app for owner, _, _ in self.buffers):
            return same('end', status, BUFFER_OUT)
        same('end', status, 0)
        pipes = {number for number, pipe in self.bus.pipes.items() if pipe.owner == app}
        handles = {number for number, handle in self.tables.handles.items() if handle.app == app}
        self.tables.call(app, ('end',), '')
        self.bus.call(app, ('end',), '')
        for number, (pool, places) in enumerate(zip(self.bus.apools, self.pools), 1):
            for grant in [grant for grant in places.out if not pool.grants[grant - 1][2]]:
                places.put(grant)
            self.check_blocks(number)
        self.drop_views(lambda key: key in {('pipe', n) for n in pipes} | {('table', n) for n in handles})
        return None

    def figures(self):
        """All that can be read, on both."""
        counters, now, peak = Counters(), Use(), Use()
        events, tables, line = EventCounts(), TableUse(), Line()
        for name, *structs in (('counters', counters), ('use', now, peak), ('event_counts', events),
                               ('table_use', tables)):
            same(name, self.ask(name, *(ctypes.byref(each) for each in structs)), 0)
        same('counters', fields(counters), self.bus.count)
        same('use', (fields(now), fields(peak)), (self.bus.in_use(), self.bus.peak))
        desk = self.bus.desk
        same('events', fields(events), {'sent': desk.sent, 'filtered': desk.filtered, 'cut': desk.cut, 'refused': desk.refused,
                                        'lost': desk.lost, 'logged': len(desk.log), 'mode': desk.mode})
        use = self.tables.in_use()
        same('tables', fields(tables), {'tables': use['count'], 'handles': use['handles'], 'bytes': use['bytes']})
        for place, (app, number, kind, text) in enumerate(desk.log):
            self.ask('log_line', place, ctypes.byref(line))
            told = self.library.read(line.text, line.text_len) if line.text_len else b''
            same('a line of the log', (line.app, line.id, line.kind, told),
                 (app, number, kind, text.encode() if isinstance(text, str) else bytes(text)))

    def play(self, count):
        ways = [self.create, self.delete, self.options, self.names, self.waiting, self.unsubscribe, self.look, self.look,
                self.pool, self.allocate, self.register, self.event_settings, self.housekeeping, self.unregister, self.leave_address, self.end]
        ways += 2 * [self.create, self.allocate, self.pass_buffer, self.pass_buffer, self.pool_get, self.pool_put, self.event, self.table, self.share, self.staged,
                     self.address] + 3 * [self.subscribe, self.load] + 8 * [self.send, self.receive]
        # So that there is something to send to, to load and to hold.
        for app in range(1, self.apps + 1):
            for way in 3 * [self.create] + 5 * [self.subscribe] + [self.register, self.pool, self.table, self.table]:
                way(app)
        for _ in range(count):
            app = self.app()
            waits = 1 <= app <= self.apps and isinstance(self.bus.state[app], int)
            (self.look if waits and self.draw.random() < 0.5 else self.draw.choice(ways))(app)
            self.check_views()
        self.figures()
        same('close', self.ask('close'), 0)


def main():
    if len(sys.argv) < 4:
        print(__doc__)
        return 2
    spec = importlib.util.spec_from_file_location('model', sys.argv[1])
    model = importlib.util.module_from_spec(spec)
    spec.loader.exec_module(model)
    library = (Here if sys.argv[2].endswith('.so') else Served)(sys.argv[2])
    lists, calls, first = (int(word) for word in (sys.argv[3:] + ['300', '1'][len(sys.argv) - 4:])[:3])
    for number in range(first, first + lists):
        try:
            Run(model, library, number).play(calls)
        except Differs as why:
            print(f'list {number}: {why}')
            return 1
    print(f'random_calls passed: {lists} lists of {calls} calls')
    return 0


sys.exit(main())
