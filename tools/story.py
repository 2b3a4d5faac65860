"""What became of each message of a report: to whom it was sent, who received it, which pipes missed
it; and at which call each line of the event log was told.

The report says of a send how many pipes it reached, and of a receive the number of its send. The
rest follows by following the pipes from call to call, as docs/SCRIPT.md says what they do. The id
of a message stands in its receipts alone. Of one that nobody received it is the one id, if there is
one, of which a send reaches so many pipes; or it is read off the script. Behind a message whose id
nothing tells it isn't known any more what waits on the pipes: no further id is found so, and a pipe
counts as having missed a message only where the others are as many as the send reached.
"""
from dataclasses import dataclass, field

HOUSEKEEPING = 0x0803
IGNORE_OWN, DROP_OLDEST = 1, 2
KEPT_TEXT = 122
SENDS = ("send", "xmit", "hk")
RECEIVES = ("recv", "pend", "look")


@dataclass
class Pipe:
    """A live pipe: the numbers that wait on it, each with the subscription that queued it."""

    number: int
    owner: int
    depth: int
    name: str
    bits: int = 0
    queue: list = field(default_factory=list)


@dataclass
class Sent:
    """An accepted send. Its number is 0 where nobody subscribes to its id, which is None where
    nothing tells it."""

    call: object
    number: int
    reached: int
    id: int = None
    count: int = None
    size: int = None
    missed: list = field(default_factory=list)
    receipts: list = field(default_factory=list)


@dataclass
class Miss:
    """A pipe that a message didn't get into, or whose oldest message had to go for it."""

    pipe: int
    owner: int
    why: str
    dropped: int = 0

    def event(self):
        """The number of the event that the bus tells of it."""
        return {"limit": 4, "full": 5, "oldest": 6}[self.why]


class Pipes:
    """The live pipes and subscriptions, as the calls so far leave them."""

    def __init__(self):
        self.pipes, self.subscriptions = {}, {}

    def delivery(self, app, packet_id):
        """The pipes that take a message of this id, each with its subscription, and the misses."""
        taken, missed = [], []
        for subscription in self.subscriptions.get(packet_id, ()):
            number, limit = subscription
            pipe = self.pipes[number]
            if pipe.bits & IGNORE_OWN and pipe.owner == app:
                continue
            waiting = sum(queued is subscription for _, queued in pipe.queue)
            is_full = len(pipe.queue) >= pipe.depth
            if waiting >= limit:
                missed.append(Miss(number, pipe.owner, "limit"))
            elif is_full and not pipe.bits & DROP_OLDEST:
                missed.append(Miss(number, pipe.owner, "full"))
            else:
                if is_full:
                    missed.append(Miss(number, pipe.owner, "oldest", pipe.queue[0][0]))
                taken.append((pipe, subscription))
        return taken, missed

    def fitting_id(self, app, reached):
        """The one id of which a send reaches so many pipes, if there is one."""
        live = [it for it, subscriptions in self.subscriptions.items() if subscriptions]
        fit = [it for it in live if len(self.delivery(app, it)[0]) == reached]
        return fit[0] if len(fit) == 1 else None

    def send(self, sent):
        """Queues a message whose id is known, and notes the pipes that missed it; how many took it."""
        taken, sent.missed = self.delivery(sent.call.app, sent.id)
        for pipe, subscription in taken:
            if len(pipe.queue) >= pipe.depth:
                pipe.queue.pop(0)
            pipe.queue.append((sent.number, subscription))
        return len(taken)

    def receive(self, number, message):
        """Takes a message from a pipe, with those before it of which nothing is known."""
        pipe = self.pipes.get(number)
        waiting = [it for it, _ in pipe.queue] if pipe else []
        if message in waiting:
            del pipe.queue[: waiting.index(message) + 1]

    def find(self, packet_id, pipe):
        return any(number == pipe for number, _ in self.subscriptions.get(packet_id, ()))

    def delete(self, numbers):
        for number in numbers:
            self.pipes.pop(number, None)
        for subscriptions in self.subscriptions.values():
            subscriptions[:] = [it for it in subscriptions if it[0] in self.pipes]

    def follow(self, call):
        """What a call that was accepted, and is no send, does to the pipes."""
        word, given = call.word, call.given
        if word == "create":
            number = int(call.told[0])
            self.pipes[number] = Pipe(number, call.app, int(given[0]), given[1])
        elif word == "delete":
            self.delete([int(given[0])])
        elif word == "end":
            self.delete([it.number for it in self.pipes.values() if it.owner == call.app])
        elif word == "opts":
            self.pipes[int(given[0])].bits = int(given[1])
        elif word == "sub" and not self.find(int(given[0], 16), int(given[1])):
            self.subscriptions.setdefault(int(given[0], 16), []).append((int(given[1]), int(given[2])))
        elif word == "unsub":
            subscriptions = self.subscriptions.get(int(given[0], 16), [])
            subscriptions[:] = [it for it in subscriptions if it[0] != int(given[1])]
        elif word in RECEIVES and call.told:
            self.receive(int(given[0]), int(call.told[0]))


class Story:
    """The messages of a report and the calls that told its events."""

    def __init__(self, report, ids=None, held=None):
        """`ids` has the id of sends by the number of their call, and `held` the calls of events that a filter held back,
        where a script tells them."""
        self.report, self.ids, self.held = report, ids or {}, held or set()
        self.sent, self.names, self.tellings = {}, {}, []
        self.seen = {it.number: it for it in report.receipts if hasattr(it, "pipe")}
        self.numbered = {}
        self.is_exact = True
        pipes = Pipes()
        for call in report.bus:
            self.tell(pipes, call)
            if call.word in SENDS and call.is_done():
                self.send(pipes, call)
            elif call.is_done():
                pipes.follow(call)
                self.note(call)
        self.notes = notes_of(report, self.tellings)
        if held is None:
            self.held = held_back(report, self.notes)

    def note(self, call):
        """Keeps a pipe's name, and to whom a message went."""
        if call.word == "create":
            self.names[int(call.told[0])] = (call.app, call.given[1], int(call.given[0]))
        if call.word in RECEIVES and call.told:
            self.numbered[int(call.told[0])].receipts.append(call)

    def send(self, pipes, call):
        number, reached = map(int, call.told)
        sent = Sent(call, number, reached)
        seen = self.seen.get(number) if number else None
        if seen:
            sent.id, sent.count, sent.size = seen.id, seen.count, seen.size
        else:
            sent.size = 64 if call.word == "hk" else int(call.given[-3])
            sent.id = HOUSEKEEPING if call.word == "hk" else self.ids.get(call.number)
            if sent.id is None and number and self.is_exact:
                sent.id = pipes.fitting_id(call.app, reached)
        if number:
            self.numbered[number] = sent
            if sent.id is None or pipes.send(sent) != reached:
                self.is_exact, sent.missed = False, []
        self.sent[call.number] = sent
        self.tellings += [(call, ("miss", miss, sent)) for miss in sent.missed]
        if not number:
            self.tellings.append((call, ("nobody", sent)))

    def tell(self, pipes, call):
        """Notes what a call that is no send tells, where the log keeps it."""
        if not call.is_done():
            return
        if call.word == "event" and call.number not in self.held:
            self.tellings.append((call, ("event",)))
        elif call.word in ("sub", "unsub"):
            there = pipes.find(int(call.given[0], 16), int(call.given[1]))
            if there == (call.word == "sub"):
                self.tellings.append((call, ("pair",)))
        elif call.word == "logclear":
            self.tellings.clear()


def is_told_by(event, call, what):
    """Whether a line of the log may be what a call told."""
    kind = what[0]
    if kind == "event":
        number, level, length = map(int, call.given)
        same = (event.app, event.id, event.kind) == (call.app, number, level)
        return same and len(event.text) == min(length, KEPT_TEXT)
    if event.app:
        return False
    if kind == "pair":
        word = "duplicate" if call.word == "sub" else "not subscribed"
        return event.text.startswith(word) and event.text.endswith(f"id {call.given[0]} pipe {call.given[1]}")
    if kind == "nobody":
        return event.id == 3
    miss = what[1]
    return event.id == miss.event() and f" pipe {miss.pipe} sender {call.app}" in event.text


def held_back(report, notes):
    """The calls of events that the log hasn't, if these are as many as filters held back."""
    told = {call.number for _, call in notes if call}
    silent = {call.number for call in report.bus if call.word == "event" and call.is_done() and call.number not in told}
    return silent if str(len(silent)) == report.counters.get("evs", {}).get("filtered") else set()


def notes_of(report, tellings):
    """Each line of the log with the call that told it, None where none is found. A log that dropped
    its oldest lines is gone through from its end."""
    evs = report.counters.get("evs", {})
    lost, mode = evs.get("lost") != "0", evs.get("mode") == "0"
    step = -1 if lost and mode else 1
    notes, rest = [], list(tellings)[::step]
    for event in report.events[::step]:
        at = next((at for at, it in enumerate(rest) if is_told_by(event, *it)), None)
        if at is None:
            notes.append((event, None))
            continue
        call, what = rest[at]
        if what[0] == "nobody":
            what[1].id = int(event.text.rpartition("0x")[2], 16)
        notes.append((event, call))
        del rest[: at + 1]
    return notes[::step]
