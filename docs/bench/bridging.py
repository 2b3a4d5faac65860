#!/usr/bin/env python3
"""Draws plans of two buses with a bridge, and runs each on threads: each run must end by itself within its
time, and both its reports must be a bridge's by the executable model's checker where its file is given.

    python3 docs/bench/bridging.py SEED                   writes the plan of a seed
    python3 docs/bench/bridging.py --count N [--model FILE] [--first SEED] [--times N] [--seconds N] [--keep FOLDER]

A seed makes the same plan each time. The plan of seed 0 has one application a side, and its one message must
go over in each run; it is there to be run often (--times). The words are those of waiting.py, and so is what
is kept of a run that fails. At the end stands how many runs ended, how many messages went over and how many
of these side 2 refused, and how long a run took.
"""
import random
import sys

sys.dont_write_bytecode = True  # nothing is left beside the scripts

from waiting import APPS, FIRST_ID, Draw, Tally, main

# waiting.py has put .ci on the path.
from judging import fault_of_bridge, sent_by_bridge

# The bridge is the last application of each side.
MOST_APPS = APPS - 1
# The receiver may subscribe too late for the message, which is sent on side 2 all the same.
ONE_MESSAGE = b"route 0x0801 4\n---\napp A\nsend 0x0801 8 16\n---\napp B\ncreate p0 4 B\nsub 0x0801 p0\npend p0\n"
ITS_SEND = [(b"send 8 236 keep", b"CFE_SUCCESS")]


class Side(Draw):
    """Draws the script of one side, whose applications send to all ids that a route may have."""

    def __init__(self, seed, apps, tight):
        super().__init__(seed, apps)
        # How likely a limit is one that calls reach.
        self.tight = tight

    def shapes(self):
        return self.ring, self.pairs, self.everybody, self.mixed, self.mixed, self.rush, self.rush, self.few

    def limits(self, depth):
        limits = (("msgmax", 60, 1000), ("pool", 160, 1048576), ("msgids", 3, 256), ("dests", 2, 16))
        yield "script 2"
        # The bridge's pipe is as deep.
        yield f"set depth {self.r.choice((depth, 1024))}"
        yield from (f"set {name} {few if self.r.random() < self.tight else many}" for name, few, many in limits)
        yield from ("set tablepool 4096", "set tablemax 64", f"seq 0x{FIRST_ID:04x} {self.r.choice((0, 16380))}")

    def application(self, app, depth):
        name, pipe, *rest = super().application(app, depth)
        yield from (name, pipe, f"opts p0 {self.r.choice((0, 0, 1, 2, 3))}", *rest)
        # At last each waits for what no longer comes. By time-outs they all end, and so does the bridge.
        yield from ["pend p0"] * self.r.choice((1, 2, 30))

    def rush(self, _):
        """Each sends more than pipes hold, and receives little."""
        for _ in range(20 * self.rounds):
            yield from self.send(self.id_of_any())
            if self.r.random() < 0.1:
                yield "recv p0"

    def few(self, app):
        """One application sends, and the others wait."""
        for _ in range(self.r.choice((1, 3)) if app == 0 else 0):
            yield from self.send(self.id_of_any())


def plan_of(seed):
    if seed == 0:
        return ONE_MESSAGE
    r = random.Random(seed)
    ids = r.sample(range(FIRST_ID, FIRST_ID + APPS), r.choice((1, 4, APPS, APPS, r.randrange(APPS))))
    routes = "".join(f"route 0x{it:04x} {r.choice((0, 1, 4, 64, 65535, 65535))}\n" for it in ids)
    # Side 2 refuses more often what side 1 has room for.
    sides = [Side(r.getrandbits(32), r.choice((1, 2, MOST_APPS, MOST_APPS)), tight) for tight in (0.1, 0.3)]
    return "---\n".join([routes, *(side.script() for side in sides)]).encode()


class Bridges(Tally):
    """Plans on threads, and what went over their bridges."""

    word, endings, text_of = "bridge", ("plan", "reports"), staticmethod(plan_of)
    over = refused = 0

    def wrong_in(self, seed, plan, reports):
        sent = sent_by_bridge(reports)
        self.over += len(sent)
        self.refused += sum(answer != b"CFE_SUCCESS" for _, answer in sent)
        if seed == 0 and sent != ITS_SEND:
            return f"its message went over as {sent}"
        return fault_of_bridge(plan, reports, self.model)

    def left(self):
        return f"{self.over} messages over, of which side 2 refused {self.refused}"


if __name__ == "__main__":
    sys.exit(main(__doc__, Bridges))
