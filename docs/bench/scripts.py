"""Scripts to be timed: `largest` has as many call lines and charges as a script may have, `mixed` has 20,000 lines of all the
calls of the bus over four applications, and `longest` has as many bytes as a script may have. `narrow` and `wide` make the
same sends, the one with four pipes and ids, the other with 256 pipes and 1024 ids; `cycles` makes, subscribes and deletes a
pipe again and again; `copied` and `written` send the same messages, the one from their bytes, the other in buffers. `queued`,
`missed` and `logged` make the same sends to one pipe, which takes each, or is full; then the event log drops each event, or
has its oldest line overwritten. `everything` has 20,000 lines of every kind that there is, over four applications; `greatest`
has every limit at its greatest and sixteen applications, and fills what it can. `two`, `four` and `sixteen` make the same 9,600
sends and receives, by so many applications that each have a pipe of their own; `relayed` has two applications that each wait for
what the other sends, 2,000 messages in all. In `working` one application makes 9,000 sends and receives, in `waiting` it makes the
same beside fifteen that wait for its last message, and in `present` beside fifteen that make the same calls but only ask for a
message; in `loading` and `sleeping` it loads and takes a table in place of that. `alone` is an application without a line.

    scripts.py largest|mixed|longest|narrow|wide|cycles|copied|written|queued|missed|logged|everything|greatest
    scripts.py two|four|sixteen|relayed|working|present|waiting|loading|sleeping|alone
"""
import sys


def largest():
    """Ten thousand sends of 1,677 bytes, each received: 20,000 call lines and 16,766,646 bytes of charges."""
    yield "app A"
    yield "create p0 4 A"
    yield "sub 0x0801 p0"
    for _ in range(9998):
        yield "send 0x0801 1677 7"
        yield "recv p0"
    yield "show p0"
    yield "recv p0"


def mixed():
    """Four applications of 5,000 lines each: two pipes, options, names, sends of their own id and of the next one's."""
    for app in range(4):
        own, other = 0x0801 + app, 0x0801 + (app + 1) % 4
        yield f"app A{app}"
        yield f"create p0 8 P{app}"
        yield f"create p1 8 Q{app}"
        yield f"sub 0x{own:04x} p0 4"
        yield f"sub 0x{other:04x} p0 4"
        yield f"sub 0x{own:04x} p1 8 local"
        for turn in range(555):
            yield f"send 0x{other:04x} {20 + turn % 200} {turn % 256}"
            yield "recv p0"
            yield f"send 0x{own:04x} 64 {turn % 256} keep"
            yield "recv p1"
            yield f"opts p1 {turn % 2}"
            yield "getopts p1"
            yield f"find p2 P{(app + turn) % 4}"
            yield "show p0"
            yield "recv p0"


def longest():
    """One application with 15,000 receives, and lines of words behind a hash sign up to 1,048,576 bytes."""
    lines = ["app A"] + ["recv p0"] * 15000
    left = 1048576 - sum(len(line) + 1 for line in lines)
    while left > 0:
        size = min(left, 71)
        lines.append(("# " + "word " * 14)[: size - 1])
        left -= len(lines[-1]) + 1
    yield from lines


def sends(pipes, ids):
    """Four applications with so many pipes and ids each, and 2,000 sends each to an id with one destination."""
    yield "set msgids 1024"
    yield "set pipes 256"
    for app in range(4):
        yield f"app A{app}"
        for pipe in range(pipes):
            yield f"create p{pipe} 4 N{app}_{pipe}"
        for place in range(ids):
            yield f"sub 0x{1 + 256 * app + place:04x} p{place % pipes}"
        for _ in range(2000):
            yield f"send 0x{256 * app + ids:04x} 8 1"


def narrow():
    """A pipe and an id for each application."""
    yield from sends(1, 1)


def wide():
    """64 pipes and 256 ids for each application."""
    yield from sends(64, 256)


def cycles():
    """5,000 times: a pipe is made, subscribed, sent to and deleted with its message."""
    yield "app A"
    for _ in range(5000):
        yield "create p0 4 A"
        yield "sub 0x0801 p0"
        yield "send 0x0801 8 1"
        yield "delete p0"


def copied():
    """4,000 messages of 2,048 bytes, each sent and received."""
    yield "app A"
    yield "create p0 4 A"
    yield "sub 0x0801 p0"
    for _ in range(4000):
        yield "send 0x0801 2048 1"
        yield "recv p0"


def written():
    """The same messages, each written into a buffer, sent as it lies and received."""
    yield "app A"
    yield "create p0 4 A"
    yield "sub 0x0801 p0"
    for _ in range(4000):
        yield "alloc b0 2048"
        yield "form b0 0x0801 1"
        yield "xmit b0"
        yield "recv p0"


def turns(mode, pipe):
    """One pipe with a message on it, and 8,000 turns: a send to it and a receive from one of the two pipes."""
    yield "app A"
    yield f"logmode {mode}"
    yield "create p0 1 A"
    yield "create p1 4 B"
    yield "sub 0x0801 p0"
    yield "send 0x0801 8 1"
    yield f"recv p{pipe}"
    for _ in range(8000):
        yield "send 0x0801 8 1"
        yield f"recv p{pipe}"


def queued():
    """Each send finds the pipe empty."""
    yield from turns(1, 0)


def missed():
    """The pipe is full at each of the 8,000; the log is full after the first 20."""
    yield from turns(1, 1)


def logged():
    """The same, and each event overwrites the log's oldest line."""
    yield from turns(0, 1)


def lines_of_each_kind(app, turn):
    """Each kind of line once: the bus, its buffers and pools, events, and a table of the application's own and a shared one."""
    own, other = 0x0801 + app, 0x0801 + (app + 1) % 4
    yield from (f"send 0x{other:04x} {20 + turn % 100} {turn % 256}", "recv p0", "show p0", f"sendraw {own:04x}c000000100{turn % 256:02x} keep")
    yield from ("recv p0", f"opts p1 {turn % 2}", "getopts p1", f"find p2 P{(app + turn) % 4}", "pname p1")
    yield from (f"unsub 0x{other:04x} p1", f"sub 0x{other:04x} p1 2 local", "create p3 4 EXTRA", "delete p3", "pend p1")
    yield from ("alloc b0 64", f"form b0 0x{own:04x} 1", "put b0 10 0102", "xmit b0", "alloc b1 16", "release b1")
    yield from ("pget m0 q0 100", "pput q0 m0", "pstats q0", f"event {turn % 4} 2 a text of some length", "evreset 1")
    yield from ("logmode 0", "logclear", "hk", "stats")
    yield from ("tstage t0 0 fill:64:3", "tval t0", "tupd t0", "tload t0 8 00112233", "tget t0", "show t0", "trel t0", "tstat t0")
    yield from ("tstage t1 4 fill:32:1", "tabort t1", f"tshare t2 TABLE{(app + 1) % 4}", "tget t2", "tunreg t2")


def everything():
    """Four applications of 5,000 lines each."""
    for app in range(4):
        yield f"app A{app}"
        lines = ["evreg 1:65535 2:0", f"create p0 8 P{app}", f"create p1 8 Q{app}", f"sub 0x{0x0801 + app:04x} p0 4"]
        lines += ["pool q0 4096", f"treg t0 TABLE{app} 64 0 0:0:9", f"treg t1 OWN{app} 128 1"]
        for turn in range(5000):
            lines += lines_of_each_kind(app, turn)
            if len(lines) >= 5000:
                break
        yield from lines[:5000]


def greatest():
    """Every limit at its greatest: 256 pipes, 1,024 ids, 256 tables, and messages and tables as large as they may be."""
    limits = {"msgids": 1024, "pipes": 256, "dests": 64, "depth": 1024, "msgmax": 65542, "pool": 16777216}
    limits |= {"apppool": 1048576, "tables": 256, "handles": 1024, "tablemax": 65536, "tablepool": 16777216}
    for name, value in limits.items():
        yield f"set {name} {value}"
    for app in range(16):
        yield f"app A{app}"
        lines = [f"create p{pipe} 1024 N{app}_{pipe}" for pipe in range(16)]
        lines += [f"sub 0x{1 + 64 * app + place:04x} p{place % 16}" for place in range(64)]
        lines += [f"treg t{table} T{app}_{table} 65536 1" for table in range(8)]
        lines += [f"treg t{8 + table} S{app}_{table} 4096 0" for table in range(8)]
        lines += [f"send 0x{1 + 64 * app + place:04x} 65542 {place}" for place in range(10)]
        lines += [f"tload t{table} 0 fill:65536:{table}" for table in range(5)]
        lines += [f"tget t{table}" for table in range(5)]
        lines += [f"recv p{pipe}" for pipe in range(10)]
        while len(lines) < 1250:
            lines += [f"send 0x{1 + 64 * app:04x} 8 1", "recv p0"]
        yield from lines[:1250]


def together(apps):
    """9,600 sends and as many receives, shared out among so many applications."""
    for app in range(apps):
        yield f"app A{app}"
        yield f"create p0 4 P{app}"
        yield f"sub 0x{0x0801 + app:04x} p0"
        for _ in range(9600 // apps):
            yield f"send 0x{0x0801 + app:04x} 64 1"
            yield "recv p0"


def relayed():
    """One waits until the other does, which is then subscribed; each message is sent where the one before it came."""
    yield from ("app A", "create p0 4 A", "sub 0x0801 p0", "send 0x0803 8 0", "pend p0")
    for _ in range(1000):
        yield from ("send 0x0802 64 1", "pend p0")
    yield from ("app B", "create p0 4 B", "sub 0x0803 p0", "sub 0x0802 p0", "pend p0", "send 0x0801 8 0")
    for _ in range(1000):
        yield from ("pend p0", "send 0x0801 64 1")


def works(lines, others, ask="pend p0"):
    """One application with these two lines 9,000 times; so many others ask for its last message, or wait for it by `pend`."""
    yield from ("app A", "create p0 4 A", "sub 0x0801 p0", "treg t0 T 64 1")
    for _ in range(9000):
        yield from lines
    yield "send 0x0802 8 1"
    for app in range(others):
        yield from (f"app W{app}", f"create p0 4 W{app}", "sub 0x0802 p0", ask)


def main():
    ways = {"two": together(2), "four": together(4), "sixteen": together(16), "relayed": relayed(), "alone": ["app A"]}
    bus, tables = ("send 0x0801 64 1", "recv p0"), ("tload t0 0 fill:64:1", "tget t0")
    ways |= {
        "working": works(bus, 0),
        "present": works(bus, 15, "recv p0"),
        "waiting": works(bus, 15),
        "loading": works(tables, 0),
        "sleeping": works(tables, 15),
    }
    if sys.argv[1] in ways:
        sys.stdout.write("\n".join(ways[sys.argv[1]]) + "\n")
        return
    lines = {"everything": everything, "greatest": greatest, "queued": queued, "missed": missed, "logged": logged, "copied": copied, "written": written, "cycles": cycles, "narrow": narrow, "wide": wide, "largest": largest, "mixed": mixed, "longest": longest}[sys.argv[1]]()
    sys.stdout.write("\n".join(lines) + "\n")


if __name__ == "__main__":
    main()
