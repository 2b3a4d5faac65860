"""Draws a report: ./fsw picture [--from N] [--to N] [--script FILE] < report > run.svg

Each application has a lane, from left to right, and the calls stand below each other in the order in
which the bus took them. An arrow goes from each send to each receipt: beside the send to the receiver's
lane, and down between the lanes, so that it runs behind no box. A second strip has the calls of the
tables, whose order against those of the bus no report tells.
"""
import argparse
import sys
from html import escape

sys.dont_write_bytecode = True  # nothing is left beside the sources

from given import report_given, script_given
from kit import tell
from story import RECEIVES, SENDS, Story

# Programs that show pictures take none that is higher.
MOST_HEIGHT = 32000
NUMBERS, NOTES, MARGIN = 76, 330, 16
BOX, LINE, PADDING, GAP = 212, 15, 4, 5
# How many letters fit into a line of a box.
ROOM = 33
# How far from a box the first arrow goes down, and how far from each other they do.
FIRST_TRACK, TRACK, CORNER = 16, 9, 5
# The lane's width, by how many lanes there are: the room beside the boxes is for arrows.
LANES = ((2, 400), (4, 350), (16, 310))
COLOURS = ("#1f6fb4", "#2c8f46", "#7a4fb0", "#b8680d", "#0d8d8d", "#a8357c", "#5d6d1f", "#4059d0")
STYLE = """
  text { font: 11px "DejaVu Sans", "Liberation Sans", Helvetica, Arial, sans-serif; fill: #20262e; }
  .title { font-size: 14px; font-weight: bold; }
  .head { font-weight: bold; text-anchor: middle; }
  .small { font-size: 10px; fill: #66707c; }
  .number { fill: #8a939e; text-anchor: end; }
  .box { fill: #f3f5f7; stroke: #b5bdc6; }
  .send { fill: #e4effa; stroke: #5b93c7; }
  .take { fill: #e6f5e9; stroke: #62aa75; }
  .wait { fill: #fdf3dc; stroke: #d6a546; }
  .refused { fill: #fbe9e7; stroke: #cf6b5d; }
  .load { fill: #efe7f8; stroke: #9370c4; }
  .ended { fill: #d9dde2; stroke: #9aa3ad; }
  .held { fill: #fff; stroke: #b5bdc6; stroke-dasharray: 3 3; }
  .lane { stroke: #ccd2d9; stroke-dasharray: 2 3; }
  .waits { stroke: #e8c47a; stroke-width: 5; }
  .message, .version { fill: none; stroke-width: 1.6; }
  .version { stroke: #9370c4; stroke-dasharray: 5 3; }
  .miss { stroke: #c22f1d; stroke-width: 1.4; stroke-dasharray: 4 3; fill: none; }
  .misses { fill: #c22f1d; font-weight: bold; paint-order: stroke; stroke: #fff; stroke-width: 3px; }
  .left { text-anchor: end; }
  .name { paint-order: stroke; stroke: #fff; stroke-width: 3px; text-anchor: middle; font-size: 10px; }
  .note { fill: #fff8c9; stroke: #d9c65a; }
  .leads { stroke: #d9c65a; stroke-dasharray: 1 3; }
"""


def short(text, most):
    return text if len(text) <= most else text[: most - 1] + "\u2026"


def answer_of(call):
    """An answer as a box has room for it."""
    name = call.answer.removeprefix("CFE_").removeprefix("SUCCESS")
    return " ".join([*([name] if name else []), *call.told])


class Lines:
    """The pieces of a drawing, those that lie at the back first."""

    def __init__(self):
        self.back, self.front = [], []

    def text(self, x, y, text, kind="", most=60):
        kind = f' class="{kind}"' if kind else ""
        self.front.append(f'<text x="{x:.0f}" y="{y:.0f}"{kind}>{escape(short(text, most))}</text>')

    def line(self, kind, x, y, to_x, to_y):
        self.back.append(f'<line class="{kind}" x1="{x:.0f}" y1="{y:.0f}" x2="{to_x:.0f}" y2="{to_y:.0f}"/>')

    def box(self, kind, x, y, width, height, title=""):
        title = f"<title>{escape(title)}</title>" if title else ""
        place = f'x="{x:.0f}" y="{y:.0f}" width="{width:.0f}" height="{height:.0f}"'
        self.front.append(f'<rect class="{kind}" {place} rx="4">{title}</rect>')

    def path(self, kind, path, colour, title):
        colour = f' stroke="{colour}" marker-end="url(#m{COLOURS.index(colour)})"' if colour else ' marker-end="url(#mv)"'
        self.back.append(f'<path class="{kind}" d="{path}"{colour}><title>{escape(title)}</title></path>')


class Strip:
    """The calls of one service: where each stands, and the arrows between them."""

    def __init__(self, lines, calls, lanes, width, top):
        self.lines, self.calls, self.lanes, self.width = lines, calls, lanes, width
        self.top, self.places, self.busy, self.y = top, {}, {}, top

    def middle(self, app):
        return NUMBERS + self.width * (app - 0.5)

    def call(self, call, kind, texts):
        """Puts a call's box below those before it."""
        height = LINE * len(texts) + 2 * PADDING
        x, y = self.middle(call.app) - BOX / 2, self.y
        title = f"{call.number} a{call.app} {' '.join([call.word, *call.given])} -> {' '.join([call.answer, *call.told])}"
        self.lines.text(MARGIN + 24, y + LINE, str(call.number), "number")
        self.lines.box(kind, x, y, BOX, height, title)
        for at, text in enumerate(texts):
            self.lines.text(x + 7, y + PADDING + LINE * at + 11, text, "small" if at else "", ROOM + 4 if at else ROOM)
        self.places[call.number] = (y, y + height)
        self.y += height + GAP

    def anchor(self, number):
        begin, end = self.places[number]
        return (begin + end) / 2

    def track(self, app, side, begin, end):
        """How far from the middle of a lane, on this side, an arrow goes down that overlaps no other one there."""
        taken = self.busy.setdefault((app, side), [])
        at = next(it for it in range(999) if all(at != it or last < begin or first > end for at, first, last in taken))
        taken.append((at, begin, end))
        count = max(1, int((self.width - BOX) / 2 - FIRST_TRACK) // TRACK)
        return self.middle(app) + side * (BOX / 2 + FIRST_TRACK + at % count * TRACK)

    def arrow(self, kind, call, other, colour, title, name, start=0):
        """An arrow from the box of a call to that of a later one; from above or to below, where one
        of them isn't drawn; `start` is how far from the middle of its box it begins."""
        y = self.anchor(call.number) + start if call.number in self.places else self.top - 12
        to_y = self.anchor(other.number) if other.number in self.places else self.y + 4
        # On which side of the receiver's lane it comes.
        side = -1 if other.app > call.app else 1
        down = self.track(other.app, side, y, to_y)
        path = f"M{down:.0f} {y:.0f}"
        if call.number in self.places:
            x = self.middle(call.app) + (BOX / 2 if other.app >= call.app else -BOX / 2)
            turn = CORNER if down < x else -CORNER
            path = f"M{x:.0f} {y:.0f}H{down + turn:.0f}Q{down:.0f} {y:.0f} {down:.0f} {y + CORNER:.0f}"
        if other.number in self.places:
            to_x = self.middle(other.app) + side * (BOX / 2 + 3)
            path += f"V{to_y - CORNER:.0f}Q{down:.0f} {to_y:.0f} {down - side * CORNER:.0f} {to_y:.0f}H{to_x:.0f}"
        else:
            path += f"V{to_y:.0f}"
        self.lines.path(kind, path, colour, title)
        self.lines.text(down - side * 2, to_y - 7, name, "name")

    def lanes_below(self, heads):
        """The lanes' lines, and what stands above them."""
        for app in range(1, self.lanes + 1):
            x = self.middle(app)
            self.lines.line("lane", x, self.top, x, self.y)
            for at, text in enumerate(heads(app)):
                self.lines.text(x, self.top - 26 + 13 * at, text, "head small" if at else "head", 44)


def packet_text(sent):
    """What a message is, as far as the report tells it."""
    what = "id not told" if sent.id is None else f"0x{sent.id:04x}"
    count = "" if sent.count is None else f" seq {sent.count}"
    return f"{what}{count}, {sent.size} B"


def send_texts(sent):
    if not sent.number:
        return [f"{sent.call.word} {packet_text(sent)}", "nobody subscribes to it"]
    texts = [f"{sent.call.word} #{sent.number}  {packet_text(sent)}"]
    if sent.reached != 1:
        texts.append(f"reached {sent.reached or 'no'} pipe{'s' if sent.reached else ''}")
    if sent.reached and not sent.receipts:
        texts.append("nobody received it")
    return texts


def bus_texts(story, call):
    """What the box of a call of the bus says, and its kind."""
    sent = story.sent.get(call.number)
    given, told = " ".join(call.given), answer_of(call)
    if sent:
        return "send", send_texts(sent)
    if call.word in RECEIVES:
        if call.answer == "PENDING":
            return "wait", [f"{call.word} p{given}: waits"]
        if not call.is_done():
            return "refused", [f"{call.word} p{given}: {told}"]
        source = story.numbered.get(int(told))
        texts = [f"{call.word} p{given}: #{told}"]
        return "take", texts + ([packet_text(source)] if source else [])
    kind = "ended" if call.word == "end" else "box" if call.is_done() else "refused"
    if call.number in story.held:
        return "held", [f"event {given}", "held back by a filter"]
    if call.word == "create" and call.is_done():
        return kind, [f"create p{told} {call.given[1]}, depth {call.given[0]}"]
    if call.word == "sub":
        given = f"{call.given[0]} p{call.given[1]}, limit {call.given[2]}"
    text = f"{call.word} {given}".rstrip()
    # Names of refusals are in capitals, which are broader.
    room = ROOM if call.is_done() else ROOM - 5
    return kind, [text, told] if told and len(f"{text}: {told}") > room else [f"{text}: {told}" if told else text]


class Tables:
    """Which handle is of which table, and which call made each of its versions."""

    def __init__(self, calls):
        self.names, self.versions, self.made = {}, {}, {}
        for call in calls:
            if call.word in ("treg", "tshare") and call.is_done():
                self.names[int(call.told[0])] = (call.given[0], call.number if call.word == "treg" else None)
            elif call.word in ("tload", "tupd") and call.is_done():
                name = self.name(call)
                self.versions[name] = self.versions.get(name, 0) + 1
                self.made[name, self.versions[name]] = call

    def name(self, call):
        return self.names.get(int(call.given[0]), ("?",))[0]

    def texts(self, call):
        told = answer_of(call)
        kind = "ended" if call.word == "end" else "box" if call.is_done() else "refused"
        if call.word in ("treg", "tshare", "end"):
            number = f": h{told}" if call.is_done() and told else f": {told}" if told else ""
            size = f", {call.given[1]} B" if call.word == "treg" else ""
            return kind, [f"{call.word} {' '.join(call.given[:1])}{size}{number}"]
        texts = [f"{call.word} h{call.given[0]} {self.name(call)}"]
        if call.word == "tget" and call.is_done():
            return "take", [f"{texts[0]}: version {call.told[0]}"]
        if call.word in ("tload", "tstage"):
            texts.append(f"{call.given[2]} B from byte {call.given[1]}")
        if call.is_done():
            made = [it[1] for it, by in self.made.items() if by is call]
            kind = "load" if call.word in ("tload", "tstage", "tupd") else kind
            texts[0] += f": version {made[0]}" if made else ""
        else:
            texts.append(told)
        return kind, texts


def draw_misses(strip, story):
    """Marks the pipes that missed a message, at the lane of their owner."""
    for sent in story.sent.values():
        for at, miss in enumerate(sent.missed if sent.call.number in strip.places else []):
            y = strip.anchor(sent.call.number) + 11 * at - 5 * (len(sent.missed) - 1)
            # The other side has the arrows of what an application sends to itself.
            side = 1 if miss.owner > sent.call.app else -1
            x = strip.middle(sent.call.app) + side * BOX / 2
            to_x = x + side * 14 if miss.owner == sent.call.app else strip.middle(miss.owner) - side * 20
            strip.lines.line("miss", x, y, to_x, y)
            text = f"\u2717 p{miss.pipe} {miss.why}" if not miss.dropped else f"\u2717 p{miss.pipe} drops #{miss.dropped}"
            strip.lines.text(to_x + 3 * side, y + 4, text, "misses" if side > 0 else "misses left")


def draw_waits(strip):
    """A broad line from where an application began to wait to where it looked with success."""
    waits = {}
    for call in strip.calls:
        if call.answer == "PENDING":
            waits[call.app] = strip.places[call.number][1]
        elif call.app in waits:
            begin = waits.pop(call.app)
            x = strip.middle(call.app)
            strip.lines.line("waits", x, begin, x, strip.places[call.number][0])


def draw_messages(strip, story):
    """An arrow for each receipt of the calls that are drawn; how many there are."""
    drawn, ids = 0, {}
    for sent in story.numbered.values():
        colour = COLOURS[ids.setdefault(sent.id, len(ids)) % len(COLOURS)]
        for at, receipt in enumerate(sent.receipts):
            if receipt.number in strip.places or sent.call.number in strip.places:
                title = f"#{sent.number} {packet_text(sent)}, from a{sent.call.app} to pipe {receipt.given[0]} of a{receipt.app}"
                strip.arrow("message", sent.call, receipt, colour, title, f"#{sent.number}", at * 4 % 12)
                drawn += 1
    return drawn


def draw_notes(strip, story):
    """The event log beside the calls that told its lines, and below them what has no such call."""
    x = NUMBERS + strip.width * strip.lanes + 10
    strip.lines.text(x, strip.top - 14, "event log", "title")
    below = strip.top
    for event, call in story.notes:
        who = f"a{event.app}" if event.app else "bus"
        text = f"{who} event {event.id}: {event.text}"
        if call is None or call.number not in strip.places:
            continue
        y = max(strip.places[call.number][0], below)
        strip.lines.box("note", x, y, NOTES - 20, 18, text)
        strip.lines.text(x + 6, y + 13, text, "", 50)
        strip.lines.line("leads", strip.middle(call.app) + BOX / 2, strip.anchor(call.number), x, y + 9)
        below = y + 21
    strip.y = max(strip.y, below)
    for event, call in story.notes:
        if call is None:
            strip.lines.text(x, strip.y + 12, f"of a call not known: a{event.app} event {event.id}: {event.text}", "small", 52)
            strip.y += 14


def draw_bus(lines, story, calls, lanes, width, top, heads):
    strip = Strip(lines, calls, lanes, width, top)
    for call in calls:
        kind, texts = bus_texts(story, call)
        strip.call(call, kind, texts + [""] * max(0, len(story.sent[call.number].missed) - 1) if call.number in story.sent else texts)
    draw_waits(strip)
    draw_misses(strip, story)
    draw_messages(strip, story)
    if story.notes:
        draw_notes(strip, story)
    names = {}
    for number, (owner, name, _) in story.names.items():
        names.setdefault(owner, []).append(f"p{number} {name}")
    strip.lanes_below(lambda app: [heads[app - 1], ", ".join(names.get(app, []))])
    return strip


def draw_tables(lines, tables, calls, lanes, width, top, heads):
    strip = Strip(lines, calls, lanes, width, top)
    for call in calls:
        strip.call(call, *tables.texts(call))
    for call in calls:
        if call.word == "tget" and call.told and call.is_done():
            name, version = tables.name(call), int(call.told[0])
            made = tables.made.get((name, version))
            if made:
                strip.arrow("version", made, call, None, f"{name}, version {version}, to handle {call.given[0]}", f"v{version}")
    strip.lanes_below(lambda app: [heads[app - 1]])
    return strip


def markers():
    arrow = '<marker id="{0}" viewBox="0 0 8 8" refX="7" refY="4" markerWidth="7" markerHeight="7" orient="auto"><path d="M0 0L8 4L0 8z" fill="{1}"/></marker>'
    named = [(f"m{at}", colour) for at, colour in enumerate(COLOURS)] + [("mv", "#9370c4")]
    return "<defs>" + "".join(arrow.format(*it) for it in named) + "</defs>"


class NoPicture(Exception):
    """What can't be drawn, and why."""


def heads_of(report, names):
    """What stands above the lanes: the names of the applications, if the script tells them."""
    return [f"{app} {names[app - 1]}" if app <= len(names) else f"application {app}" for app in range(1, max(report.apps(), 1) + 1)]


def calls_between(report, first, last):
    """The calls of both services with these numbers."""
    most = max(len(report.bus), len(report.tables))
    if first > last:
        raise NoPicture(f"--from {first} is behind --to {last}")
    if first > most or last < 1:
        raise NoPicture(f"the calls are numbered from 1 to {most}, and none of them is drawn")
    inside = lambda calls: [it for it in calls if first <= it.number <= last]
    return inside(report.bus), inside(report.tables)


def last_that_fits(strips, last):
    """The last call of a picture that is low enough, roughly: in both strips so many calls are drawn."""
    height = sum(strip.y - strip.top for strip in strips)
    count = max(len(strip.calls) for strip in strips)
    return max(1, int(count * 0.9 * MOST_HEIGHT / height))


def picture_of(report, story, first, last, names=()):
    """The picture of the calls with these numbers, as a text in SVG."""
    bus, tables = calls_between(report, first, last)
    lanes, lines, heads = max(report.apps(), 1), Lines(), heads_of(report, names)
    lane = next(width for most, width in LANES if lanes <= most)
    lines.text(MARGIN, 24, f"the bus: calls {bus[0].number} to {bus[-1].number} of {len(report.bus)}" if bus else "the bus: no calls", "title")
    strips = [draw_bus(lines, story, bus, lanes, lane, 84, heads)]
    bottom = strips[0].y + 20
    if any(call.word != "end" for call in report.tables):
        lines.text(MARGIN, bottom + 20, "the tables: calls with numbers of their own; no order is told between the two lists", "title", 100)
        strips.append(draw_tables(lines, Tables(report.tables), tables, lanes, lane, bottom + 72, heads))
        bottom = strips[1].y + 20
    if bottom > MOST_HEIGHT:
        fits = first + last_that_fits(strips, last) - 1
        raise NoPicture(f"{len(bus) + len(tables)} calls make a picture {bottom:.0f} points high, and at most {MOST_HEIGHT} are shown: take --from {first} --to {fits}, or ./fsw page")
    width = NUMBERS + lane * lanes + (NOTES if story.notes else MARGIN)
    size = f'width="{width}" height="{bottom:.0f}" viewBox="0 0 {width} {bottom:.0f}"'
    head = f'<svg xmlns="http://www.w3.org/2000/svg" {size}>\n<style>{STYLE}</style>\n{markers()}'
    return "\n".join([head, f'<rect width="{width}" height="{bottom:.0f}" fill="#fff"/>', *lines.back, *lines.front, "</svg>", ""])


def main(words):
    usage = argparse.ArgumentParser(prog="./fsw picture", description="draws the report on standard input, as SVG")
    usage.add_argument("--from", dest="first", type=int, default=1, metavar="N", help="the first call")
    usage.add_argument("--to", dest="last", type=int, default=sys.maxsize, metavar="N", help="the last call")
    usage.add_argument("--script", metavar="FILE", help="the script that was run: tells names, and the ids of messages that nobody received")
    options = usage.parse_args(words)
    report = report_given()
    script = script_given(report, options.script)
    try:
        sys.stdout.write(picture_of(report, script.story(report), options.first, options.last, script.names))
    except NoPicture as error:
        tell(str(error))
        return 2
    return 0


if __name__ == "__main__":
    sys.exit(main(sys.argv[1:]))
