#!/usr/bin/env python3
"""Opens pages of ./fsw page in headless Chromium, filters them, follows a message, and reads what is then shown.

    page_in_browser.py [FOLDER]    with a folder, screenshots are left there

Without Chromium nothing is looked at, but that a page fetches nothing.
"""
import html
import json
import re
import shutil
import subprocess
import sys
import tempfile
from pathlib import Path

sys.dont_write_bytecode = True  # nothing is left beside the scripts

TOP = Path(__file__).resolve().parent.parent
sys.path.insert(0, str(TOP / "tools"))

from report import read_report
from story import Story

BROWSERS = ("chromium", "chromium-browser", "google-chrome")
SECONDS = 300
# Calls of the long page, and what drawing a part of it may take, in milliseconds: it is 10 to 60, more where others take the processors.
LONG, MOST_MILLISECONDS = 20000, 3000


class Browser:
    def __init__(self, folder):
        self.path = next((it for it in map(shutil.which, BROWSERS) if it), None)
        self.folder = folder

    def run(self, page, view, *words):
        command = [self.path, "--headless=new", "--no-sandbox", "--disable-gpu", "--disable-dev-shm-usage", "--window-size=1400,900"]
        command += [f"--user-data-dir={self.folder / 'profile'}", "--virtual-time-budget=3000", *words, f"{page.as_uri()}#{view}"]
        return subprocess.run(command, capture_output=True, text=True, timeout=SECONDS).stdout

    def shown(self, page, view):
        """The page as its script leaves it."""
        return self.run(page, view, "--dump-dom")

    def leave_screenshot(self, page, view, to):
        self.run(page, view, f"--screenshot={to}")


def text_of(shown, part):
    """The text of the element with this id."""
    found = re.search(rf'<(\w+) id="{part}"[^>]*>(.*?)</\1>', shown, re.S)
    return html.unescape(re.sub(r"<[^>]*>", "", found[2])) if found else ""


def drawn(shown):
    found = re.search(r'<body data-drawn="([^"]*)"', shown)
    return json.loads(html.unescape(found[1])) if found else {}


def page_of(folder, name, report, *words):
    run = subprocess.run([TOP / "fsw", "page", *words], input=report.encode(), capture_output=True)
    page = folder / f"{name}.html"
    page.write_bytes(run.stdout)
    return page


def long_report():
    """A report of many calls: an application that sends, and one that receives later."""
    lines = ["fsw 1", "bus", "1 a2 create 64 P -> CFE_SUCCESS 1", "2 a2 sub 0x0801 1 64 global -> CFE_SUCCESS"]
    for at in range(LONG - 4):
        number, is_send = len(lines) - 1, at // 32 % 2 == 0
        sent = at // 64 * 32 + at % 32 + 1
        lines.append(f"{number} a1 send 8 203 inc -> CFE_SUCCESS {sent} 1" if is_send else f"{number} a2 recv 1 -> CFE_SUCCESS {sent}")
    lines += [f"{len(lines) - 1 + at} a{at + 1} end -> CFE_SUCCESS" for at in range(2)]
    lines += ["tables", "1 a1 end -> CFE_SUCCESS", "2 a2 end -> CFE_SUCCESS", "receipts", "events", "counters"]
    counters = (TOP / "examples" / "first.report").read_text().split("\ncounters\n")[1]
    return "\n".join(lines) + "\n" + counters


def faults_of_mission(browser, folder):
    """A page of an example with all that it has."""
    report = (TOP / "examples" / "mission.report").read_text()
    read = read_report(report)
    other = TOP / "examples" / "relay.report"
    page = page_of(folder, "mission", report, "--script", str(TOP / "examples" / "mission.fsw"), "--other", str(other))
    if re.search(r"https?:|<link|<img|@import|src=", page.read_text()):
        yield "the page fetches something"
    if not browser.path:
        return
    calls, of_two = len(read.bus), sum(call.app == 2 for call in read.bus)
    for view, wanted in (("", calls), ("app=2", of_two), ("search=pend", sum(call.word == "pend" for call in read.bus)), ("answer=PENDING", sum(call.answer == "PENDING" for call in read.bus))):
        found = text_of(browser.shown(page, view), "count")
        if found != f"{wanted} of {calls} calls":
            yield f"{view}: {found!r}, wanted {wanted} of {calls}"
    sent = next(it for it in Story(read).sent.values() if it.receipts)
    shown = browser.shown(page, f"follow={sent.call.number}")
    told = text_of(shown, "told")
    if f"received by 1 HK from p{sent.receipts[0].given[0]}, call {sent.receipts[0].number}" not in told or 'class="row dim"' not in shown:
        yield f"a message followed: {told!r}"
    first = next(at for at, lines in enumerate(zip(report.split("\n"), other.read_text().split("\n")), 1) if lines[0] != lines[1])
    pieces = (("events", "limits refused"), ("versions", "HK.Limits"), ("counters", "nosub: 0"), ("compare", f"difference is in line {first}."))
    for view, piece in pieces:
        found = text_of(browser.shown(page, f"view={view}"), "list")
        if piece not in found:
            yield f"{view}: {found[:200]!r}"


def faults_of_long(browser, folder):
    """A long run is drawn in parts, and each quickly."""
    page = page_of(folder, "long", long_report())
    if browser.path:
        found = drawn(browser.shown(page, f"at={LONG - 100}"))
        if not 10 < found.get("rows", 0) < 60 or not found["arrows"] or found["milliseconds"] > MOST_MILLISECONDS:
            yield f"the end of a long run: {found}"


def main(words):
    with tempfile.TemporaryDirectory(prefix="fsw-page-") as name:
        folder = Path(name)
        browser = Browser(folder)
        wrong = [*faults_of_mission(browser, folder), *faults_of_long(browser, folder)]
        if words and browser.path:
            for view, file in (("", "open"), ("app=2", "filtered"), ("follow=11", "followed"), ("view=compare", "compared")):
                browser.leave_screenshot(folder / "mission.html", view, Path(words[0], f"{file}.png"))
    for line in wrong:
        print(f"page: {line}")
    looked = "opened, filtered and followed in a browser" if browser.path else "made, and not opened: there is no Chromium here"
    print(f"page: two pages {looked}; {len(wrong) or 'none'} otherwise than it should be")
    return 1 if wrong else 0


if __name__ == "__main__":
    sys.exit(main(sys.argv[1:]))
