#!/usr/bin/env python3
"""Opens pages of `caa_show page` in a real browser without a window, steps through them, and compares what they say with the rules: who
may make which entry, and who has to wait, as play_by_rules.py reads it from docs/journal.md. On a small and a large screen whoever acts
is in sight and nothing is cut off; what came of it is told at the beginning; and a journal that breaks off opens at its end. Where no
chromium is installed it says so and ends well. With the other program it also opens pages of long journals, of which that of some 5,000 entries has to step at once.

    python3 -B examples/page/browse.py CAA_SHOW [CAA]"""
import base64
import json
import os
import re
import shutil
import socket
import struct
import subprocess
import sys
import tempfile
import time
import urllib.request

HERE = os.path.dirname(os.path.abspath(__file__))
EXAMPLES = os.path.dirname(HERE)
sys.path.insert(0, EXAMPLES)
import play_by_rules  # noqa: E402
CASES = [("production_cell", 3), ("outer_stop", 1)]
NAMES = ("chromium", "chromium-browser", "google-chrome")


class Browser:
    """One tab of a browser, spoken to in its DevTools protocol, over a WebSocket of the standard library."""

    def __init__(self, program, folder):
        words = [program, "--headless", "--no-sandbox", "--disable-gpu", "--remote-debugging-port=0", "--window-size=1500,900",
                 f"--user-data-dir={folder}", "about:blank"]
        self.process = subprocess.Popen(words, stdout=subprocess.DEVNULL, stderr=subprocess.DEVNULL)
        self.number, self.events = 0, []
        self.port = self.port_in(os.path.join(folder, "DevToolsActivePort"))
        with urllib.request.urlopen(f"http://127.0.0.1:{self.port}/json", timeout=60) as it:
            pages = json.load(it)
        address = next(it["webSocketDebuggerUrl"] for it in pages if it["type"] == "page")
        self.connect(address.split(str(self.port), 1)[1])

    def port_in(self, file):
        for _ in range(600):
            if os.path.exists(file):
                with open(file, encoding="utf-8") as it:
                    lines = it.read().splitlines()
                if len(lines) > 1:
                    return int(lines[0])
            time.sleep(0.1)
        raise RuntimeError("the browser doesn't start")

    def connect(self, path):
        self.socket = socket.create_connection(("127.0.0.1", self.port), timeout=120)
        key = base64.b64encode(os.urandom(16)).decode()
        self.socket.sendall((f"GET {path} HTTP/1.1\r\nHost: 127.0.0.1:{self.port}\r\nUpgrade: websocket\r\nConnection: Upgrade\r\n"
                             f"Sec-WebSocket-Key: {key}\r\nSec-WebSocket-Version: 13\r\n\r\n").encode())
        self.rest = b""
        while b"\r\n\r\n" not in self.rest:
            self.rest += self.socket.recv(65536)
        self.rest = self.rest.split(b"\r\n\r\n", 1)[1]

    def take(self, count):
        while len(self.rest) < count:
            self.rest += self.socket.recv(1 << 20)
        taken, self.rest = self.rest[:count], self.rest[count:]
        return taken

    def frame(self):
        size = self.take(2)[1] & 127
        size = struct.unpack(">H", self.take(2))[0] if size == 126 else struct.unpack(">Q", self.take(8))[0] if size == 127 else size
        return json.loads(self.take(size))

    def ask(self, method, **params):
        self.number += 1
        data = json.dumps({"id": self.number, "method": method, "params": params}).encode()
        head = bytes([129, 128 | len(data)]) if len(data) < 126 else bytes([129, 254]) + struct.pack(">H", len(data))
        self.socket.sendall(head + b"\0\0\0\0" + data)
        while True:
            it = self.frame()
            if it.get("id") == self.number:
                return it["result"]
            self.events.append(it)

    def run(self, script):
        it = self.ask("Runtime.evaluate", expression=script, returnByValue=True)
        if "exceptionDetails" in it:
            raise RuntimeError(it["exceptionDetails"])
        return it["result"].get("value")

    def press(self, key, shift=False):
        self.ask("Input.dispatchKeyEvent", type="keyDown", key=key, modifiers=8 if shift else 0)
        self.ask("Input.dispatchKeyEvent", type="keyUp", key=key)

    def open(self, file):
        self.events = []
        self.ask("Runtime.enable")
        self.ask("Log.enable")
        self.ask("Page.enable")
        self.ask("Page.navigate", url="file://" + file)
        for _ in range(600):
            if self.run("document.readyState") == "complete" and self.run("location.protocol") == "file:":
                return
            time.sleep(0.1)
        raise RuntimeError("the page doesn't open")

    def errors(self):
        return [it for it in self.events if it.get("method") == "Runtime.exceptionThrown"
                or it.get("method") == "Log.entryAdded" and it["params"]["entry"]["level"] == "error"]

    def close(self):
        self.process.terminate()
        self.process.wait()


STATE = "[...document.querySelectorAll('#state tr')].map(r => [...r.cells].map(c => c.textContent))"
VALUES = "[...document.querySelectorAll('#objects tr')].map(r => [r.cells[0].textContent, r.cells[1].textContent])"


def standings(text, journal, rows):
    """For each of these numbers of entries that were taken in: what each participant may do, or None where it has to wait or is through,
    and the values of the objects. The entries are made anew by the rules, and compared with the journal."""
    play = play_by_rules.Play(play_by_rules.Script(text))
    script = play.script
    found = {}
    for number in range(len(journal) + 1):
        if number in rows:
            may = [play.may(who) for who in script.participants]
            found[number] = [it.text() if it else None for it in may], [(it, str(play.value(it))) for it in script.objects]
        if number < len(journal):
            made = play.may(journal[number].split()[2])
            if made.text() != journal[number]:
                raise RuntimeError(f"{journal[number]} isn't what the rules give")
            play.past.append(made)
    return script.participants, found


def differs(said, wanted):
    """Whether what the page says of a participant isn't what the rules say."""
    if wanted is None:
        return said.startswith("may:")
    return not said.startswith("may:") or wanted not in re.split(r"may: |\nor, where the device refuses: ", said)


SCREENS = ((1024, 768), (1920, 1080))
SEEN = """(() => { const box = document.getElementById('journal').getBoundingClientRect(), row = document.querySelector('#journal .now'),
sign = row && row.querySelector('.sign'), lane = sign && sign.parentElement, at = lane && lane.getBoundingClientRect();
return !!lane && at.left >= box.left && at.right <= box.right + 1 && lane.scrollWidth <= lane.clientWidth + 1; })()"""
CAME = "[...document.querySelectorAll('#ends tr')].map(r => [...r.cells].map(c => c.textContent))"


def page_of(program, text, file):
    """Writes the page of a script with its journal, which the program may find broken off."""
    with open(file, "wb") as it:
        it.write(subprocess.run([program, "page"], input=text.encode(), stdout=subprocess.PIPE, check=False).stdout)


def looks(browser, name, count):
    """On each screen, whether whoever acts is in sight at some entries, and what it does isn't cut off."""
    wrong = []
    for width, height in SCREENS:
        browser.ask("Emulation.setDeviceMetricsOverride", width=width, height=height, deviceScaleFactor=1, mobile=False)
        for row in sorted({1 + (count - 1) * it // 20 for it in range(21)}):
            browser.run(f"go({row})")
            if not browser.run(SEEN):
                wrong.append(f"{name}: at {width} points who makes entry {row} isn't wholly in sight")
    browser.ask("Emulation.clearDeviceMetricsOverride")
    return wrong


def comes(browser, name, journal):
    """Whether the page begins with the first raise, the first refused put, and the end of each play."""
    lines = [it.split() for it in journal]
    refused = [it for it in lines if it[0] == "putfault" or it[0] == "restore" and it[-1] == "failed"]
    wanted = [["first raise", it] for it in [x for x in lines if x[0] == "raise"][:1]] + [["first refused put", it] for it in refused[:1]]
    said = browser.run(CAME)
    wrong = [f"{name}: what came of it isn't {it}" for it in wanted if [it[0], " ".join(it[1][:1] + it[1][2:])] not in said]
    ends = [it[1:] for it in said if it[0].startswith("play ")]
    outer = browser.run("PLACES.map((it, n) => it[1] ? -1 : n).filter(n => n >= 0)")
    if ends != [[" ".join(it[3:])] for it in lines if it[0] == "end" and int(it[1]) in outer]:
        wrong.append(f"{name}: plays ended otherwise than {ends}")
    return wrong


def breaks_off(browser, program, text, journal_text, folder):
    """Whether the page of a journal that breaks off says so, and opens at its end."""
    lines = journal_text.splitlines(True)[:20]
    page = os.path.join(folder, "broken.html")
    page_of(program, text + "".join(lines), page)
    browser.open(page)
    said = browser.run("[document.getElementById('status').textContent, location.hash]")
    return [] if said == ["breaks off behind entry 19", "#19"] else [f"a journal that breaks off says {said}"]


def compare(browser, program, name, seed, folder):
    with open(os.path.join(EXAMPLES, "cases", name), encoding="utf-8") as it:
        text = it.read()
    journal_text = play_by_rules.journal_of(text, seed)
    journal = [it for it in journal_text.splitlines()[1:] if it.split()[0] not in ("object", "outcome")]
    page = os.path.join(folder, name + ".html")
    page_of(program, text + journal_text, page)
    browser.open(page)
    wrong, rows = looks(browser, name, len(journal)) + comes(browser, name, journal), sorted({len(journal) * it // 10 for it in range(11)})
    who, wanted = standings(text, journal, rows)
    for row in rows:
        browser.run(f"location.hash = '#{row}'; onhashchange()")
        said = browser.run(STATE)
        for number, cells in enumerate(said):
            if cells[0] != who[number] or differs(cells[3], wanted[row][0][number]):
                wrong.append(f"{name}: after {row} entries {cells} isn't {wanted[row][0][number]}")
        if [tuple(it) for it in browser.run(VALUES)] != wanted[row][1]:
            wrong.append(f"{name}: after {row} entries the values are others")
    browser.run("onhashchange(go(0))")
    for number in range(1, 4):
        browser.press("ArrowRight")
        if f"after {number} of {len(journal)} entries: {journal[number - 1]}" != browser.run("document.getElementById('told').textContent"):
            wrong.append(f"{name}: a step leads elsewhere")
    browser.press("r")
    raises = [it + 1 for it, line in enumerate(journal) if it > 2 and line.startswith("raise ")]
    if raises and browser.run("location.hash") != f"#{raises[0]}":
        wrong.append(f"{name}: r leads elsewhere than to entry {raises[0]}")
    wrong += [f"{name}: {it}" for it in browser.errors()]
    return wrong + breaks_off(browser, program, text, journal_text, folder), len(rows)


STEPS = """(() => { const from = performance.now();
for (let k = 0; k < 20; k++) document.dispatchEvent(new KeyboardEvent('keydown', { key: 'ArrowRight', bubbles: true }));
return (performance.now() - from) / 20; })()"""


def open_long(browser, program, player, entries, folder):
    """What is wrong with the page of a journal of about so many entries, of one action that is played again and again."""
    with open(os.path.join(EXAMPLES, "cases", "jam_and_slip"), encoding="utf-8") as it:
        text = it.read()
    play = next(it for it in text.splitlines() if it.startswith("play "))
    text += (play + "\n") * (entries // 24)
    journal = subprocess.run([player, "sim", "1"], input=text.encode(), stdout=subprocess.PIPE, check=True).stdout
    page, begin = os.path.join(folder, f"long_{entries}.html"), time.monotonic()
    with open(page, "wb") as it:
        subprocess.run([program, "page"], input=text.encode() + journal, stdout=it, check=True)
    made, size = time.monotonic(), os.path.getsize(page)
    browser.open(page)
    opened, steps = time.monotonic(), browser.run(STEPS)
    count = int(browser.run("document.getElementById('step').max"))
    took = f"made in {made - begin:.1f} s, opens in {opened - made:.1f} s, a step in {steps:.0f} ms"
    print(f"a page of {count} entries: {size} bytes, {took}")
    wrong = [f"long: {it}" for it in browser.errors()]
    if browser.run("location.hash") != "#20" or count < entries * 9 // 10:
        wrong.append(f"long: a page of {entries} entries doesn't step")
    if entries <= 5000 and steps > 500:
        wrong.append(f"long: a step of a page of {entries} entries takes {steps:.0f} ms")
    return wrong


def main():
    program, *player = map(os.path.abspath, sys.argv[1:])
    browsers = [it for it in map(shutil.which, NAMES) if it]
    if not browsers:
        print("no browser is here, so no page was opened")
        return
    wrong, rows = [], 0
    with tempfile.TemporaryDirectory() as folder:
        browser = Browser(browsers[0], folder)
        try:
            for name, seed in CASES:
                found, count = compare(browser, program, name, seed, folder)
                wrong, rows = wrong + found, rows + count
            for entries in (5000, 500000) if player else ():
                wrong += open_long(browser, program, player[0], entries, folder)
        finally:
            browser.close()
    print("".join(f"{it}\n" for it in wrong) + f"{len(CASES)} pages in a browser, {rows} rows, {len(wrong)} differ from the rules")
    sys.exit(bool(wrong))


main()
