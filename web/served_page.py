"""The page for one test, with its server, its simulated board and a headless browser: what a reader does there, and what is seen.

The page is bin/web, the board the simulator of STMFLASH, bin/stmflash-unproved where that is unset. What a test waits for is never a
time: a state of the page, or the bytes of the flash. STMFLASH_WEB_PART is which part of a test goes, 0 without it: each draws other
moments.
"""

import base64
import contextlib
import json
import os
import pathlib
import random
import shutil
import socket
import subprocess
import sys
import tempfile
import time
import unittest

HERE = os.path.dirname(os.path.abspath(__file__))
TOP = os.path.dirname(HERE)
sys.path[:0] = [HERE, f"{TOP}/tests"]

import rows
from browser import PATIENCE, Browser

PROGRAM = os.path.abspath(os.environ.get("STMFLASH") or f"{TOP}/bin/stmflash-unproved")
SEED = int(os.environ.get("STMFLASH_WEB_SEED", "0")) or random.SystemRandom().randrange(1, 1 << 30)
UNIQUE = "112233445566778899AABBCC"
# pages of 1,024 bytes that an image has
PAGES = 5
READY = "document.body?.dataset.ready === 'yes' && !stmflash.state.busy"


def wait():
    """How long a reply may take, in milliseconds: longer where a test is run once more."""
    return os.environ.get("STMFLASH_WEB_WAIT", "1000")


class Served:
    """web/serve with these words, and the address of its page."""

    def __init__(self, *words, **how):
        self.process = subprocess.Popen([f"{HERE}/serve", *words, "--port", "0"], stdout=subprocess.PIPE, text=True, **how)
        self.address = self.process.stdout.readline().strip()

    def __enter__(self):
        return self

    def end(self, *_):
        self.process.terminate()
        try:
            self.process.wait(PATIENCE)
        except subprocess.TimeoutExpired:
            self.process.kill()
            self.process.wait()
        self.process.stdout.close()

    __exit__ = end


def held(path):
    return pathlib.Path(path).read_bytes()


def named(given):
    """A file of the page, as JavaScript makes it."""
    name, data = given
    return f"new File([Uint8Array.from(atob('{base64.b64encode(data).decode()}'), (it) => it.charCodeAt(0))], '{name}')"


class ServedPage(unittest.TestCase):
    # moments of a stop that one part of a test tries
    browser_of, samples = Browser, 10
    # one of the table that has 128 pages of 1,024 bytes
    chip, size = "0410", 131072

    def setUp(self):
        self.room = self.enterContext(tempfile.TemporaryDirectory(prefix="stmflash-web-", ignore_cleanup_errors=True))
        self.part = int(os.environ.get("STMFLASH_WEB_PART", "0"))
        self.some = random.Random(f"{SEED} {self._testMethodName} {self.part}")
        self.serve()
        self.address = self.server.address
        self.image = bytes(4) + self.some.randbytes(PAGES * 1024 - 104)  # a colon in front would make HEX of it
        self.begin_browser()
        self.addCleanup(lambda: self.browser.kill())

    def serve(self):
        self.flash, self.folder, self.socket = f"{self.room}/flash", f"{self.room}/page", f"{self.room}/board"
        shutil.copytree(f"{TOP}/bin/web", self.folder)
        self.before = self.some.randbytes(self.size)
        self.before_is(20480, b"\xff" * 4)
        pathlib.Path(self.flash).write_bytes(self.before)
        words = ["--program", PROGRAM, "--id", self.chip, "--flash", self.flash, "--socket", self.socket, "--pace", "460800"]
        self.server = self.enterContext(Served(self.folder, *words))

    def before_is(self, at, data):
        self.before = self.before[:at] + data + self.before[at + len(data):]

    def begin_browser(self):
        self.browser = self.browser_of(f"{self.room}/profile")

    def tab(self, **context):
        return self.ready(self.browser.tab(self.address, **context))

    def ready(self, tab):  # its bar stands still: one that moves would take a tenth of all processor time
        tab.until(READY, "the page isn't ready")
        tab.js(f"document.getElementById('bar').style.appearance = 'none', stmflash.state.wait = {wait()}, stmflash.take({named(('a@0', self.image))})")
        return tab

    def until_held(self, path, wanted):
        """The simulator keeps its flash and its line in files once its client has gone. What a file has in the end."""
        ends, kept = time.monotonic() + PATIENCE, None
        while kept != wanted and time.monotonic() < ends:
            time.sleep(0.05)
            with contextlib.suppress(FileNotFoundError):
                kept = held(path)
        return kept

    def assertFlash(self, wanted, why=""):
        kept = self.until_held(self.flash, wanted)
        self.assertTrue(kept == wanted, f"{why}: the flash is another at {[i for i, (one, two) in enumerate(zip(kept, wanted)) if one != two][:20]}")

    def click(self, tab, selector):
        tab.js(f"document.getElementById('told').hidden = true, document.querySelector({selector!r}).click()")

    def do(self, tab, selector, wanted="^Done: ", why=""):
        """Clicks, and waits until all is done; what was told then, which has to be so."""
        self.click(tab, selector)
        tab.until("!stmflash.state.busy && !stmflash.state.isAtWork && document.getElementById('doing').hidden && !document.getElementById('told').hidden")
        told = tab.js("document.getElementById('told').innerText")
        self.assertRegex(told, wanted, f"{why}; the page says: {tab.said()}")
        return told

    def journal_of(self, tab, board):
        return base64.b64decode(tab.js(f"stmflash.ask('get', {{ path: '/boards/{board}.journal' }}).then((it) => btoa(String.fromCharCode(...it.bytes)))"))

    def hold_write(self, tab):
        """Begins a write, and waits until the board has sent so many bytes of it, and then no more: it is in the middle of its pages."""
        tab.js(f"stmflash.state.plan = {{ holdAt: {self.some.randrange(1500, 4000)} }}")
        self.click(tab, "#write")
        tab.until("stmflash.state.isHeld")

    def stopped(self, end):
        """Stops a write at any moment: in the midst of its pages, or behind one of its steps. What undoes it is another tab's."""
        tab = self.tab()
        for i in range(self.samples):
            moment = self.some.randrange(2 * PAGES)
            if i % 2:
                tab.js("document.getElementById('bar').removeAttribute('value')")
                self.click(tab, "#write")
                tab.until(f"document.getElementById('bar').hasAttribute('value') && document.getElementById('bar').value >= {moment} || !document.getElementById('told').hidden")
            else:
                self.hold_write(tab)
            end(tab)
            tab = self.tab()
            self.assertTrue(i % 2 or tab.js("!document.getElementById('stopped').hidden"), f"stop {i} wasn't in mid-write: {tab.said()}")
            self.undo(tab, f"stop {i}, at {moment}")

    def undo(self, tab, why):
        """Undoes by the one button that the page shows behind a stop, or by a journal's where the write had ended; and sees the flash."""
        if tab.js("!document.getElementById('stopped').hidden"):
            self.assertIn(UNIQUE, tab.js("document.getElementById('stopped-says').textContent"))
            self.do(tab, "#stopped-undo", r"^Done: undone \d", why)
        elif tab.js("stmflash.state.names.length") and not tab.js("document.getElementById('journals').innerText.includes('0 can be undone')"):
            tab.js("void (window.undone = stmflash.acts.undo(stmflash.state.names[0], true))")
            self.assertEqual(tab.js("undone.then((it) => it.status)"), 0, f"{why}; the page says: {tab.said()}")
        self.assertFlash(self.before, why)
        self.assertTrue(tab.js("document.getElementById('stopped').hidden"))

    def play_all(self, found):
        """Plays cases of a page, each from the beginning on (web/page.rows says how one is written)."""
        for number, (title, lines) in enumerate(found):
            with self.subTest(title=title):
                if number > 0:
                    self.doCleanups()
                    self.setUp()
                    self.some.seed(f"{SEED} {title}")
                self.title, self.tabs, self.other = title, {}, None
                told = {"DIFFER": str(sum(one != two for one, two in zip(self.before, self.image))), "ORIGIN": self.address.partition("/?")[0]}
                for sign, rest in lines:
                    rest = rows.named(rest, told)
                    self.does(sign, rest, *rest.partition(" ")[::2])

    def bytes_of(self, told):
        kind, *places = told.split(" ")
        if kind == "kept":
            return self.kept
        if kind == "another":
            return self.kept.replace(UNIQUE.encode(), UNIQUE[::-1].encode())
        if kind != "image":
            return rows.bytes_of(told)
        return bytes(it ^ (f"{at:X}" in places) for at, it in enumerate(self.image))

    def does(self, sign, told, name, rest):
        """What a line of a case says, in the tab that was opened or named last."""
        tab = self.tabs.get("")
        if sign == "tab":
            self.tabs[told] = self.tabs[""] = self.tab()
        elif sign == "private":
            self.context = self.browser.call("Target.createBrowserContext")
            self.tabs[""] = self.tab(**self.context)
        elif sign == "public":
            self.browser.call("Target.disposeBrowserContext", **self.context)
        elif sign == "loads":
            self.tabs[name] = self.tabs[""] = self.browser.tab(self.address.partition("/?")[0] + rest)
        elif sign == "on":
            self.tabs[""] = self.tabs[told]
        elif sign == "reloads":
            tab.reload()
            self.ready(tab)
        elif sign in ("close", "until", "js"):
            getattr(tab, sign)(*filter(None, [told]))
        elif sign == "do":
            self.do(tab, name, rest or "^Done: ")
        elif sign == "click":
            self.click(tab, told)
        elif sign == "hold":
            self.hold_write(tab)
        elif sign == "is":
            self.assertTrue(tab.js(told), told)
        elif sign in ("shows", "lacks"):
            (self.assertRegex if sign == "shows" else self.assertNotRegex)(tab.js(f"document.getElementById('{name}').innerText"), rest)
        elif sign == "choose":
            tab.js(f"document.getElementById('{name}').value = '{rest}', document.getElementById('{name}').onchange()")
        elif sign == "types":
            tab.js(f"document.getElementById('{name}').value = '{rest}'")
        elif sign == "file":
            tab.js(f"void (window.file = {named((name, self.bytes_of(rest)))})")
        elif sign == "chooses":
            pathlib.Path(self.room, name).write_bytes(self.bytes_of(rest or "image"))
            at = tab.call("Runtime.evaluate", expression="document.getElementById('file')")["result"]["objectId"]
            tab.call("DOM.setFileInputFiles", files=[f"{self.room}/{name}"], objectId=at)
        elif sign == "adds":
            pathlib.Path(self.room, name).write_bytes(held(f"{self.room}/{name}") + self.bytes_of(rest))
        elif sign == "refuses":
            tab.js("stmflash.take(file)")
            if tab.js("document.getElementById('write').disabled"):
                self.assertIn(told, tab.js("document.getElementById('image').innerText"))
            else:
                self.do(tab, "#write", f"^Not done: .*{told}")
        elif sign == "keeps":
            self.kept = self.journal_of(tab, name)
            self.assertIn(self.bytes_of(rest), self.kept)
        elif sign == "same":
            self.assertEqual(self.journal_of(tab, told), self.kept)
        elif sign == "flash":
            at, data = (int(name, 16), self.bytes_of(rest)) if rest else (0, self.image if told == "after" else b"")
            self.assertFlash(self.before[:at] + data + self.before[at + len(data):])
        elif sign == "before":
            self.before_is(int(name, 16), self.bytes_of(rest))
        elif sign == "line":
            self.assertEqual(self.until_held(f"{self.flash}.line", self.bytes_of(told)), self.bytes_of(told))
        elif sign == "undo":
            self.undo(tab, self.title)
        elif sign == "call":
            for path, data in (("image", self.image), ("journal", self.kept)):
                pathlib.Path(self.room, path).write_bytes(data)
            files = ["--table", f"{TOP}/chips.toml", "--device", self.socket, "--wait", wait(), "--journal", "journal"]
            ran = subprocess.run([PROGRAM, name, *files, *rest.split()], cwd=self.room, stdin=subprocess.DEVNULL, capture_output=True, text=True, timeout=PATIENCE)
            self.assertEqual(ran.returncode, 0, ran.stderr)
            self.kept = held(f"{self.room}/journal")
        elif sign == "~":
            sent, due = told.split(" = ")
            if self.other is None:
                self.other = self.enterContext(socket.socket(socket.AF_UNIX, socket.SOCK_STREAM))
                self.other.settimeout(PATIENCE)
                self.other.connect(self.socket)
            self.other.sendall(self.bytes_of(sent))
            came = self.other.recv(1)
            self.assertEqual(came if due != "?" else len(came), self.bytes_of(due) if due != "?" else 1)
        elif sign == "gone":
            self.other.close()
        elif sign == "calls":
            given, end = json.JSONDecoder().raw_decode(rest)
            answer = tab.call(name, **given)
            self.assertEqual(answer, json.loads(rest[end + 3:]) if rest[end:] else answer)
        elif sign == "unserved":
            self.server.end()
        else:
            raise ValueError(f"no sign: {sign}")
