"""Tries the page in a headless Chromium, and in a headless Firefox where there is one, on a simulated board: stops of any kind, full
disks, two tabs, and what a reader sees.

    python3 web/test_page.py [--many]

served_page.py says what it takes. STMFLASH_WEB_SEED is the seed of all that is drawn. --many tries five times as many stops.
"""

import concurrent.futures
import hashlib
import os
import pathlib
import shutil
import socket
import subprocess
import sys
import time
import unittest

from browser import PATIENCE, Browser, Firefox
from served_page import PAGES, READY, SEED, Served, ServedPage, held, rows

# what a program of Python does at its beginning: what nobody keeps is collected at once
COLLECTS = "import gc, itertools, threading\nthreading.Thread(target=lambda: any(gc.collect() < 0 for _ in itertools.count()), daemon=True).start()\n"
# texts that stand out too little from what is behind them, by WCAG's ratio of luminances
FAINT = """[...document.querySelectorAll('body *')].filter((it) => it.offsetParent && !it.disabled && [...it.childNodes].some((part) => part.nodeType === 3 && part.data.trim())).filter((it) => {
    const luminance = (colour) => colour.match(/[\\d.]+/g).slice(0, 3).map((it) => it / 255).map((it) => (it <= 0.03928 ? it / 12.92 : ((it + 0.055) / 1.055) ** 2.4)).reduce((sum, it, i) => sum + it * [0.2126, 0.7152, 0.0722][i], 0.05);
    let behind = it;
    while (getComputedStyle(behind).backgroundColor === 'rgba(0, 0, 0, 0)') behind = behind.parentElement;
    const [one, other] = [getComputedStyle(it).color, getComputedStyle(behind).backgroundColor].map(luminance);
    return Math.max(one, other) / Math.min(one, other) < 4.5;
}).map((it) => it.textContent)"""

AT_ONCE = 5
# moments at which Chromium is stopped, by kinds: each test of these goes in parts
STOPS = {"a_full_origin": 20, "a_wrong_byte_and_a_lost_port": 20, "the_browser_is_killed_at_any_moment": 20, "the_tab_is_closed_at_any_moment": 40}


class InFirefox(ServedPage):
    """A write and its undo, stops of each kind, and two tabs."""

    browser_of, samples = Firefox, 1

    def test_the_tab_is_closed_at_any_moment(self):
        self.stopped(lambda tab: tab.close())

    def test_the_browser_is_killed_at_any_moment(self):
        def end(_):
            self.browser.kill()
            self.begin_browser()

        self.stopped(end)

    def test_a_wrong_byte_and_a_lost_port(self):
        tab = self.tab()
        for kind, says in (("wrongAt", "A byte came wrong"), ("lostAt", "The adapter is gone")):
            for i in range(self.samples):
                at = self.some.randrange(20, 10 * 1024)
                with self.subTest(f"{kind} {at}"):
                    tab.js(f"stmflash.state.plan = {{ {kind}: {at} }}")
                    self.do(tab, "#write", f"(?s)^Not done: .*{says}")
                    tab.js("stmflash.state.plan = undefined")
                    self.undo(tab, f"{kind} {at}")


class Page(InFirefox):
    """And what is tried in Chromium alone, more often."""

    browser_of, samples = Browser, ServedPage.samples

    def test_an_update_in_mid_write(self):
        """A tab goes on with the files that it began with. One that is opened then has all of either version, and undoes."""
        names, marks = ("page.css", "words.js"), "Promise.all(['page.css', 'words.js'].map((it) => fetch(it).then((it) => it.text()).then((it) => it.includes('another version'))))"
        self.tab().js("navigator.serviceWorker.ready.then(() => 1)")
        self.browser.kill()
        self.begin_browser()
        tab = self.tab()
        self.hold_write(tab)
        made = held(f"{self.folder}/offline.js")
        for name in names:
            was = held(f"{self.folder}/{name}")
            pathlib.Path(f"{self.folder}/{name}").write_bytes(was + b"/* another version */\n")
            made = made.replace(*(hashlib.sha256(it).hexdigest().encode() for it in (was, held(f"{self.folder}/{name}"))))
        pathlib.Path(f"{self.folder}/offline.js").write_bytes(made.replace(b"'stmflash-", b"'stmflash-another-"))
        tab.js("navigator.serviceWorker.getRegistration().then((it) => it.update()).then(() => 1)")
        tab.until("navigator.serviceWorker.getRegistration().then((it) => it.waiting !== null)", "the update isn't kept")
        self.assertEqual(tab.js(marks), [False, False])
        seen, ends = [False, False], time.monotonic() + PATIENCE
        while seen != [True, True] and time.monotonic() < ends:
            tab.close()
            tab = self.tab()
            seen = tab.js(marks)
            self.assertIn(seen, ([False, False], [True, True]))
        self.assertEqual(seen, [True, True], "the update never counts")
        self.undo(tab, "behind an update")

    def test_a_full_origin(self):
        """Whatever room there is: a write that can't be journalled ends with a word, and is undone, if need be with room again."""
        tab = self.tab()
        origin = self.address.partition("/?")[0]
        each = 2 * 1024 * (PAGES + 1) // STOPS["a_full_origin"]
        for at in range(self.part * self.samples, (self.part + 1) * self.samples):
            room = at and at * each + self.some.randrange(each)
            with self.subTest(f"room {room}"):
                used = tab.js("navigator.storage.estimate().then((it) => it.usage)")
                tab.call("Storage.overrideQuotaForOrigin", origin=origin, quotaSize=used + room)
                told = self.do(tab, "#write", "(?s)^%sNot done: (cannot write|.*No space|.*room)" % ("Done: |^" if room else ""))
                tab.call("Storage.overrideQuotaForOrigin", origin=origin)
                self.undo(tab, f"room {room}: {told}")

    def test_each_control_has_a_name_and_fits(self):
        tab = self.tab()
        self.do(tab, "#write")
        self.assertEqual(tab.js("[...document.querySelectorAll('.real')].filter((it) => it.offsetParent).length"), 0)
        # those of a port too, which a simulated board hides
        tab.js("document.body.className = ''")
        nodes = tab.call("Accessibility.getFullAXTree")["nodes"]
        controls = [it for it in nodes if it.get("role", {}).get("value") in ("button", "checkbox", "textbox", "combobox", "DisclosureTriangle", "progressbar", "list")
                    and not it.get("ignored")]
        self.assertGreater(len(controls), 12)
        self.assertEqual([it["role"]["value"] for it in controls if it["role"]["value"] != "list" and not it.get("name", {}).get("value")], [])
        names = [it["name"]["value"] for it in controls if it["role"]["value"] == "button"]
        self.assertEqual(len(names), len(set(names)) + names.count("Choose File: No file chosen") - bool(names.count("Choose File: No file chosen")), names)
        for width in (320, 720):
            tab.call("Emulation.setDeviceMetricsOverride", width=width, height=900, deviceScaleFactor=1, mobile=False)
            self.assertLessEqual(tab.js("document.documentElement.scrollWidth"), width)
        for scheme in ("light", "dark"):
            tab.call("Emulation.setEmulatedMedia", features=[{"name": "prefers-color-scheme", "value": scheme}])
            self.assertEqual(tab.js(f"matchMedia('(prefers-color-scheme: {scheme})').matches && ({FAINT})"), [])
        # by the keyboard alone: tabs come to each of them, in the order of the page
        tab.js("document.activeElement.blur()")
        reached = []
        for _ in range(40):
            for kind in ("keyDown", "keyUp"):
                tab.call("Input.dispatchKeyEvent", type=kind, key="Tab", code="Tab", windowsVirtualKeyCode=9)
            if (it := tab.js("document.activeElement.id || document.activeElement.textContent")) in reached:
                break
            reached.append(it)
        wanted = ["port", "baud", "wiring", "fresh", "kind", "board", "ask", "file", "address", "write", "compare", "upload", "read", "form", "try"]
        self.assertEqual([it for it in reached if it in wanted], wanted)


class Trial(ServedPage):
    """What the page says of a write before it is done, and its trial of a board."""

    # one that has 32 pages
    chip, size = "0412", 32768


class Newcomer(ServedPage):
    """What a newcomer does behind `make web-unproved`."""

    def serve(self):
        """By one word; what the board holds is in a folder of the page's server, which has no other word on it."""
        self.server = self.enterContext(Served(env={**os.environ, "TMPDIR": self.room}))
        self.before, self.flash = b"\xff" * self.size, f"{next(pathlib.Path(self.room).glob('stmflash-web-*'))}/flash"

    def does(self, sign, told, *more):
        if sign == "press":
            self.press(self.tabs[""], told)
        elif sign == "sees":
            self.tabs[""].until(f"document.body?.innerText.includes('{told}')")
        elif sign == "ready":
            self.tabs[""].until(READY)
            print(f"ready in {self.tabs[''].js('stmflash.state.compiled'):.0f} ms", flush=True)
        else:
            super().does(sign, told, *more)

    def press(self, tab, text):
        """A click of the mouse on a button that is seen, where it is."""
        button = f"[...document.querySelectorAll('button')].find((it) => it.textContent === '{text}' && it.offsetParent && !it.disabled)"
        tab.until(f"Boolean({button})")
        where = f"(() => {{ const it = {button}; it.scrollIntoView({{ block: 'center' }}); const at = it.getBoundingClientRect(); return [at.x + at.width / 2, at.y + at.height / 2]; }})()"
        # the page may still move
        place = None
        while place != (place := tab.js(where)):
            time.sleep(0.2)
        x, y = place
        for kind in ("mousePressed", "mouseReleased"):
            tab.call("Input.dispatchMouseEvent", type=kind, x=x, y=y, button="left", clickCount=1)

    def test_a_client_that_is_gone_is_served_to_its_end(self):
        """Each byte that is answered shows a board that the one before has left; nobody keeps a client's task but the server."""
        pathlib.Path(self.room, "sitecustomize.py").write_text(COLLECTS)
        with Served("--socket", f"{self.room}/line", stderr=subprocess.PIPE, env={**os.environ, "PYTHONPATH": self.room}) as server:
            for sent in (b"\x7f", b"\0\xff", b"\2\xfd"):
                with socket.socket(socket.AF_UNIX) as client:
                    client.settimeout(PATIENCE)
                    client.connect(f"{self.room}/line")
                    client.sendall(sent)
                    self.assertEqual(client.recv(1), b"\x79")
        with server.process.stderr as said:
            self.assertEqual(said.read(), "")


for kind, page in ((InFirefox, "stops"), (Page, "page"), (Trial, "trial"), (Newcomer, "newcomer")):
    rows.each_named(kind, f"../web/{page}.rows", ServedPage.play_all)


def run(test):
    """Runs a part of one test, tells what came of it, and answers it where it failed."""
    name, part = test
    os.environ["STMFLASH_WEB_PART"] = str(part)
    began, ended = time.monotonic(), unittest.TestResult()
    unittest.defaultTestLoader.loadTestsFromName(name, sys.modules["__main__"]).run(ended)
    wrong = [text for _, text in ended.failures + ended.errors] + [f"left out: {why}" for _, why in ended.skipped]
    print("\n".join([f"{'FAILED' if wrong else 'passed'} {time.monotonic() - began:5.1f} s: {name} {part or ''}", *wrong]), flush=True)
    return test if wrong else None


def main():
    """Some at once, since each mostly waits, and first those in parts, which take longest. One that failed is run once more when all have
    ended, with nothing beside it, and this is told: a machine that is busy with other things answers late."""
    os.environ["STMFLASH_WEB_SEED"] = str(SEED)
    print(f"web/test_page: seed {SEED}", flush=True)
    kinds = [it for it in (Trial, Newcomer, InFirefox, Page) if shutil.which(it.browser_of.program)]
    if InFirefox not in kinds:
        print(f"left out: the page in Firefox, there is no {Firefox.program}", flush=True)
    times = 5 if "--many" in sys.argv else 1
    failed = []
    for kind in kinds:
        for name in unittest.defaultTestLoader.getTestCaseNames(kind):
            parts = times * STOPS.get(name.removeprefix("test_"), 0) // kind.samples if kind is Page else 1
            failed += ((f"{kind.__name__}.{name}", part) for part in range(max(parts, 1)))
    failed.sort(key=lambda it: it[0].partition(".test_")[2] not in STOPS)
    for at_once, os.environ["STMFLASH_WEB_WAIT"] in ((AT_ONCE, "500"), (1, "1000")):
        with concurrent.futures.ProcessPoolExecutor(at_once) as pool:
            failed = list(filter(None, pool.map(run, failed)))
    sys.exit(1 if failed else 0)


if __name__ == "__main__":
    main()
