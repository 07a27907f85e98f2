"""Wirings, --resets and GPIO lines (tests/wired.rows and tests/gpio.rows), also in stm32flash's words; boards whose reset hangs on nothing;
each wiring's moves beside those of stm32flash."""

import concurrent.futures
import itertools
import os
import random
import re
import shutil
import signal
import subprocess
import time
import unittest

from boards import LINE, PYTHON, LinePlace
from place import COUNTING, PATIENCE, TABLE, TOP
from rows import in_parts
from started import Started
from stmflash_line.sequences import DELAY, read_sequence, read_wiring

STOPS = int(os.environ.get("STMFLASH_LINE_STOPS", "12"))
WIRINGS = [f"{turned}{reset}-reset{rest}" for reset, boot0 in (("dtr", "rts"), ("rts", "dtr")) for turned in ("", "inverted-")
           for rest in (f",{boot0}-boot0", f",inverted-{boot0}-boot0", "")]
EXAMPLE = "dtr-reset,rts-boot0"


class Pins:
    """A board's two pins, behind a wiring: a signal that is raised is low at the adapter's pin, and an inverter turns it."""

    def __init__(self, wiring):
        self.hangs = {}
        for part in wiring.split(","):
            signal, pin = part.removeprefix("inverted-").split("-")
            self.hangs[pin] = (signal, part.startswith("inverted-"))
        self.raised = {"rts": True, "dtr": True}
        self.began = None

    def is_high(self, pin):
        signal, is_inverted = self.hangs[pin]
        return self.raised[signal] == is_inverted

    def play(self, text):
        """What the board began last: it reads BOOT0 where its reset is let go of."""
        held = 0.0
        for name, value in read_sequence(text):
            if name == "wait":
                held += value
                continue
            was_high = self.is_high("reset")
            self.raised[name] = value
            if self.is_high("reset") and not was_high:
                self.began = ("bootloader" if "boot0" in self.hangs and self.is_high("boot0") else "program", held >= DELAY)
            if self.is_high("reset") != was_high:
                held = 0.0


class Wirings(unittest.TestCase):
    def test_what_they_do_at_the_pins(self):
        """A reset of 100 ms with BOOT0 high, and one with BOOT0 low, wherever the signals were; reset isn't held behind."""
        for wiring in WIRINGS:
            for rts, dtr in ((False, False), (False, True), (True, False), (True, True)):
                with self.subTest(wiring=wiring, rts=rts, dtr=dtr):
                    pins = Pins(wiring)
                    pins.raised = {"rts": rts, "dtr": dtr}
                    entry, leave = read_wiring(wiring)
                    pins.play(entry)
                    self.assertEqual(pins.began, ("bootloader" if "boot0" in pins.hangs else "program", True))
                    self.assertTrue(pins.is_high("reset"))
                    if leave:
                        pins.began = None
                        pins.play(leave)
                        self.assertEqual(pins.began, ("program", True))
                        self.assertFalse(pins.is_high("boot0"))
                        self.assertTrue(pins.is_high("reset"))


class Words(unittest.TestCase):
    def test_one_example_everywhere(self):
        """README, LINE, `--help`, the manual page and the unit name the same wiring first, and one sequence wherever one is shown."""
        for path in ("README.md", "docs/LINE.md", "line/stmflash-line.1", "line/stmflash_line/words.py", "packaging/stmflash-line@.service"):
            with self.subTest(path=path), open(os.path.join(TOP, path), encoding="utf-8") as file:
                text = file.read().replace("\\", "")
                self.assertEqual(re.findall(r"--wiring ([a-z][\w,-]*\w)", text)[:1], [EXAMPLE])
                # more than ten adapters are found, too
                self.assertNotIn("ttyUSB?", text)
                for sequence in re.findall(r"--boot[ =]'?([-a-z&]+,[-a-z&,:]+)", text):
                    self.assertEqual(sequence, ":".join(read_wiring(EXAMPLE)))


class Played(Started):
    """Each case of wired.rows and gpio.rows. A real gpioset, where one is installed, is asked for a chip that isn't there."""

    @unittest.skipIf(shutil.which("gpioset") is None, "gpiod is not installed")
    def test_a_real_gpioset(self):
        """It takes the words, and says that there is no such chip."""
        self.plain()
        said = self.line("ttyUSB0", "--boot", "4", "--gpio-chip", "gpiochip99", "--", "echo", "went", PATH=os.environ["PATH"])
        self.assertEqual((said.status, said.out), (1, b""))
        self.assertRegex(said.err.decode(), r"\Astmflash-line: GPIO line 4 of gpiochip99: no such chip; this machine has .*\n\Z")


in_parts(Played, "wired.rows", 2)
in_parts(Played, "gpio.rows", 3)


class Unwired(LinePlace):
    """Boards whose reset hangs on nothing, though a sequence moves RTS and DTR: what was stopped is undone by a call with the
    same words. STMFLASH_LINE_STOPS says how many stops, 12 without it."""

    def test_a_stop_is_undone_by_the_same_words(self):
        seed = time.time_ns()
        with concurrent.futures.ThreadPoolExecutor(4) as pool:
            for number, told in enumerate(pool.map(lambda number: self.stop_and_undo(f"{seed} {number}"), range(STOPS))):
                self.assertIsNone(told, f"stop {number} of seed {seed}")
        # what the killed have left in the folder for what is temporary goes with the next call
        self.plain("last")
        self.line("last", "--", "true")

    def moved(self, name, *words):
        """Runs COMMAND on this port, which has RTS and DTR, behind a sequence that moves them."""
        return self.start_wired(name, "--boot", "-rts&dtr,-dtr", *words)

    def stop_and_undo(self, seed):
        """A write of which the board got so many bytes: what is wrong behind its undo."""
        chance = random.Random(seed)
        name, place, journal = (f"{kind}-{seed.replace(' ', '-')}" for kind in ("port", "image", "journal"))
        self.store(place, chance.randbytes(3000))
        board = self.board(name, flash=COUNTING)
        count = chance.randint(1, 4200)
        board.hear(count)
        write = self.stmflash("write", "-f", "-S", "0x08001000", place, journal=journal, wait="300")
        started, child = self.start_known(*write, words=(name,), start=self.moved)
        self.until(lambda: board.left == 0 or not os.path.exists(f"/proc/{child}"), "the write neither stops nor ends")
        self.kill_some("line", started, child)
        board.hear(None)
        board.renew()
        if self.is_there(journal):
            # an answer that a busy machine brings too late is a fault of the line
            for _ in range(5):
                undo = self.ended(self.moved(name, "--", *self.stmflash("undo", journal=journal, wait="300")))
                if undo.status == 0:
                    break
            if undo.status != 0:
                return f"after {count} bytes: {undo}"
        flash = board.store()
        board.stop()
        return None if flash == COUNTING else f"after {count} bytes: the flash isn't what it was"

    def test_page_127_stays(self):
        """A device that waits for the page of an erase would take 7F for it, and the next 7F for the check."""
        flash = bytes(i % 249 for i in range(128 * 1024))
        kept = flash[5 * 1024:6 * 1024].hex().upper().encode()
        self.store_all({"table": TABLE.replace(b"412", b"410").replace(b"[32,", b"[128,"), "ttyUSB0.flash.line": b"rest 43BC00\n",
                        "journal": b"stmjournal 2 0410\nopen 1\npage 5 " + kept + b"\nerase 5\n"})
        board = self.board(chip="0410", flash=flash)
        self.assertTold(self.ended(self.moved("ttyUSB0", "--", *self.stmflash("undo"))), "undone 1\n")
        self.assertTrue(board.store() == flash)


@unittest.skipIf(shutil.which("stm32flash") is None, "stm32flash is not installed")
@unittest.skipIf(shutil.which("gcc") is None or not os.path.exists("/usr/include/stdio.h"), "gcc or libc6-dev is not installed")
class BesideStm32flash(LinePlace):
    """The moves of a port, recorded below both programs: the same ones in the same order, each no earlier than the notation has it."""

    def setUp(self):
        super().setUp()
        self.recorder, self.numbers = self.path("signals.so"), itertools.count()
        words = ["gcc", "-shared", "-fPIC", "-O1", os.path.join(TOP, "tests", "signals.c"), "-o", self.recorder, "-ldl"]
        ran = subprocess.run(words, stderr=subprocess.PIPE, timeout=PATIENCE, check=False)
        self.assertEqual(ran.returncode, 0, ran.stderr.decode())

    def recorded(self, *words):
        """The moves of a program on a port, with what it said, and when each was made."""
        name = f"port-{next(self.numbers)}"
        self.plain(name)
        log = self.path("moves-" + name)
        variables = {"PATH": os.environ["PATH"], "TMPDIR": self.path("temporary"), "LD_PRELOAD": self.recorder, "SIGNALS": log}
        ran = subprocess.run([word.replace("PORT", os.path.realpath(self.path(name))) for word in words], env=variables,
                             stdin=subprocess.DEVNULL, capture_output=True, timeout=PATIENCE)
        moves = [line.split() for line in (self.held(log) or b"").decode().splitlines()]
        return ran, [move for _, move in moves], [int(when) for when, _ in moves]

    def all_recorded(self, calls):
        with concurrent.futures.ThreadPoolExecutor(4) as pool:
            return list(pool.map(lambda words: self.recorded(*words), calls))

    def test_moves(self):
        """Each wiring by its name and by its sequence, and others. stm32flash finds no device, and leaves it all the same."""
        named = [(f"{entry}:{leave}", ("--wiring", wiring)) for wiring, (entry, leave) in zip(WIRINGS, map(read_wiring, WIRINGS))]
        named += [(sequence, ("--boot", sequence)) for sequence in ("rts,-dtr:-rts,dtr", "-rts,,,,dtr&rts:brk,-dtr", "brk&-brk,rts")]
        theirs = self.all_recorded([("stm32flash", "-m", "8n1", "-i", sequence, "PORT") for sequence, _ in named])
        by_boot = self.all_recorded([(PYTHON, LINE, "PORT", "--boot", sequence, "--", "true") for sequence, _ in named])
        by_name = self.all_recorded([(PYTHON, LINE, "PORT", *words, "--", "true") for _, words in named])
        for (sequence, _), *runs in zip(named, theirs, by_boot, by_name):
            for ran, moves, times in runs:
                with self.subTest(sequence=sequence, words=ran.args):
                    self.assertEqual(moves, runs[0][1])
                    self.assertNoEarlier(sequence.replace(":", "&"), moves, times)
            for ran, _, _ in runs[1:]:
                self.assertEqual((ran.returncode, ran.stderr), (0, b""))

    def assertNoEarlier(self, sequence, moves, times):
        """Between two moves lies at least what the notation has; a signal that stands so already doesn't move."""
        raised, due, waited = {"rts": True, "dtr": True}, [], 0.0
        for name, value in read_sequence(sequence):
            if name == "wait":
                waited += value
            elif raised.get(name) != value:
                due.append((name if value else "-" + name, waited))
                waited = 0.0
                if name != "brk":
                    raised[name] = value
        self.assertEqual(moves, [move for move, _ in due])
        for (_, least), before, after in zip(due[1:], times, times[1:]):
            # times are noted in whole milliseconds
            self.assertGreaterEqual(after - before, least * 1000 - 1)
