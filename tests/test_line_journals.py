"""stmflash-line where nobody names a journal, a port or `stmflash`: each board's journal is found by its unique id, and shared with
stm32flash's words; and the shortest calls that docs/SWITCH.md has."""

import os
import re
import shlex
import shutil
from unittest import mock

from boards import LINE, Named, OnPorts
from place import COUNTING, SIZE, TOP, text_in
from rows import cases, in_parts
from stmflash_line import asking, journals
from test_stm32flash_words import TELLING

BOARD = 12 * "A1"
# runs the companion on a machine that has these ports, each with what it is; those of USB have a number of their maker
RUNNER = """
import runpy, sys, types
from serial.tools import list_ports
sys.dont_write_bytecode = True
class Port(types.SimpleNamespace):
    def __lt__(self, other):
        return self.device < other.device
ports = [Port(device=device, description=what, vid=1 if what else None) for device, what in eval(sys.argv.pop(1))]
list_ports.comports = lambda: ports
sys.argv.pop(0)
runpy.run_path(sys.argv[0], run_name="__main__")
"""
ONE = [("ttyUSB0", "USB UART")]
# a flash with an image in it
HEX = b"\xde\xad\xbe\xef" + COUNTING[4:]


class Unnamed(Named):
    begins = {"table": TELLING, "fw.bin": b"new"}

    def setUp(self):
        super().setUp()
        self.state = os.path.join(self.folder, ".local", "state", "stmflash")

    def short(self, *words, ports=None, **settings):
        """Runs the companion, which finds stmflash by its name; on a machine of these ports where they are given."""
        line = (LINE,) if ports is None else ("-c", RUNNER, repr(ports), LINE)
        return self.line(*words, line=line, **self.settings(**settings))


class Played(Unnamed, OnPorts):
    """Cases that are told as text, each call one of stmflash-line (tests/short.rows)."""

    def placed(self, told):
        return super().placed(told).replace("{port}", os.path.join(self.state, "ports", journals.name_of(self.path("ttyUSB0"))))

    def run_words(self, words):
        return self.short(*shlex.split(words), ports=self.noted.get("ports"), **self.variables)

    def does(self, sign, told, name, *more):
        if sign == "ports":
            self.noted["ports"] = re.findall(r"(\w+) \(([^)]*)\)", told)
        else:
            super().does(sign, told, name, *more)

    def test_a_board_that_is_named(self):
        self.play_all(cases("named.rows"))


in_parts(Played, "short.rows", 4)


class Alone(Unnamed):
    def test_the_question_is_asked_by_the_words_of_the_line(self):
        self.store("asked", b'#!/bin/sh\necho "{\\"board\\": \\"$*\\"}"\n')
        os.chmod(self.path("asked"), 0o755)
        of_line = ["--table", "t", "--wait", "1", "--give-up", "2", "--baud", "3", "--fresh", "--trust-journal"]
        words = [self.path("asked"), "write", "-v", "--watch", "--again", "2", *of_line, "fw.bin"]
        said = asking.ask(words, "none", lambda begin: begin(self.settings()).wait())
        self.assertEqual(said, (0, " ".join(["info --raw --json --quiet --journal none", *of_line])))
        self.store("asked", b"#!/bin/sh\necho no JSON\n")
        self.assertRaisesRegex(journals.Fault, "asked: what it says of the board isn't understood; ", asking.ask, words, "none", lambda begin: begin(self.settings()).wait())

    def test_one_to_which_a_program_adds_just_now_is_not_stopped(self):
        self.store("held", b"open 1\n")
        with mock.patch("fcntl.flock", side_effect=lambda *_: self.add("held", b"end 1\n")):
            self.assertFalse(journals.is_stopped(self.path("held")))

    def test_the_table_that_is_installed_beside_it(self):
        """Under any PREFIX; but not where a variable names one, or stmflash finds one by itself, as the user's own."""
        self.telling()
        shutil.copytree(os.path.join(TOP, "line", "stmflash_line"), self.path("share/stmflash/stmflash_line"))
        shutil.copy(LINE, self.path("bin/stmflash-line"))
        self.store("share/stmflash/chips.toml", self.held("table"))
        settings = self.settings()
        del settings["STMFLASH_TABLE"]

        def said(**more):
            return self.line("ttyUSB0", line=("bin/stmflash-line",), **settings, **more)

        for more in ({}, {"STMFLASH_TABLE": ""}):
            self.assertIn(BOARD.encode(), said(**more).out)
        os.makedirs(self.path(".config/stmflash"))
        # one that has other chips goes over it
        self.store(".config/stmflash/chips.toml", TELLING.replace(b"412", b"416"))
        self.assertIn(BOARD.encode(), said().out)
        self.store(".config/stmflash/chips.toml", b"[[chip]]\n")
        self.assertIn(b"table: chip 1: missing", said().err)
        os.rename(self.path(".config/stmflash/chips.toml"), self.path("named"))
        self.assertIn(b"table: chip 1: missing", said(STMFLASH_TABLE=self.path("named")).err)


class Keystrokes(Unnamed):
    """The shortest calls of the page: each has as many keystrokes as it says, no more than the others', and does it."""

    def rows(self):
        table = text_in("docs", "SWITCH.md").split("### The shortest calls\n")[1].split("|---|---|---|---|---|\n")[1].split("\n\n")[0]
        return [[re.findall("`([^`]*)` ([0-9]+)", cell) for cell in row.strip("|").split("|")[1:]] for row in table.splitlines()]

    def test_they_are_counted(self):
        rows = self.rows()
        self.assertEqual(len(rows), 10)
        for ours, *others in rows:
            for calls in (ours, *others):
                for call, count in calls:
                    self.assertEqual((call, len(call) + 1), (call, int(count)))
            self.assertEqual(len(ours), 1)
            self.assertLessEqual(int(ours[0][1]), 42)
            self.assertLessEqual(len(others[0]), 1)
            for call, count in others[0]:
                self.assertLess(int(ours[0][1]), int(count), call)

    def test_ours_do_it(self):
        self.store("fw.hex", b":020000040800F2\n:04000000DEADBEEFC4\n:00000001FF\n")
        changes = {"write fw.hex": HEX, "write -v fw.hex": HEX, "erase --all": b"\xff" * SIZE}
        for [[(call, _)], *_] in self.rows():
            with self.subTest(call=call):
                board = self.telling()
                words = call.removeprefix("stmflash-line").strip()
                if words in ("undo", "verify fw.hex"):
                    self.assertEqual(self.short("write", "fw.hex", ports=ONE).status, 0)
                said = self.short(*words.split(), ports=ONE)
                self.assertEqual(said.status, 0, said)
                self.assertEqual(board.store(), HEX if words == "verify fw.hex" else changes.get(words, COUNTING))
                board.stop()
                shutil.rmtree(self.state)
                self.remove("ttyUSB0.flash.line")
        self.assertFile("out.bin", COUNTING)
        self.assertFile("o", COUNTING[:256])
