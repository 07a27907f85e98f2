"""A line that watches: over a board that follows the model nothing changes; a reply that no such board gives ends the line, and is
told (tests/watch.rows has each byte, tests/over.rows sessions, tests/planted the boards)."""

import os
import random
import sys
import time
import tomllib

from boards import LinePlace
from place import TOP
from rows import Rows, bytes_of, cases, in_parts
from started import Started
from stmflash_line.watch import Watch

import pty_boards

TABLE = b'[[chip]]\nid = 0x440\nbase = 0x08000000\npages = [[8, 1024]]\nerase = "extended"\n'
SUMMARY = r"stmflash-line: \S+: watched: [0-9]+ bytes of replies, each as a device of the model sends it(; [0-9]+ more were due)?\n"
# so many writes are stopped
STOPS = int(os.environ.get("STMFLASH_LINE_STOPS", "3"))

class Bytes(Rows):
    """One conversation, byte by byte."""

    def does(self, sign, told, name, *more):
        if sign == "chips":
            self.watch = Watch(tomllib.loads(bytes_of(told).decode()).get("chip", []))
        elif sign == "anew":
            self.watch.begin()
        elif sign == "sends":
            self.watch.put(bytes.fromhex(told))
        elif sign in ("comes", "bytes", "other"):
            came, clean, text = told.split(" / ") if sign == "other" else (told, told, None)
            for came, clean in zip(came.split(), clean.split()) if sign == "bytes" else [(came, clean)]:
                found, said = self.watch.due_of(bytes.fromhex(came))
                self.assertEqual((found.hex(" ").upper(), said), (clean, text))
        elif sign == "tells":
            self.assertEqual(self.watch.told(), told)
        else:
            super().does(sign, told, name, *more)

    def test_each_byte(self):
        self.play_all(cases("watch.rows"))


class Played(Started):
    """Each case of over.rows."""

    chip = "0440"

    def begin(self):
        super().begin()
        self.around = {"STMFLASH_TABLE": self.path("table")}

    def does(self, sign, told, name, *more):
        if sign == "planted":
            words = "--id 0440 --pages 8 --size 1024 --erase 44 --clients 1000"
            shim = f'#!/bin/sh\nexec {sys.executable} {TOP}/tests/planted "$9" --plant {name} {words} --flash "$7"\n'
            self.store("planted", shim.encode())
            os.chmod(self.path("planted"), 0o755)
            self.addCleanup(pty_boards.PtyBoard(self.path("planted"), self.path("ttyUSB0"), "0440", self.path("table")).stop)
        else:
            super().does(sign, told, name, *more)


in_parts(Played, "over.rows", 3)


class Boards(LinePlace):
    begins = {"table": TABLE}

    def watched(self, name, *words):
        """What a session says over a line that watches."""
        return self.line("ttyUSB0", "--watch", "--", *self.stmflash(name, *words), STMFLASH_TABLE=self.path("table"))

    def assertWatched(self, said):
        self.assertRegex(said.err.decode(), rf"\A{SUMMARY}\Z")
        self.assertEqual(said.status, 0)

    def test_stops_and_undos(self):
        """A write that was stopped behind any byte is undone over a line that watches, without a false word."""
        seed = time.time_ns()
        chance = random.Random(seed)
        board = self.board(chip="0440")
        self.store("image", chance.randbytes(3000))
        self.assertWatched(self.watched("write", "-f", "image", "--quiet"))
        flash = board.store()
        self.remove("journal")
        for _ in range(STOPS):
            count = chance.randint(1, 5000)
            board.hear(count)
            self.store("image", chance.randbytes(3000))
            self.watched("write", "-f", "-S", "0x08000400", "image", "--give-up", "1", "--quiet")
            board.hear(None)
            if self.is_there("journal"):
                self.assertWatched(self.watched("undo"))
                self.remove("journal")
            self.assertEqual(board.store(), flash, f"after {count} bytes of seed {seed}")
