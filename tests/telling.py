"""Boards that tell which they are: a stand-in before a served simulator, which has nothing outside its flash to read.

All bytes are handed on, but Read Memory at the places where the chip tells its board is answered here, each step as a bootloader
answers it (AN3155, section 3.4).
"""

import contextlib
import os
import socket

from place import PATIENCE, readable, served
from rows import Rows
from served import Served

ACK = b"\x79"
NACK = b"\x1f"
READ = b"\x11\xee"
WRITE = b"\x31\xce"
UNIQUE_AT = 0x1FFFF7E8
SIZE_AT = 0x1FFFF7E0
# a chip of 128 pages that tells its board, and how large its flash is
TABLE = b'[[chip]]\nid = 0x410\nbase = 0x08000000\npages = [[128, 1024]]\nerase = "page"\n' \
        b"unique = [0x1FFFF7E8, 12]\nsize_at = 0x1FFFF7E0\n"


def run_beside(place, serve, *words, variables=None):
    """Runs the program where a board is served so at the socket `board`."""
    listener = place.listen("board")
    ran = place.start(*words, variables=variables)
    serving = place.beside(listener, lambda: serve(listener))
    said = place.ended(ran)
    serving.join(PATIENCE)
    listener.close()
    place.remove("board")
    return said


class Told(Served):
    """A test of the simulator of that chip."""

    def at(self, *words, device="sim:0410:flash", **more):
        return self.use(*words, device=device, **more)


class Unacknowledged(Exception):
    """A read that is handed on isn't acknowledged, as by a board that was just reset."""


class Stand:
    """One client between its line and the board: what is told at each place, or None where that is refused. With `cuts` the line
    is cut where the client begins to write a page that was erased."""

    def __init__(self, line, board, told, cuts):
        self.line, self.board, self.told, self.cuts = line, board, told, cuts
        # which places were asked for, and what was handed on to the board
        self.asked, self.sent = [], b""
        self.step, self.held = self.command, b""

    def hand_on(self, data):
        self.sent += data
        self.board.sendall(data)

    def reply(self, data):
        self.line.sendall(data)

    def heard(self, came):
        """Called with what came, before anything is done with it."""

    def command(self, came):
        if came == READ:
            self.reply(ACK)
            self.step = self.address
        else:
            self.hand_on(came)

    def address(self, came):
        self.held += came
        if len(self.held) < 5:
            return
        held, self.held = self.held, b""
        at = int.from_bytes(held[:4], "big")
        if at in self.told:
            self.asked.append(at)
            told = self.told[at]
            self.reply(NACK if told is None else ACK)
            self.step = self.command if told is None else lambda came: self.count(came, told)
            return
        self.hand_on(READ)
        if self.board.recv(1) != ACK:
            raise Unacknowledged
        self.hand_on(held)
        self.step = self.passed

    def count(self, came, told):
        assert came == bytes([len(told) - 1, 256 - len(told)]), came
        self.reply(ACK + told)
        self.step = self.command

    def passed(self, came):
        """The count of a read that the board answers."""
        self.hand_on(came)
        self.step = self.command

    def run(self):
        """Until either has gone."""
        while True:
            ready = readable([self.line, self.board], PATIENCE)
            if not ready:
                return
            if self.board in ready:
                came = self.board.recv(4096)
                if not came:
                    return
                if came == NACK and self.step == self.passed:
                    self.step = self.command
                self.line.sendall(came)
            if self.line in ready:
                came = self.line.recv(4096)
                if not came or (self.cuts and came == WRITE):
                    return
                self.heard(came)
                self.step(came)


@contextlib.contextmanager
def simulated(place, flash, name):
    """A line to a simulator of its own on this flash, at a socket of this name, which has stored what was left in the end. Under wine it is
    the program for Linux: what stands before the simulator has to answer in time."""
    simulator = place.start(*served("0410", flash, name), executable=os.environ.get("STMFLASH_LINUX"))
    with place.reach(name, simulator) as board:
        try:
            yield board
        finally:
            # also where the client went in the midst: the next simulator may have this socket and these files
            board.shutdown(socket.SHUT_WR)
            place.ended(simulator)


def serve_one(place, listener, flash, told, cuts, kind=Stand):
    """Serves one client on a simulator, and answers its stand, once the simulator has stored what was left."""
    with simulated(place, flash, "behind") as board:
        line, _ = listener.accept()
        with line:
            stand = kind(line, board, told, cuts)
            stand.run()
    return stand


class Asked(Rows):
    """A test whose cases are played over boards that it serves (tests/boards.rows says how they are told)."""

    kind, cuts = Stand, "0"

    def call(self, *words, variables=None, **how):
        """Runs the program, at a board where it names one, in so many sessions, some of which are cut."""
        if "board" not in words:
            return super().call(*words, variables=variables, **how)
        self.stands, cuts, self.cuts = [], self.cuts, "0"

        def serve(listener):
            for it in cuts:
                self.stands.append(serve_one(self, listener, self.flash, dict(self.told), it == "1", self.kind))

        return run_beside(self, serve, *words, variables=variables)

    def does(self, sign, told, name, *more):
        if sign == "tells":
            kib, self.flash = more
            self.told = {UNIQUE_AT: None if name == "none" else bytes.fromhex(name), SIZE_AT: None if kib == "none" else int(kib).to_bytes(2, "little")}
        elif sign == "cuts":
            self.cuts = told
        elif sign == "asks":
            self.assertEqual(" ".join("".join("U" if at == UNIQUE_AT else "S" for at in it.asked) for it in self.stands) or "none", told)
        elif sign == "sent":
            self.assertRegex(" ".join(it.sent.hex().upper() for it in self.stands), rf"\A{told}\Z")
        else:
            super().does(sign, told, name, *more)
