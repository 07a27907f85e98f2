"""The first byte of an undo at a socket is 7F, which a chip that was reset takes its speed from: once, and the journal says so first
(tests/greeting.rows); and devices that were stopped in the midst of a frame, or reset, settled over a socket (tests/settling.rows)."""

import socket
import threading

from place import PATIENCE, served
from refusing import BASE, stopped
from rows import Rows, bytes_of, each_named
from served import relay
from test_silence import Timed

from device import Chip

# chips of four pages, erased by numbers of one byte and of two
CHIPS = {f"{number:04X}": Chip(number, BASE, [256] * 4, is_extended, 0xFF) for number, is_extended in ((0xA01, False), (0xA02, True))}
FLASH = bytes(i % 251 for i in range(1024))
GREETING = b"connect!\n"
DATA = bytes(range(1, 256)) + b"\x02"


class Undoing(Rows):
    cut, kind = None, ""

    def stopped(self, chip, command, count, stands=""):
        """What a session has left that was stopped behind so many bytes of its frame."""
        flash, line, self.noted["journal"] = stopped(CHIPS[chip], FLASH, command, 3, int(count), DATA)
        self.store_all({"flash": flash, "flash.line": f"{stands}\n".encode() if stands else line, "journal": self.noted["journal"]})

    def call(self, *words, **how):
        """Runs the program, at a board of its journal's chip on a line of its own."""
        if "stand" not in words:
            return super().call(*words, **how)
        board, sent, cut, kind = self.start(*served(self.held("journal")[13:17].decode()), "--clients", "1"), [], self.cut, self.kind
        self.cut, self.kind = None, ""

        def hand_on(listener):
            line, _ = listener.accept()
            with line:
                line.settimeout(PATIENCE)
                first = line.recv(1, socket.MSG_PEEK)
                with self.reach("board", board) as at:
                    if kind == "away" or kind == "deaf" and first[:1] != b"\x7f":
                        at.close()
                        sent.extend(iter(lambda: line.recv(4096), b""))
                    else:
                        sent.append(relay(line, at, cut=cut))

        with self.listen("stand") as listener:
            serving = threading.Thread(target=hand_on, args=(listener,))
            serving.start()
            said = super().call(*words, **how)
            serving.join(PATIENCE)
        self.remove("stand")
        self.ended(board)
        self.sent = b"".join(sent)
        return said

    def does(self, sign, told, name, *more):
        if sign == "stopped":
            self.stopped(name, *filter(None, more))
        elif sign == "cut":
            self.cut = int(told)
        elif sign in ("deaf", "away"):
            self.kind = sign
        elif sign == "sent":
            due = bytes_of(told.removeprefix("no "))
            self.assertEqual(self.sent[:len(due)] == due, not told.startswith("no "), self.sent[:300])
        elif sign == "greeted":
            added, due = self.held("journal").removeprefix(self.noted["journal"]), GREETING * int(told)
            self.assertTrue(self.held("journal").startswith(self.noted["journal"] + due), added)
            self.assertEqual(added.count(GREETING), int(told))
        else:
            super().does(sign, told, name, *more)


class Greeting(Undoing):
    """A test for each title."""


each_named(Greeting, "greeting.rows", Rows.play_apart)


class Settling(Timed):
    """A test for each title."""


each_named(Settling, "settling.rows")
