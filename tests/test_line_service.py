"""What serves a port for many: clients that say nothing, the package's unit and its udev rule."""

import os
import re
import shlex
import signal
import time

from boards import LinePlace, end_with
from place import PATIENCE, TOP, WAIT, text_in

UNIT = os.path.join(TOP, "packaging", "stmflash-line@.service")


class Idle(LinePlace):
    TEXT = "stmflash-line: ttyUSB0: let go of a client that sent nothing for 1 s\n"

    def test_a_client_that_says_nothing_is_let_go_of(self):
        """Whatever the board sends it meanwhile; whoever comes next has the line."""
        master = self.plain()
        started = self.serve("--idle", "1")
        for said in (b"", b"?"):
            with self.connect() as client, self.connect() as following:
                client.sendall(said)
                self.assertEqual(self.read_from(master, len(said)), said)
                os.write(master, b"noise")
                following.sendall(b"next")
                end = time.monotonic() + PATIENCE / 2
                while client.recv(9):
                    self.assertLess(time.monotonic(), end, "it is kept")
                    time.sleep(0.1)
                    os.write(master, b"noise")
                self.assertEqual(self.read_from(master, 4), b"next")
                following.close()
        self.assertEqual(end_with(started, signal.SIGTERM), 0)
        self.assertEqual(started.stderr.read().decode(), 2 * self.TEXT)

    def test_one_that_goes_on_is_not(self):
        """Each of its bytes counts anew, and so does a port that takes none of them."""
        master = self.plain()
        self.serve("--idle", "2")
        client = self.connect()
        for _ in range(6):
            client.sendall(b"?")
            self.assertEqual(self.read_from(master, 1), b"?")
            client.settimeout(0.5)
            self.assertRaises(TimeoutError, client.recv, 1)
        client.settimeout(PATIENCE)
        client.sendall(b"a" * 150_000)
        client.settimeout(3)
        self.assertRaises(TimeoutError, client.recv, 1)
        self.assertEqual(len(self.read_from(master, 150_000)), 150_000)


class Unit(LinePlace):
    def words_of_call(self, options=""):
        """The words of the unit's call for ttyUSB0, with its port and socket here."""
        text = re.search("^ExecStart=(.*)$", text_in(UNIT), re.M)[1]
        text = text.replace("$LINE_OPTIONS", options).replace("/dev/%I", self.path("ttyUSB0"))
        program, *words = shlex.split(text.replace("/run/stmflash-%i/socket", self.path("board")))
        self.assertEqual(program, "/usr/bin/stmflash-line")
        return words

    def test_its_call(self):
        """It serves the board, without options and with those that the unit shows."""
        self.board()
        for options in ("", "--baud 57600"):
            with self.subTest(options=options):
                started = self.until_served(self.start(*self.words_of_call(options)))
                said = self.use("info", "--wait", WAIT, device="board")
                self.assertEqual((said.status, said.out.split(b"\n")[0], said.err), (0, b"id 0412", b""))
                started.terminate()
                self.assertSilent(self.ended(started))
        shown = re.search('LINE_OPTIONS=(--.*)"$', text_in(UNIT), re.M)[1]
        self.assertLineFault(self.line(*self.words_of_call(shown)), f"{self.path('ttyUSB0')}: has no RTS; leave --wiring, --boot and --after out")


def of_unit(form):
    """The lines of the unit that have this form."""
    return [line for line in text_in(UNIT).splitlines() if re.fullmatch(form, line)]
