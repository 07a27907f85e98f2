"""What the tests of stmflash-line share: a port with a simulated board behind it, or with a plain end, and calls of the companion.

The companion runs by a Python that has pyserial (Debian's python3-serial); without one its tests are left out, but for those of its
parts.
"""

import contextlib
import fcntl
import os
import pathlib
import shlex
import shutil
import signal
import subprocess
import sys
import tty
import unittest

from place import COUNTING, PATIENCE, TOP, WAIT, Place, Said, program, readable
from rows import Rows, bytes_of, odd
from served import Served

LINE = os.path.join(TOP, "line", "stmflash-line")
# runs the companion where pyserial knows the ports of tests/stand_ins
STAND_INS = os.path.dirname(os.path.abspath(__file__))
RUNNER = "import runpy, serial, sys; sys.path.insert(0, sys.argv.pop(1)); sys.dont_write_bytecode = True; " \
         "serial.protocol_handler_packages.append('stand_ins'); sys.argv.pop(0); runpy.run_path(sys.argv[0], run_name='__main__')"
# the modules of which the companion is made
sys.path.insert(0, os.path.dirname(LINE))
sys.dont_write_bytecode = True

import pty_boards


# a Python that has pyserial, or None
PYTHON = next((path for path in filter(os.path.exists, ("/usr/bin/python3", sys.executable))
               if subprocess.run([path, "-c", "from serial import Serial"], stderr=subprocess.DEVNULL).returncode == 0), None)
# the real stm32flash, where it is installed; ours is a script
REAL = next((path for path in filter(None, [shutil.which("stm32flash")]) if pathlib.Path(path).read_bytes()[:4] == b"\x7fELF"), None)


def default_signals():
    """A shell that starts something in the background lets it ignore these."""
    for number in (signal.SIGINT, signal.SIGHUP, signal.SIGTERM):
        signal.signal(number, signal.SIG_DFL)


@unittest.skipIf(PYTHON is None, "python3-serial is not installed")
class LinePlace(Place):
    """A test with a folder for what is temporary, `temporary`, which has to be empty in the end."""

    def setUp(self):
        super().setUp()
        os.mkdir(self.path("temporary"))

    def tearDown(self):
        super().tearDown()
        self.assertEqual(os.listdir(self.path("temporary")), [])

    def board(self, name="ttyUSB0", chip="0412", flash=None, **more):
        """A port of this name with a simulated board behind it, of this kind, in whose flash this stands where it is given."""
        if flash is not None:
            self.store(name + ".flash", flash)
        made = pty_boards.PtyBoard(program(), self.path(name), chip, self.path("table"), **more)
        self.addCleanup(made.stop)
        return made

    def plain(self, name="ttyUSB0", closes=True):
        """A port of this name with nothing but an end of ours behind it: the descriptor of that, which is closed in the end, or by the test."""
        master, slave = os.openpty()
        tty.setraw(slave)
        os.symlink(os.ttyname(slave), self.path(name))
        os.close(slave)
        if closes:
            self.addCleanup(os.close, master)
        return master

    def start(self, *words, line=(LINE,), before=default_signals, reads=False, **settings):
        """Starts the companion on these words, with these variables; `reads`: what it reads is ours to write."""
        settings = {"PATH": os.environ["PATH"], "TMPDIR": self.path("temporary"), **settings}
        given = subprocess.PIPE if reads else subprocess.DEVNULL
        started = subprocess.Popen([PYTHON, *line, *words], cwd=self.folder, env=settings, stdin=given,
                                   stdout=subprocess.PIPE, stderr=subprocess.PIPE, preexec_fn=before)

        def end():
            if started.returncode is None:
                started.kill()
            with started:
                pass

        self.addCleanup(end)
        return started

    def start_wired(self, name, *words, **more):
        """The same on a port that pyserial takes to have RTS and DTR, whose moves a file notes."""
        return self.start(STAND_INS, LINE, f"wired://{self.path(name)}?file={self.path('calls-' + name)}", *words, line=("-c", RUNNER), **more)

    def line(self, *words, **more):
        return self.ended(self.start(*words, **more))

    def stmflash(self, name, *words, journal="journal", wait=WAIT):
        """The words of COMMAND for a subcommand."""
        return [program(), name, "--table", "table", "--device", "{}", "--journal", journal, "--wait", wait, *words]

    def serve(self, *words):
        """Serves the port ttyUSB0 on the socket `board`, and answers once it listens."""
        started = self.until_served(self.start("ttyUSB0", "--socket", "board", *words))
        self.assertIsNone(started.poll(), "the companion doesn't start")
        return started

    connect = Served.connect

    def read_from(self, master, count):
        """So many bytes that the companion has sent to the port whose other end this is."""
        held = b""

        def has_all():
            nonlocal held
            # while nobody has the port open, a read fails
            with contextlib.suppress(OSError):
                if readable([master], 0.05):
                    held += os.read(master, count - len(held))
            return len(held) == count

        self.until(has_all, "bytes are missing")
        return held

    def start_known(self, *command, words=("ttyUSB0",), start=None):
        """Starts a command behind the companion on these words: that, and the command's process. A shell writes its number, and becomes
        the command."""
        started = (start or self.start)(*words, "--", "sh", "-c", 'echo $$; exec "$@"', "sh", *command)
        return started, int(started.stdout.readline() or 0)

    def kill_some(self, which, started, child):
        """Kills the companion (`line`), its command (`client`) or both, and answers the companion's status once neither goes on."""
        for process in {"line": [started.pid], "client": [child], "both": [child, started.pid]}[which]:
            with contextlib.suppress(ProcessLookupError):
                os.kill(process, signal.SIGKILL)
        status = started.wait(PATIENCE)
        self.until(lambda: not os.path.exists(f"/proc/{child}"), "the command goes on")
        return status

    def until_served(self, started):
        """One that was started to serve the socket `board`, once it listens, or has ended."""
        def is_ready():
            with contextlib.suppress(OSError), self.connect():
                return True
            return started.poll() is not None

        self.until(is_ready, "the companion doesn't listen")
        return started

    def assertNothingSent(self, master):
        """No byte has come to the port whose other end this is, nor is anybody there any more who might send one."""
        os.set_blocking(master, False)
        self.assertRaises(OSError, os.read, master, 1)

    def assertLineFault(self, said, text, status=1):
        """This one line was all that the companion said."""
        self.assertEqual(said, Said(status, b"", b"stmflash-line: " + text.encode() + b"\n"))


class Named(LinePlace):
    """A test that calls stmflash by its name, and whose user's journals are in its folder."""

    wait = "500"

    def setUp(self):
        super().setUp()
        # so that the journals that a test makes are its user's alone to write
        self.addCleanup(os.umask, os.umask(0o022))
        os.mkdir(self.path("bin"))
        os.symlink(program(), self.path("bin/stmflash"))

    def settings(self, **more):
        return {"PATH": self.path("bin") + ":" + os.environ["PATH"], "TMPDIR": self.path("temporary"), "HOME": self.folder,
                "STMFLASH_TABLE": self.path("table"), "STMFLASH_WAIT": self.wait, **more}

    def telling(self, byte="A1", flash=COUNTING, name="ttyUSB0", **more):
        """A board of this flash that tells a unique id of this byte alone, or none."""
        if byte != "none":
            self.store(name + ".flash.board", b"unique " + 12 * byte.encode() + b"\n")
        return self.board(name, flash=flash, **more)


class LineRows(LinePlace, Rows):
    """A test whose cases are told as text, each call one of stmflash-line (tests/line.rows says how)."""

    def begin(self):
        # the case before has left nothing that is temporary
        self.tearDown()
        super().begin()

    def run_words(self, words):
        return self.line(*map(odd, shlex.split(words)), **self.variables)

    def does(self, sign, told, name, *more):
        if sign == "plain":
            self.end = self.plain()
        elif sign == "nothing":
            self.assertNothingSent(self.end)
        elif sign == "lock":
            fcntl.flock(self.enterContext(open(self.path(name), "ab")), fcntl.LOCK_EX)
        elif sign == "listen":
            self.listen(name)
        else:
            super().does(sign, told, name, *more)


class OnPorts(Named, LineRows):
    """A test whose cases are played at ports with boards behind them (tests/stm32flash.rows says how they are told)."""

    def begin(self):
        super().begin()
        self.flashes, self.kind = {}, {}

    def unplugged(self, name):
        """The flash of a board that is taken away."""
        flash = self.given_board.store()
        self.given_board.stop()
        self.clear(name + ".flash.line")
        return flash

    def does(self, sign, told, name, *more):
        if sign == "board":
            byte, data = told.removeprefix(name + " ").partition(" --")[0].split(" ", 1)
            words = [it for it in more if it.startswith("--")]
            self.given_board = self.telling(byte, self.flashes.get(data) or bytes_of(data), name, more=words, **self.kind)
        elif sign == "kind":
            self.kind[name] = int(*more) if name == "baud" else more[0]
        elif sign == "holds":
            self.assertEqual(self.given_board.store(), bytes_of(told))
        elif sign == "unplug":
            self.flashes[more[0]] = self.unplugged(name)
            self.clear(name + ".flash.board")
        elif sign == "reset":
            self.unplugged("ttyUSB0")
            self.given_board = self.board()
        elif sign == "instead":
            self.clear("bin/stmflash")
            if told != "none":
                self.store("bin/stmflash", f'#!/bin/sh\nprogram={program()}\n{told}\nexec $program "$@"\n'.encode())
                os.chmod(self.path("bin/stmflash"), 0o755)
        else:
            super().does(sign, told, name, *more)


def end_with(started, number):
    """Sends a signal, and answers the status with which the companion ends."""
    started.send_signal(number)
    return started.wait(PATIENCE)
