"""Rows of calls of stmflash-line that go on while bytes come and go, clients connect, signals are sent or the port is pulled
(tests/started.rows says how they are told)."""

import contextlib
import fcntl
import functools
import os
import re
import shlex
import signal
import socket
import subprocess

from boards import LINE, PYTHON, RUNNER, STAND_INS, LineRows, default_signals
from place import PATIENCE, first_of, program, readable
from rows import bytes_of

GPIO, FAR_END = os.path.join(STAND_INS, "stand_ins"), os.path.join(STAND_INS, "stand_ins", "far_end.py")
# what a process does before it becomes stmflash-line
STEPS = {"umask": lambda it: (os.umask, int(it, 8)), "closes": lambda it: (os.close, int(it)), "alone": lambda _: (os.setsid,),
         "ignores": lambda it: (signal.signal, getattr(signal, f"SIG{it}"), signal.SIG_IGN)}


def moved(text):
    """A move as sequences name it, of a line in which a stand-in noted it."""
    text = re.sub(r"^[\d.]+ +", "", " ".join(text.split()))
    return re.sub(r"(RTS|DTR) (in)?active", lambda it: "-" * bool(it[2]) + it[1].lower(), text).replace("BRK send_break 0.25s", "brk")


class Started(LineRows):
    started, url, chip = None, None, "0412"

    def begin(self):
        super().begin()
        self.end = self.started = self.url = None
        self.wired, self.around = f"wired://{self.path('ttyUSB0')}?file={self.path('calls')}", {}

    def set_nothing(self):
        super().set_nothing()
        self.steps = []

    def placed(self, told):
        # (a wait of more than eight minutes, in a sequence)
        names = {"program": program(), "wired": self.wired, "url": self.url, "pause": 5000 * ",", "busy": self.busy()} if "{" in told else {}
        return re.sub(r"\{(\w+)\}", lambda it: names.get(it[1]) or it[0], super().placed(told))

    def busy(self):
        """How the process that was started is told of."""
        with contextlib.suppress(AttributeError, FileNotFoundError), open(f"/proc/{self.started.pid}/comm", encoding="utf-8") as comm:
            return f"{comm.read().strip()} (process {self.started.pid})"

    def begun(self, told, reads=False):
        """Starts a call, where a port that is a stand-in for one with signals is known."""
        words, line, steps = shlex.split(told), (LINE,), [default_signals, *self.steps]
        if words[0] in ("stm32flash", "stmflash-trial"):
            words, line = words[1:], (os.path.join(os.path.dirname(LINE), words[0]),)
        elif words[0] == self.wired:
            words, line = [STAND_INS, LINE, *words], ("-c", RUNNER)
        return self.start(*words, line=line, reads=reads, before=lambda: [step() for step in steps], **self.around | self.variables)

    def run_words(self, words):
        if words == "..":
            return self.ended(self.started)
        if words.startswith("stmflash "):
            return self.call(*shlex.split(words)[1:])
        return self.ended(self.begun(words, self.given is not None), self.given)

    def line_of(self):
        """The next line that the call tells; none of those behind it is taken."""
        held = b""
        while not held.endswith(b"\n"):
            self.assertTrue(byte := os.read(self.started.stdout.fileno(), 1), f"it says no more than {held}")
            held += byte
        return held.decode().removesuffix("\n")

    def let_go(self):
        if self.end is not None:
            os.close(self.end)
        self.end = None

    def far_end(self, kind, how=""):
        """What stands at a socket of this machine: an end of ours, of IPv6 where it is `::1`, or nobody; or pyserial's, with this word."""
        host, family = ("::1", socket.AF_INET6) if how == "::1" else ("127.0.0.1", socket.AF_INET)
        if kind == "rfc2217" and how != "nobody":
            with open(self.path("noted"), "wb") as noted:
                started = subprocess.Popen([PYTHON, "-W", "ignore", FAR_END, how], stdout=noted, stderr=subprocess.DEVNULL)
            self.addCleanup(started.wait, PATIENCE)
            self.addCleanup(started.kill)
            self.until(lambda: b"\n" in self.raw("noted"), "the far end doesn't listen")
            port = int(self.raw("noted"))
        else:
            self.listener = self.enterContext(socket.create_server((host, 0), family=family))
            self.listener.settimeout(PATIENCE)
            port = self.listener.getsockname()[1]
            if how == "nobody":
                self.listener.close()
        self.url = f"{kind}://{f'[{host}]' if ':' in host else host}:{port}"

    def other_end(self):
        """The descriptor of the port's other end, which a far one has once somebody connects."""
        if self.end is None:
            with self.listener.accept()[0] as line:
                self.end = line.detach()
            self.addCleanup(self.let_go)
        return self.end

    def send(self, data):
        """Writes all to the port's other end, as far as it takes it."""
        rest, end = bytearray(data), self.other_end()
        os.set_blocking(end, False)

        def takes_all():
            with contextlib.suppress(BlockingIOError):
                while rest:
                    del rest[:os.write(end, rest[:4096])]
            return not rest

        self.until(takes_all, "the port takes no bytes")
        os.set_blocking(end, True)

    def moves(self, name):
        """What was moved, by a file that notes it; lines that are let go of in the end in an order that isn't looked at."""
        moves = [it for it in map(moved, self.held(name).decode().splitlines()) if it not in ("LAT low", "parity even", "low latency")]
        last = next((at for at in range(len(moves), 0, -1) if not moves[at - 1].endswith(" free")), 0)
        return moves[:last] + sorted(moves[last:])

    def apart(self, number, name):
        """How many seconds lie between two moves, counted from 1."""
        times = [float(line.split()[0]) for line in self.held(name).decode().splitlines() if "LAT" not in line]
        return times[number] - times[number - 1]

    def has(self, name, form):
        return re.search(form.encode(), self.held(name) or b"", re.S)

    def are_free(self, lines):
        """Whether nobody has one of these lines of the stand-in for gpioset."""
        with contextlib.suppress(BlockingIOError), contextlib.ExitStack() as files:
            for line in lines:
                fcntl.flock(files.enter_context(open(self.path(f"lines/gpiochip0-{line}"), "ab")), fcntl.LOCK_EX | fcntl.LOCK_NB)
            return True
        return False

    def assertCame(self, came, due):
        self.assertTrue(came == due, f"{came[:99]}, and not {due[:99]}")

    def does(self, sign, told, name, *more):
        rest = told.partition(" ")[2]
        if sign in ("plain", "real"):
            self.wired = self.wired.replace("wired:", "real:" if sign == "real" else "wired:")
            self.let_go()
            self.end = self.plain(closes=False)
            self.addCleanup(self.let_go)
        elif sign == "board":
            self.made = self.board(chip=self.chip, flash=bytes_of(told))
        elif sign == "holds":
            self.assertEqual(self.made.store(), bytes_of(told))
        elif sign == "renew":
            self.made.renew()
        elif sign == "gpio":
            os.makedirs(self.path("lines"), exist_ok=True)
            self.around = {"PATH": ":".join([GPIO, self.path("bin"), os.environ["PATH"]]), "GPIO_VERSION": name, "GPIO_PLACE": self.path("lines"), "LC_ALL": "POSIX"}
        elif sign == "far":
            self.far_end(name, *more)
        elif sign in ("start", "talk"):
            self.started = self.begun(told, sign == "talk")
        elif sign == "types":
            self.started.stdin.write(told.encode() + b"\n")
            self.started.stdin.flush()
        elif sign == "told":
            self.assertEqual(self.line_of(), told)
        elif sign == "child":
            self.child = int(self.line_of())
        elif sign == "goes":
            self.until(lambda: not os.path.exists(f"/proc/{self.child}"), "the command goes on")
        elif sign == "gone":
            self.assertFalse(os.path.exists(f"/proc/{self.child}"), "the command goes on")
        elif sign == "signal":
            (os.killpg if more else os.kill)(self.started.pid, getattr(signal, f"SIG{name}"))
        elif sign == "waits":
            self.until_it_waits(self.started)
        elif sign == "ready":
            self.until_served(self.started)
            self.assertIsNone(self.started.poll(), "the companion doesn't start")
        elif sign == "until":
            self.until(lambda: self.has(name, rest) or self.started is not None and self.started.poll() is not None, f"{told} doesn't come")
            self.assertTrue(self.has(name, rest), f"{told} doesn't come")
        elif sign == "connect":
            self.client = self.connect()
        elif sign == "leaves":
            self.client.close()
        elif sign == "puts":
            self.client.sendall(bytes_of(told))
        elif sign == "gets":
            due = bytes_of(told.removesuffix(" .."))
            self.assertCame(first_of(self.client, len(due) + told.endswith(" .."), most=9000), due)
        elif sign in ("comes", "well"):
            self.send(bytes_of(told) if sign == "comes" else b"".join(bytes([0, byte]) for byte in bytes_of(told)))
        elif sign == "went":
            due = bytes_of(told.removesuffix(" .."))
            self.assertCame(self.read_from(self.other_end(), len(due)) + (os.read(self.end, 1) if told.endswith(" ..") else b""), due)
        elif sign == "quiet":
            self.assertEqual(readable([self.other_end()], float(told)), [])
        elif sign == "pulled":
            self.other_end()
            self.let_go()
        elif sign == "moves":
            self.assertEqual(self.moves(name), rest.split(", "))
        elif sign == "apart":
            self.assertGreaterEqual(self.apart(int(more[0]), name), float(more[1]))
        elif sign == "many":
            self.assertEqual(len(os.listdir(self.path(name))), int(*more))
        elif sign == "free":
            self.assertTrue(self.are_free(told.split()), "lines are had")
        elif sign == "frees":
            self.until(lambda: self.are_free(told.split()), "the lines aren't let go of")
        elif sign == "dead":
            self.listen(name).close()
        elif sign in STEPS:
            self.steps.append(functools.partial(*STEPS[sign](told)))
        else:
            super().does(sign, told, name, *more)
