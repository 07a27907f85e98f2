"""stmflash-line on ports that another machine has: over pyserial's far end, a plain connection of ours (tests/far.rows), and ser2net
(tests/ser2net.rows)."""

import random
import re
import shlex
import shutil
import socket
import subprocess
import termios
import time
import unittest

from place import COUNTING, PATIENCE, SIZE, Said, first_of
from rows import bytes_of, cases, each_named
from started import Started

UNKNOWN = "parity, speed and errors are the far end's: a byte that came with an error may be handed on"
SILENT = "the far end doesn't tell of bytes that came with an error, and may hand them on"


class Played(Started):
    def does(self, sign, told, name, *more):
        if sign == "some":
            self.assertTrue(bytes_of(told).startswith(first_of(self.client, 99)))
        elif sign == "behind":
            may, due = map(bytes_of, told.split(" / "))
            came = first_of(self.client, len(due))
            self.assertEqual(first_of(self.client, len(due)) if came == may else came, due)
        else:
            super().does(sign, told, name, *more)

    def test_each_case(self):
        self.play_all(cases("far.rows"))


@unittest.skipIf(shutil.which("ser2net") is None, "ser2net is not installed")
class Ser2net(Started):
    """Debian's ser2net before pseudo-terminals with boards behind: a test for each title of ser2net.rows."""

    def begin(self):
        super().begin()
        self.ways, text = {}, "%YAML 1.1\n---\n"
        for kind, accepter in (("rfc2217", "telnet(rfc2217),tcp"), ("socket", "tcp")):
            with socket.create_server(("127.0.0.1", 0)) as listener:
                port = listener.getsockname()[1]
            self.ways[kind] = f"127.0.0.1:{port}", self.board(kind, flash=COUNTING)
            text += f"connection: &{kind}\n  accepter: {accepter},127.0.0.1,{port}\n  connector: serialdev,{self.path(kind)},9600n81,local\n"
        self.store("ser2net.yaml", text.encode())
        started = subprocess.Popen(["ser2net", "-n", "-c", self.path("ser2net.yaml"), "-P", self.path("ser2net.pid")],
                                   stdin=subprocess.DEVNULL, stdout=subprocess.DEVNULL, stderr=subprocess.DEVNULL)
        self.addCleanup(started.wait, PATIENCE)
        self.addCleanup(started.kill)
        for place, _ in self.ways.values():
            self.until(lambda: is_listened_at(int(place.rpartition(":")[2])) or started.poll() is not None, "ser2net doesn't listen")
        self.assertIsNone(started.poll())

    def run_words(self, words):
        """A call, and one that uses the board again where ser2net hasn't yet let go of the client before."""
        for _ in range(20):
            said = super().run_words(words)
            if "{}" not in words or b"speaks no RFC" not in said.err and b"far end closed" not in said.err:
                break
        return said

    def does(self, sign, told, name, *more):
        if sign == "at":
            place, self.made = self.ways[more[-1]]
            self.url = f"{name}://{place}"
        elif sign == "speed":
            self.assertEqual(termios.tcgetattr(self.made.master)[5], getattr(termios, f"B{told}"))
        else:
            super().does(sign, told, name, *more)

    def test_what_was_killed_is_undone(self):
        """The companion, the program or both are killed in the midst of a write; `undo` over ser2net gives the flash back."""
        self.begin()
        seed = time.time_ns()
        chance = random.Random(seed)
        cut = 0
        for kind, text, killed in (("rfc2217", SILENT, "line"), ("rfc2217", SILENT, "client"), ("rfc2217", SILENT, "both"), ("socket", UNKNOWN, "both")):
            with self.subTest(kind=kind, killed=killed, seed=seed):
                self.store("image", chance.randbytes(SIZE))
                self.does("at", "", kind, kind)
                journal = f"{kind}-{killed}"
                started, child = self.begin_write(journal)
                time.sleep(chance.uniform(0, 0.2))
                self.kill_some(killed, started, child)
                cut += b"\nend 1" not in self.held(journal)
                said = self.run_words(shlex.join([self.url, "--", *self.stmflash("undo", journal=journal)]))
                self.assertEqual(said, Said(0, b"undone 1\n", f"stmflash-line: {self.url}: {text}\n".encode()))
                self.assertTrue(self.made.store() == COUNTING, "the flash isn't what it was")
        self.assertGreater(cut, 1, "too few were stopped in the midst")

    def begin_write(self, journal):
        """A write over ser2net that has begun to erase, and the process of the program."""
        write = self.stmflash("write", "-f", "-S", "0x08000000", "image", journal=journal, wait="100")
        for _ in range(20):
            started, child = self.start_known(*write, words=(self.url,))
            self.until(lambda: started.poll() is not None or b"\nerase " in (self.held(journal) or b""), "nothing is written")
            if started.poll() is None:
                break
        return started, child


each_named(Ser2net, "ser2net.rows")


def is_listened_at(port):
    """Whether somebody listens, without a connection that he would take for a client."""
    with open("/proc/net/tcp", encoding="ascii") as table:
        return re.search(rf":{port:04X} 00000000:0000 0A ", table.read()) is not None
