"""What the tests share: a folder for each, with a table, the two files of a simulator, a journal and an image, and calls of the
program there.

The program is the one that the variable STMFLASH names; without it, the one that `make demo` leaves.
"""

import contextlib
import fcntl
import os
import pathlib
import select
import socket
import subprocess
import sys
import tempfile
import threading
import time
import typing
import unittest

import answers

TOP = os.path.dirname(os.path.dirname(os.path.abspath(__file__)))
# the second model, what the tools share, and boards with a fault each
sys.path += [os.path.join(TOP, *it) for it in (("tools", "soak"), ("tools",), ("tests", "planted"))]
from journal import untimed  # noqa: E402

# how long a call may take, in seconds, on a machine that is busy with other things
PATIENCE = int(os.environ.get("STMFLASH_PATIENCE", "300"))
# how long a host waits until the line counts as quiet, in ms: longer than a busy machine takes to answer
WAIT = "1000"
# a table of chip 0412
TABLE = b'[[chip]]\nid = 0x412\nbase = 0x08000000\npages = [[32, 1024]]\nerase = "page"\n'
SIZE = 32768
# the two files of a simulator
SIMULATOR = ("flash", "flash.line")
ERASED = b"\xff" * SIZE
ZEROS = b"\x00" * SIZE
# a flash whose byte i is i modulo 251
COUNTING = bytes(i % 251 for i in range(SIZE))
# how journals of chip 0412 begin, and those that keep page 5
HEADER = b"stmjournal 2 0412\n"
HEAD = HEADER + b"open 1\npage 5 "
# a board's unique id
UNIQUE = "2B0035000A51363034393332"
# what is told of a board that says nothing
SILENT = "nothing came: is the board in its bootloader, with power?"


def program():
    return os.path.abspath(os.environ.get("STMFLASH") or os.path.join(TOP, "bin", "stmflash-unproved"))


def text_in(*parts):
    """The text of a file of the repository."""
    return pathlib.Path(TOP, *parts).read_text(encoding="utf-8")


def is_slow(path=None):
    """Whether the program, or the one of this path, is built with checks on memory, and takes some twenty times as long. It is asked
    while a test runs: tests/run names another program to each."""
    return (path or program()).endswith("-unproved")


def is_unproved():
    """Whether nothing was proved of the program, as its name says, also of one that is run by qemu or wine."""
    return program().removesuffix("-under-qemu").removesuffix("-under-wine").endswith("-unproved")


def files(device="sim:0412:flash", journal="journal"):
    """The words of a session's files."""
    return "--table", "table", "--device", device, "--journal", journal


def served(chip="0412", flash="flash", at="board", table="table"):
    """The words that serve a simulator."""
    return "sim", "--table", table, "--id", chip, "--flash", flash, "--socket", at


def with_page(head, digit, tail):
    """These texts, with a page of this digit between them, as a journal keeps it."""
    return head + digit * 2048 + tail


class Said(typing.NamedTuple):
    status: int
    out: bytes
    err: bytes


class Place(unittest.TestCase):
    """A test with a folder of its own, in which a table stands, and what else it begins with. All names of files are names in it."""

    begins = {}

    def setUp(self):
        folder = tempfile.TemporaryDirectory(prefix="stmflash-")
        self.addCleanup(folder.cleanup)
        self.folder = folder.name
        self.store_all({"table": TABLE, **self.begins})

    def tearDown(self):
        # what is written beside a file is renamed or removed, whatever came
        self.assertEqual([name for name in os.listdir(self.folder) if name.endswith(".new")], [])

    def path(self, name):
        return os.path.join(self.folder, name)

    def store(self, name, data):
        """Stores a file of these bytes; None: it isn't there."""
        if data is None:
            self.clear(name)
            return
        pathlib.Path(self.path(name)).write_bytes(data)

    def store_all(self, files):
        for name, data in files.items():
            self.store(name, data)

    def add(self, name, data):
        with open(self.path(name), "ab") as file:
            file.write(data)

    def script(self, name, text):
        """Stores a script of the shell's."""
        self.store(name, f"#!/bin/sh\n{text}\n".encode())
        os.chmod(self.path(name), 0o755)

    def listen(self, name):
        listener = socket.socket(socket.AF_UNIX, socket.SOCK_STREAM)
        self.addCleanup(listener.close)
        listener.settimeout(PATIENCE)
        listener.bind(self.path(name))
        listener.listen()
        return listener

    def beside(self, listener, serve):
        """Serves at a listener in a thread of its own. It has ended before the listener is closed, whatever comes: else it might take
        another's for it, of the same number. What it serves may be closed under it: a socket that was has no number."""
        def run():
            with contextlib.suppress(OSError, ValueError):
                serve()

        def end():
            # nobody is waited for any more
            with contextlib.suppress(OSError):
                listener.shutdown(socket.SHUT_RDWR)
            serving.join(PATIENCE)
            self.assertFalse(serving.is_alive(), "what serves here doesn't end")

        serving = threading.Thread(target=run)
        serving.start()
        self.addCleanup(end)
        return serving

    def until(self, is_so, text):
        end = time.monotonic() + PATIENCE
        while not is_so():
            self.assertLess(time.monotonic(), end, text)
            time.sleep(0.01)

    def until_it_waits(self, process):
        """Returns once a process waits for something, as one does that can't write; a simulator does so for 10 s at most."""
        seen, end = 0, time.monotonic() + PATIENCE
        while seen < 10:
            with open(f"/proc/{process.pid}/stat") as told:
                state = told.read().rsplit(")", 1)[1].split()[0]
            seen = seen + 1 if state == "S" else 0
            self.assertLess(time.monotonic(), end, "it goes on and on")
            time.sleep(0.02)

    def remove(self, *names):
        for name in names:
            os.remove(self.path(name))

    def clear(self, *names):
        """Removes those of these that are there."""
        self.remove(*filter(self.is_there, names))

    def raw(self, name):
        """The bytes of a file."""
        return pathlib.Path(self.path(name)).read_bytes()

    def held(self, name):
        """The same, but of a journal without what changes with the clock; None where it isn't there."""
        try:
            return untimed(self.raw(name))
        except FileNotFoundError:
            return None

    @contextlib.contextmanager
    def locked(self, name, how=fcntl.LOCK_EX):
        """A file that this process has locked meanwhile."""
        with open(self.path(name), "rb") as file:
            fcntl.flock(file, how | fcntl.LOCK_NB)
            yield

    def is_there(self, name):
        return os.path.lexists(self.path(name))

    def start(self, *words, before=None, variables=None, executable=None, **files):
        """Starts the program, or another one, on these words, after its name, with these variables alone, and with these files in place
        of none to read and of pipes; `before` is called in its process before it begins."""
        files = {"cwd": self.folder, "stdin": subprocess.DEVNULL, "stdout": subprocess.PIPE, "stderr": subprocess.PIPE, **files}
        started = subprocess.Popen(["stmflash", *words], executable=executable or program(), env=variables or {}, preexec_fn=before, **files)

        def end():
            if started.returncode is None:
                started.kill()
                started.communicate()

        self.addCleanup(end)
        return started

    def ended(self, started, given=None):
        """What one that was started said, once it has ended; `given` is what it reads. One that hangs has no file any more."""
        try:
            out, err = started.communicate(given, timeout=PATIENCE)
        except subprocess.TimeoutExpired:
            started.kill()
            raise
        self.assertEqual(answers.others(out or b""), [], "docs/answers.schema.json takes no such line")
        return Said(started.returncode, out, err)

    def call(self, *words, given=None, **how):
        """Runs the program on these words, as `start` does, with this to read."""
        return self.ended(Place.start(self, *words, **({} if given is None else {"stdin": subprocess.PIPE}), **how), given)

    def use(self, name, *words, device="sim:0412:flash", journal="journal", **how):
        """Runs a subcommand on a device, with these further words."""
        return self.call(name, *files(device, journal), *words, **how)

    def each(self, cases, does):
        """Does this for each case, and names the one that fails; one of several parts is so many words."""
        for case in cases:
            with self.subTest(case=case):
                does(*case) if isinstance(case, tuple) else does(case)

    def assertFault(self, said, text, status=1, hint=None, holds=(), **files):
        """This one line was all that was said, or another behind it, with this status. The simulator's files and others hold these bytes then."""
        told = f"stmflash: {text}\n" + (f"hint: {hint}\n" if hint else "")
        self.assertEqual(said, Said(status, b"", told.encode()))
        self.assertFiles({**dict(zip(SIMULATOR, holds)), **files})

    def assertTold(self, said, text, note=None, holds=(), **files):
        """All was done, and just this was said, with a note or without one. The simulator's files and others hold these bytes then."""
        self.assertEqual(said, Said(0, text.encode(), f"note: {note}\n".encode() if note else b""))
        self.assertFiles({**dict(zip(SIMULATOR, holds)), **files})

    def assertSilent(self, said, **left):
        """All was done, and nothing was said."""
        self.assertTold(said, "", **left)

    def assertWell(self, said, holds=(), **files):
        """All was done, and nothing was said beside the answer. The simulator's files and others hold these bytes then."""
        self.assertEqual((said.status, said.err), (0, b""))
        self.assertFiles({**dict(zip(SIMULATOR, holds)), **files})

    def assertFile(self, name, data):
        """The file holds just these bytes; None: it isn't there."""
        held = self.held(name)
        if held != data:
            self.fail(f"{name} {tell(held)}, not {tell(data)}; {where(held or b'', data or b'')}")

    def assertFiles(self, files):
        """Each of these files, by its name, holds just these bytes, or isn't there."""
        for name, data in files.items():
            self.assertFile(name, data)

def readable(ends, patience):
    """Those of these sockets or descriptors from which something can be read, or which have ended, within so many seconds. Beside those
    that other tests hold they may have any number, and `select` takes none above 1,023."""
    calls, named = select.poll(), {end if isinstance(end, int) else end.fileno(): end for end in ends}
    for number in named:
        calls.register(number, select.POLLIN)
    return [named[number] for number, _ in calls.poll(patience * 1000)]


def read_some(descriptor):
    """The next that comes from a descriptor; nothing at its end, which a terminal that was closed tells as a fault."""
    try:
        return os.read(descriptor, 65536)
    except OSError:
        return b""


def all_from(descriptor):
    """All that comes from a descriptor until its end."""
    return b"".join(iter(lambda: read_some(descriptor), b""))


def first_of(client, count, most=4096):
    """So many bytes that a client gets, or fewer where its line is closed before."""
    held = b""
    while len(held) < count and (came := client.recv(min(most, count - len(held)))):
        held += came
    return held


def tell(data):
    return "isn't there" if data is None else f"has {len(data)} bytes"


def where(one, other):
    """Where two texts differ first, and what stands there."""
    pairs = enumerate(zip(one, other))
    at = next((i for i, (a, b) in pairs if a != b), min(len(one), len(other)))
    return f"from {at} on {one[at:at + 40]!r}, not {other[at:at + 40]!r}"
