"""`stmflash sim`, served on a socket in a folder: the board of the tools here that try the program over a line. And the
words by which such tools are called."""

import argparse
import os
import pathlib
import re
import socket
import subprocess
import time

TABLE = os.path.join(os.path.dirname(os.path.abspath(__file__)), "..", "chips.toml")
# how long it may take to begin, or to store what a client left, in seconds
PATIENCE = 120


def words_of(doc, **absent):
    """What a tool was called with, by the usage at the head of its text: PROGRAM is a path, `--word N` a number, `NAME..` any count of
    names, COMMAND all words behind. What stands in brackets may be absent, and is then what is given here, of whose type it is; a list has
    those that it may be."""
    usage = re.search(r"\n\n    (?:python3 )?(\S+) ((?:.+\n)+)", doc)
    absent = {"seed": str(time.time_ns()), "jobs": len(os.sched_getaffinity(0)), **absent}
    words = argparse.ArgumentParser(prog=usage[1], description=doc, formatter_class=argparse.RawDescriptionHelpFormatter)
    for spare, word, value, place, many in re.findall(r"(\[)?(?:(--[\w-]+)(?: ([A-Z]+))?|([A-Z]+))\]?(\.\.)?", usage[2]):
        held = absent.get((place or word[2:]).lower().replace("-", "_"))
        some, held = (held, None) if isinstance(held, list) else (None, held)
        kind = os.path.abspath if place == "PROGRAM" else int if value == "N" or isinstance(held, int) else str
        if word:
            many = {"nargs": "*", "default": []} if many else {"default": held}
            words.add_argument(word, **({"type": kind, "choices": some, **many} if value else {"action": "store_true"}))
        else:
            count = argparse.REMAINDER if place == "COMMAND" else "*" if many else "?" if spare else None
            words.add_argument(place.lower(), type=kind, default=held, nargs=count)
    return words.parse_args()


def entry_of(chip):
    """The table's entry of a chip alone: all of them cost the program of `make demo` half a second, each time."""
    entries = re.split(r"^(?=\[\[chip]])", pathlib.Path(TABLE).read_text(encoding="utf-8"), flags=re.M)
    return next(entry for entry in entries if f"id = 0x{chip[1:]}\n" in entry).encode()


class Unanswered(SystemExit):
    """The simulator doesn't start, or what was awaited doesn't come."""


class Folder:
    """The files of a folder, by their names in it."""

    def __init__(self, folder):
        self.folder = folder

    def path(self, name):
        return os.path.join(self.folder, name)

    def store(self, name, data):
        pathlib.Path(self.path(name)).write_bytes(data)

    def store_all(self, files):
        for name, held in files.items():
            self.store(name, held)

    def held(self, name):
        return pathlib.Path(self.path(name)).read_bytes()

    def begin_words(self, program):
        """Makes `bin`, which has the program for stm32flash's words."""
        os.makedirs(self.path("bin"), exist_ok=True)
        if not os.path.exists(self.path("bin/stmflash")):
            os.symlink(program, self.path("bin/stmflash"))

    def settings(self, table, wait):
        """The variables of a call of these words, which keep all they have in the folder too."""
        return {**os.environ, "PATH": self.path("bin") + ":" + os.environ["PATH"], "XDG_STATE_HOME": self.path("state"), "STMFLASH_TABLE": table,
                "STMFLASH_WAIT": wait}


class Simulator(Folder):
    """A simulated chip with a flash of these bytes, or an erased one, at the socket `board` of a folder."""

    def __init__(self, program, folder, chip, flash=None, table=TABLE):
        super().__init__(folder)
        self.program, self.chip, self.table = os.path.abspath(program), chip, table
        self.socket = self.path("board")
        if flash is not None:
            self.store("flash", flash)
        self.start()

    def __enter__(self):
        return self

    def __exit__(self, *_):
        self.stop()

    def serving(self):
        return [self.program, "sim", "--table", self.table, "--id", self.chip, "--flash", "flash", "--socket", "board", "--clients", "1000000"]

    def start(self):
        self.simulator = subprocess.Popen(self.serving(), cwd=self.folder, env={}, stdin=subprocess.DEVNULL)
        self.wait_for(self.answers)

    def stop(self):
        self.simulator.kill()
        self.simulator.wait()
        os.remove(self.socket)

    def wait_for(self, done):
        end = time.monotonic() + PATIENCE
        while not done():
            if time.monotonic() > end or self.simulator.poll() is not None:
                self.simulator.kill()
                raise Unanswered(f"the simulator in {self.folder} doesn't do what was awaited")
            time.sleep(0.01)

    def answers(self):
        """Whether it takes a client, which goes again. What the clients before left is stored then."""
        with socket.socket(socket.AF_UNIX, socket.SOCK_STREAM) as client:
            try:
                client.connect(self.socket)
            except (FileNotFoundError, ConnectionRefusedError):
                return False
            client.shutdown(socket.SHUT_WR)
            while client.recv(4096):
                pass
            return True

    def stored(self):
        """The flash, once what the clients before left is stored."""
        self.wait_for(self.answers)
        return self.held("flash")
