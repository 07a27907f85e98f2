"""A folder of one call's own, with images and a board of each kind."""

import os
import random
import shutil
import subprocess
import sys
import tempfile

TOP = os.path.dirname(os.path.dirname(os.path.dirname(os.path.abspath(__file__))))
sys.dont_write_bytecode = True
sys.path[:0] = [os.path.join(TOP, name) for name in ("line", "tools")]

from hex_text import text_of
from pty_boards import PtyBoard
from simulator import TABLE, Folder, Simulator, entry_of, words_of  # noqa: F401

OURS, RELAY = os.path.join(TOP, "line", "stm32flash"), os.path.join(TOP, "tools", "line-relay")
CHIP, SIZE, PAGE_SIZE, PATIENCE, WAIT = "0412", 32768, 1024, 200, "100"


def plain(words):
    # a pseudo-terminal keeps no parity, which the real one looks at
    return [*["-m", "8n1"] * ("-m" not in words), *(word for word in words if word not in ("<", "(none)"))]


def images(folder):
    """The files that calls name, and the flash at first."""
    chance = random.Random(5)
    full, part, slow, long, elf, first = map(chance.randbytes, (3 * PAGE_SIZE, 3000, 5000, SIZE + 1, 1017, SIZE))
    texts = {name: text_of(data, at, range(0, len(data), 16)) for name, data, at in (
        ("full.hex", full, 0x08000000), ("fw.hex", part, 0x08000000), ("at400.hex", part, 0x08000400), ("at0.hex", part, 0))}
    # what an ELF and an SREC are isn't looked into: their beginning tells it
    Folder(folder).store_all({
        "full.bin": full, "fw.bin": part, "slow.bin": slow, "long.bin": long, "empty.bin": b"", "first": first, "fw.elf": b"\x7fELF\1\1\1" + elf,
        "fw.srec": b"S00600004844521B\nS107080001020304EA\nS9030000FC\n", "bad.hex": b":0400000001020304F3\n:00000001FF\n", **texts})


class Room(Folder):
    def __init__(self, program, source):
        super().__init__(tempfile.mkdtemp(prefix="beside-"))
        self.program = program
        for name in os.listdir(source):
            shutil.copy(os.path.join(source, name), self.folder)

    def held(self, name):
        """The bytes of a file; None where it isn't there."""
        return super().held(name) if os.path.exists(self.path(name)) else None

    def run(self, command, words, *more, **how):
        """What a program does with these words, and more behind them."""
        given = self.held("fw.bin") if words[-1:] == ["<"] else b""
        return subprocess.run([*command, *plain(words), *more], cwd=self.folder, input=given, capture_output=True, timeout=PATIENCE, **how)

    def real(self, words):
        """The real one with these words: status, standard output and error, flash, and what it read."""
        with Simulator(self.program, self.folder, CHIP, self.held("first")) as simulator:
            return self.result(self.relayed(words), simulator.stored())

    def relayed(self, words):
        """What the real one does with these words at the simulator that is served."""
        return self.run([sys.executable, RELAY, "--pty", "board", "stm32flash"], words)

    def board(self, **more):
        shutil.copy(self.path("first"), self.path("port.flash"))
        self.begin_words(self.program)
        return PtyBoard(self.program, self.path("port"), CHIP, TABLE, **more)

    def ours(self, words):
        """The same of ours."""
        board = self.board()
        try:
            return self.result(self.run([OURS], words, self.path("port"), env=self.settings(TABLE, WAIT)), board.store())
        finally:
            board.stop()

    def result(self, ran, flash):
        read = None
        for name in ("out", "out.hex"):
            if os.path.exists(self.path(name)):
                read = self.held(name)
                os.remove(self.path(name))
        return {"status": ran.returncode, "out": ran.stdout, "err": ran.stderr, "flash": flash, "read": read}

    def close(self):
        shutil.rmtree(self.folder, ignore_errors=True)
