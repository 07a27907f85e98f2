"""ELF files in stmflash-line and stm32flash's words: written as what they load, by objcopy, and never as raw bytes unasked
(tests/elf.rows)."""

import shutil
import struct
import unittest

from place import COUNTING
from rows import bytes_of, each_named
from test_stm32flash_words import Told

CODE = b"\xde\xad\xbe\xef" * 5
WRITTEN = COUNTING[:1024] + CODE + COUNTING[1024 + len(CODE):]


def elf(address=0x08000400, data=CODE):
    """A file of 32 bits for ARM, of which this is loaded at an address."""
    names = b"\0.text\0.shstrtab\0"
    at = 52 + 32
    sections = at + len(data) + len(names)
    header = b"\x7fELF\x01\x01\x01" + bytes(9)
    header += struct.pack("<HHIIIIIHHHHHH", 2, 40, 1, address, 52, sections, 0x5000200, 52, 32, 1, 40, 3, 2)
    segment = struct.pack("<IIIIIIII", 1, at, address, address, len(data), len(data), 5, 4)
    text = struct.pack("<IIIIIIIIII", 1, 1, 6, address, at, len(data), 0, 0, 4, 0)
    told = struct.pack("<IIIIIIIIII", 7, 3, 0, 0, at + len(data), len(names), 0, 0, 1, 0)
    return header + segment + data + names + bytes(40) + text + told


@unittest.skipIf(shutil.which("objcopy") is None, "binutils is not installed")
class InTheLine(Told):
    """A test for each title of elf.rows."""

    wait = "500"

    def does(self, sign, told, name, *more):
        if sign == "elf":
            self.store(name, elf(int(more[0], 16), bytes_of(" ".join(more[1:]))))
        elif sign == "starts":
            self.assertTrue(self.given_board.store().startswith(self.held(name)))
        else:
            super().does(sign, told, name, *more)


each_named(InTheLine, "elf.rows")
