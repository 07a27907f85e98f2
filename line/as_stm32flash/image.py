"""The file of -w: what it is, how long, and where it lies."""

import os
import sys

from stmflash_line import elf, faults
from stmflash_line.held import hold

from . import hex_text
from .fault import Fault
from .handed import is_handed

RAW, HEX = "Raw BINARY", "Intel HEX"
# says to the inside of a call that the file's bytes stand at standard input
KEPT = "STM32FLASH_IMAGE_KEPT"


class Image:
    """An image. `start` is where it lies, 0: where the flash begins, `size` the count of its bytes from the first to the last, and `path` a file
    that can be read again and holds it; None where there is none. `maker` is the program that made HEX of it, or None."""

    def __init__(self, words):
        self.is_input, self.maker = words.file == "-", None
        is_kept, path = os.environ.get(KEPT), os.path.abspath(words.file)
        self.path = None if is_kept or faults.as_text(path) != path else path
        self.text = read_file("/proc/self/fd/0" if is_kept else words.file)
        if not (words.force or is_kept) and self.text.startswith(elf.MAGIC):
            self.text, self.maker = elf.hex_text(words.file)
            self.path = None
        # standard input is raw bytes, as for stm32flash, and an empty file is an empty text
        is_hex = not words.force and not self.is_input and self.text[:1] in (b":", b"")
        self.parser = HEX if is_hex else RAW
        self.pieces = hex_text.read(self.text) if is_hex and self.text else []
        start, end = hex_text.span(self.pieces) if is_hex else (0, len(self.text))
        # a text whose addresses begin at 0 is placed as raw bytes are
        self.own, self.start = start, words.address or start
        self.size = end - start if words.length is None else min(end - start, words.length)
        self.is_whole = self.size == end - start

    def lines(self):
        """What is told of it."""
        told = [f"Using Parser : {self.parser}" + f", by {self.maker} of ELF" * bool(self.maker)]
        if not self.is_input:
            told += [f"Location     : {self.start:#08x}"] if self.start else []
            told += [f"Size         : {self.size}"]
        return told

    def at(self, place, force):
        """It at a place, as stmflash is given it: options, and the bytes of a file, or None where its own file will do."""
        if self.parser == HEX:
            if self.is_whole and place == self.own:
                return [], None if self.path else self.text
            return [], hex_text.moved(self.pieces, place - self.own, place + self.size)
        return ["-S", f"0x{place:08X}", *["-f"] * (force or self.is_input)], None if self.is_whole and self.path else self.text[:self.size]


def read_file(name, opened=None):
    try:
        with open(name if opened is None else opened, "rb") as file:
            return file.read()
    except OSError as error:
        raise Fault(f"Intel HEX ERROR: System Error\n{name}: {error.strerror}") from None


def keep(name):
    """Where a file can be read but once, standard input or another pipe, or by this process alone, it is read now and put where the
    inside of the call finds it."""
    os.environ.pop(KEPT, None)
    if name != "-" and not is_handed(name) and (not os.path.exists(name) or os.path.isfile(name) or os.path.isdir(name)):
        return
    if sys.stdin is None and name in ("-", "/dev/stdin"):
        raise Fault("Intel HEX ERROR: System Error\nstandard input is closed")
    held = hold(read_file(name, os.dup(0) if name == "-" else None))
    os.dup2(held, 0)
    os.close(held)
    os.environ[KEPT] = "1"
