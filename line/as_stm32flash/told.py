"""What is told while a call goes on: stm32flash's lines on standard output, notes of our own on standard error."""

import re
import sys

from stmflash_line.faults import put

VERSION = "0.7"
PAGE = re.compile(r"page (\d+) (read|written|erased), (\d+) of (\d+) pages")


class Told:
    """The lines go to standard error where standard output has the bytes of a read."""

    def __init__(self, words):
        self.stream = sys.stderr if words.action == "r" and words.file == "-" else sys.stdout
        self.errors = sys.stderr

    def lines(self, texts):
        for text in texts:
            self.line(text)

    def line(self, text, end="\n"):
        put(self.stream, text + end)

    def progress(self, what, part, chip, stream=None):
        """A function for the lines that stmflash shows: each page that is done is told as how far `what` has come."""
        def show(text):
            done = PAGE.fullmatch(text.split(" pages")[0] + " pages")
            if done:
                page, turn, count = int(done[1]), int(done[3]), int(done[4])
                word = what[0] if done[2] == "written" else what[-1]
                at = min(chip.starts[page + 1], part.end)
                self.far(word, at, turn / count, stream)
        return show

    def far(self, what, address, share, stream=None, end=""):
        put(stream or self.stream, f"\r{what} address 0x{address:08x} ({100 * share:.2f}%) {end}")


def note(text):
    put(sys.stderr, f"stm32flash: {text}\n")
