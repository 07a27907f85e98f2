"""What is shown on standard error while a trial goes on."""

import sys

from stmflash_line.faults import put


class Progress:
    """On a terminal one line that changes; with --progress a line for each row elsewhere."""

    def __init__(self, words, count):
        self.is_live = sys.stderr.isatty() and not words.quiet
        self.is_listed = words.progress and not words.quiet and not self.is_live
        self.count, self.number, self.name = count, 0, ""

    def begin(self, name):
        self.number, self.name = self.number + 1, name
        if self.is_listed:
            put(sys.stderr, f"row {self.number} of {self.count}: {name}\n")
        self.show()

    def show(self, at=None):
        if self.is_live:
            place = "" if at is None else f" {at}"
            put(sys.stderr, f"\r\x1b[Krow {self.number} of {self.count}: {self.name}{place}")

    def clear(self):
        if self.is_live:
            put(sys.stderr, "\r\x1b[K")
