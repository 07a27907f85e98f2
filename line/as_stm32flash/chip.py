"""A chip of the table: where its pages lie."""

import bisect
import copy

from stmflash_line.tables import entries

from .fault import Fault


class Chip:
    """The flash of a chip: `starts` has the address of each page, and last of all the flash's end."""

    def __init__(self, entry):
        self.entry = entry
        self.identity = entry["id"]
        self.name = entry.get("name", "")
        self.starts = [entry["base"]]
        for count, size in entry["pages"]:
            for _ in range(count):
                self.starts.append(self.starts[-1] + size)
        self.base, self.end = self.starts[0], self.starts[-1]

    def cut(self, count):
        """The same with its first pages alone, as many as a smaller part has."""
        part = copy.copy(self)
        part.starts = self.starts[:count + 1]
        part.end = part.starts[-1]
        return part

    def holds(self, address):
        return self.base <= address < self.end

    def page_from(self, address):
        """The number of the page that begins at an address of the flash, the count of pages at its end; None elsewhere."""
        at = bisect.bisect_left(self.starts, address)
        return at if self.starts[at] == address else None

    def lines(self):
        """What is told of it."""
        size = self.starts[1] - self.starts[0]
        return [f"Device ID    : 0x{self.identity:04x} ({self.name})",
                f"- Flash      : Up to {(self.end - self.base) // 1024}KiB (size first sector: 1x{size})"]


def read_table(paths):
    """The chips of these tables, by their ids: each is that of the first table that has it."""
    return {number: chip for path in reversed(paths) for number, chip in read_one(path).items()}


def read_one(path):
    try:
        return {entry["id"]: Chip(entry) for entry in entries(path)}
    except (OSError, KeyError, TypeError, ValueError) as error:
        raise Fault(f"ERROR: the table of chips, {path}, can't be read: {getattr(error, 'strerror', None) or error}; STMFLASH_TABLE names one") from None


def refuse_outside(chips, address, option):
    """A fault where no chip of the table has its flash at an address: other memory isn't reached."""
    if not any(chip.base <= address <= chip.end for chip in chips.values()):
        raise Fault(f"ERROR: {option} 0x{address:08x}: not in the flash; RAM, option bytes and system memory aren't reached, but by the real stm32flash")
