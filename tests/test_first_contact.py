"""Each chip of chips.toml, where an erase or a write was stopped and the board was reset: one 7F, and its undo."""

import random
import typing

from place import is_slow, text_in
from test_chips import CHIPS, chip_of, flash_of
from test_greeting import Undoing
from refusing import frame_of, stopped

# pages whose settling bytes are FF and 02; larger ones take long
LATE_PAGES, LARGE = (255, 511), 4096
HEAD = "\n[[chip]]\n"
CALL = "undo --table table --device stand --journal journal --wait 300 --give-up 5 --baud 115200 1"
# by what is told of each
STOPS = {}
ENTRIES = {number: HEAD + text for number, text in zip(CHIPS, text_in("chips.toml").split(HEAD)[1:])}


class ChipStop(typing.NamedTuple):
    """A session that was stopped at a chip of the table, behind this part of a frame of an erase or a write of a page."""

    chip: str
    command: str
    page: int
    part: float

    def refused(self):
        return 2 if self.command == "write" or self.page > 255 else self.page

    def left(self):
        """The flash and the journal; a reset leaves nothing of a frame but what a whole one has done."""
        chip, data = chip_of(self.chip), bytes(range(256))
        sent = round(self.part * len(frame_of(chip, self.command, self.page, data)))
        flash, _, journal = stopped(chip, flash_of(self.chip), self.command, self.page, sent, data)
        return {"table": ENTRIES[self.chip].encode(), "flash": flash, "flash.line": b"fresh\n", "journal": journal}


def stops():
    """An erase and a write of a page, or of some, of each chip that has none too large."""
    draws = random.Random(59)
    for number in sorted(CHIPS):
        chip = chip_of(number)
        # a slow program has the small ones
        if chip.size > (128 << 10 if is_slow() else 1 << 20):
            continue
        last = chip.pages() - 1
        pages = {min(last, draws.randrange(2, 250)), *(page for page in LATE_PAGES if page <= last and chip.extended)}
        for page in sorted(pages):
            if chip.sizes[page] <= LARGE:
                yield from (ChipStop(number, command, page, draws.random()) for command in ("erase", "write"))


class FirstContact(Undoing):
    def does(self, sign, told, name, *more):
        if sign == "stopped":
            self.store_all(STOPS[told].left())
        elif sign == "back":
            self.assertFile("flash", flash_of(name))
        else:
            super().does(sign, told, name, *more)

    def test_each_chip(self):
        STOPS.update((str(stop), stop) for stop in stops())
        self.assertGreater(len(STOPS), 20)
        # connected by the first byte, it refuses the second pair's, so that one batch is enough
        self.play_apart([(told, [("stopped", told), ("$", CALL), (">", "undone 1"), ("back", stop.chip), ("sent", f"7F {stop.refused():02X}*257")])
                         for told, stop in STOPS.items()])
