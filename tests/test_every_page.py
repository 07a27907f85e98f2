"""Each page of four chips: an erase of it that was stopped somewhere, the device as it was left or reset, and undone.

Of each page one stop is tried, and one device of eight was reset; STMFLASH_LONG=1 tries each stop of each page both ways. On a
program that is built with checks on memory it is one page of eight, and of those that are large one.
"""

import concurrent.futures
import os
import random
import time
import typing

from place import Place, is_slow
from refusing import frame_of, stopped

from device import Chip

# by the chip's number: how it is erased, and its runs of pages
RUNS = {
    "0410": ("page", [[128, 1024]]),
    "0413": ("extended", [[4, 16384], [1, 65536], [7, 131072]]),
    "0440": ("extended", [[64, 1024]]),
    "0A02": ("extended", [[512, 256]]),
}
CHIPS = {number: Chip(int(number, 16), 0x08000000, [size for count, size in runs for _ in range(count)], kind == "extended", 0xFF)
         for number, (kind, runs) in RUNS.items()}
TABLE = "".join(f'[[chip]]\nid = 0x{chip}\nbase = 0x08000000\npages = {runs}\nerase = "{kind}"\n' for chip, (kind, runs) in RUNS.items())
FLASHES = {number: bytes(i % 251 for i in range(chip.size)) for number, chip in CHIPS.items()}
# how many undos go on at once; of how many devices one was reset, and of how many pages one is tried where all take long
AT_ONCE, RESET_ONE_IN, SLOW_ONE_IN = 4, 8, 8
# a page is large from so many bytes on, and behind page 1 the page of this number may be erased
LARGE, COMPANION = 65536, 257


class Stop(typing.NamedTuple):
    """An erase of a page that was stopped behind so many bytes of its frame, and whether the device was reset since."""

    chip: str
    page: int
    sent: int
    is_reset: bool


def all_stops():
    return (Stop(chip, page, sent, is_reset) for chip in CHIPS for page in range(CHIPS[chip].pages())
            for sent in range(len(frame_of(CHIPS[chip], "erase", page)) + 1) for is_reset in (False, True))


def some_stops(chance):
    """One stop of each page, or of some."""
    for chip in CHIPS:
        pages = range(CHIPS[chip].pages())
        if is_slow():
            large = [page for page in pages if CHIPS[chip].sizes[page] >= LARGE]
            pages = [page for page in pages if page not in large and (page < 2 or chance.randrange(SLOW_ONE_IN) == 0)] + large[:1]
        for page in pages:
            yield Stop(chip, page, chance.randint(0, len(frame_of(CHIPS[chip], "erase", page))), chance.randrange(RESET_ONE_IN) == 0)


class EveryPage(Place):
    begins = {"table": TABLE.encode()}

    def undo(self, number, stop):
        """What is wrong behind an undo; None: nothing."""
        flash, journal = f"flash-{number}", f"journal-{number}"
        before, chip = FLASHES[stop.chip], CHIPS[stop.chip]
        pages = [stop.page] + [COMPANION] * (stop.page == 1 and COMPANION < chip.pages())
        left, line, kept = stopped(chip, before, "erase", stop.page, stop.sent, beside=pages[1:])
        self.store_all({flash: left, flash + ".line": b"fresh\n" if stop.is_reset else line, journal: kept})
        said = self.call("undo", "--table", "table", "--device", f"sim:{stop.chip}:{flash}", "--journal", journal)
        is_back, line, after = self.held(flash) == before, self.held(flash + ".line"), self.held(journal)
        self.remove(flash, flash + ".line", journal)
        if (said.status, said.out, said.err, is_back, line) != (0, b"undone 1\n", b"", True, b"idle\n"):
            return f"{stop}: {said}, the flash is {'' if is_back else 'not '}as it was, {line}"
        due = kept + b"".join(b"erase %d\nprogram %d\n" % (page, page) for page in pages) + b"undone 1\n"
        return None if after == due else f"{stop}: {after[len(kept):]}"

    def test_an_erase_that_was_stopped_is_undone(self):
        seed = time.time_ns()
        stops = list(all_stops() if os.environ.get("STMFLASH_LONG") == "1" else some_stops(random.Random(seed)))
        if not is_slow():
            self.assertEqual(len({(it.chip, it.page) for it in stops}), sum(map(Chip.pages, CHIPS.values())))
        with concurrent.futures.ThreadPoolExecutor(AT_ONCE) as pool:
            told = list(pool.map(self.undo, range(len(stops)), stops))
        wrong = [it for it in told if it is not None]
        self.assertEqual(wrong[:3], [], f"{len(wrong)} of {len(stops)}, seed {seed}")
