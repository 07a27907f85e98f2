"""The sessions that are recorded."""

import itertools
import random

from board import files_of
from disk import SECTOR
from stops import CHIPS, TELLS
from story import BOARD, FILE, Story
from trial import disk_at

SMALL, PLAIN, EXTENDED, LARGE, ZEROS = 0x0A03, 0x0412, 0x0A02, 0x0A05, 0x0A06
FIRST, SECOND, ERASE = ("write", "first"), ("write", "second"), ("erase", "1", "3")
# where a line begins in its sector, so that it lies in that and in the next; and where a tail ends in front of a header
CROSSED, HEADER = 508, 497
# how many bytes of a sector the header of a new journal, `open` and what follows it take, and how many of one a page's lines: of one that names its board too
HEADS, PAGES = (25, 90), (8, 22)


class BehindCrash(Story):
    """A session behind a crash of another one, which has left a beginning of its last write that begins so: a page's line, if not said."""

    def __init__(self, name, other, length, begins=b"page "):
        super().__init__(name, other.way, other.chip.number, [("undo",)])
        # where the torn line ends in its sector; or how many bytes of the write aren't there, as a number below 0
        self.other, self.length, self.begins = other, length, begins

    def prepare(self, program, folder):
        moment = max(number for number, event in enumerate(self.other.events, 1)
                     if event.kind == "write" and event.words[2].startswith(self.begins))
        disk = disk_at(self.other, moment)
        (number,) = disk.unsynced()
        most = disk.files[number].lengths()[1] - 1
        length = most + 1 + self.length if self.length < 0 else most - (most - self.length) % SECTOR
        kinds = ".1" * len(disk.files[number].sectors())
        held, names = disk.left("%s%d=%d%s" % ("1" * len(disk.changes) + "+" if disk.changes else "", number, length, kinds))
        self.flashes = list(self.other.flashes)
        files = {name: held[number] for name, number in names.items()}
        if self.way == BOARD:
            files.update(files_of(self.other.device_at(len(self.other.sent(moment)))[0]))
        return files


def on(way, number):
    """The sessions of a chip."""
    tells = number >= TELLS
    head, page = HEADS[tells], PAGES[tells]
    size = CHIPS[number].sizes[0]
    # inside the frames of its first page
    stop = (*FIRST, "--stop", str(3 * size + size // 256 * 12 + 240))
    write = Story("write", way, number, [FIRST])
    yield write
    yield Story("erase", way, number, [ERASE])
    yield Story("write-new", way, number, [FIRST], is_new=True)
    # the first line `erase`, and the line `end`
    yield Story("write-intent", way, number, [FIRST], pad=CROSSED - head - page, tail=b"")
    yield Story("write-end", way, number, [FIRST], pad=CROSSED - head - 2 * page - 36, tail=b"")
    yield Story("write-header", way, number, [FIRST], pad=HEADER, tail=b"stmjournal 2 0")
    yield Story("write-again", way, number, [SECOND], [FIRST], pad=CROSSED)
    yield Story("undo", way, number, [("undo",)], [FIRST, ERASE], pad=CROSSED)
    yield Story("undo-one", way, number, [("undo", "1")], [FIRST, SECOND], pad=CROSSED - 1)
    yield Story("undo-stopped", way, number, [("undo",)], [stop], pad=CROSSED)
    yield Story("undo-killed", way, number, [FIRST, ("undo",)], kill=4)
    yield BehindCrash("undo-torn", write, 511)
    yield BehindCrash("undo-torn-crossed", write, 506)
    yield Story("keep", way, number, [("keep",)], [FIRST])
    yield Story("keep-to", way, number, [("keep", "elsewhere/kept")], [FIRST])
    yield Story("keep-beside", way, number, [("keep", "kept")], [FIRST])
    yield Story("read", way, number, [("read", "out")], [FIRST])
    if tells:
        # digits of the last CRC that stands behind `end`, and of the first page's
        yield Story("write-left", way, number, [FIRST], pad=CROSSED - 74 - head - 2 * page, tail=b"")
        yield Story("write-crc", way, number, [FIRST], pad=CROSSED - 10 - head, tail=b"")
        yield BehindCrash("undo-torn-crc", write, -6, b"\ncrc ")
        yield BehindCrash("undo-torn-left", write, -6, b"left ")


def all_stories():
    """Every kind of session over a served simulator and over one in the process, on chips in turn, with a board that tells which it is
    and without; the write, and an undo behind a crash of it, on each chip. A chip erased by 44 isn't tried in the process: a device that
    is fresh beside a journal with an intent takes an undo seconds there."""
    found = {}
    for more, (way, chips) in itertools.product((0, TELLS), ((BOARD, (SMALL, PLAIN, EXTENDED, LARGE)), (FILE, (SMALL, PLAIN, ZEROS)))):
        for turn, number in enumerate(chips):
            for place, story in enumerate(on(way, number + more)):
                if place % len(chips) == turn or story.name.startswith(("write-%s" % way, "undo-torn-%s" % way)):
                    found[story.name] = story
    return found


def drawn(stories, seed):
    """Of each two that differ in nothing but whether the board tells which it is, one, which is that of the session that they stand
    behind; and all others."""
    for name, story in stories.items():
        number = story.chip.number
        tells = random.Random("%s %s%04X" % (seed, getattr(story, "other", story).name[:-4], number % TELLS)).random() < 0.5
        if "%s%04X" % (name[:-4], number ^ TELLS) not in stories or tells == (number >= TELLS):
            yield name
