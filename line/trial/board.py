"""The board at the other end: what it is sent, what it has to answer, and what of its flash is known."""

import statistics
import time

from faults import Differs
from model import ACK, CONNECT, ERASE, NACK, READ, WRITE, fold

BLOCK = 256
# bytes that are told as they are; of all others only how many there were, since they may be the flash's
TOLD = {ACK: "79", NACK: "1F", 0x76: "76", CONNECT: "7F"}
# how long an answer may take before the board counts as silent, in seconds; an erase has more
PATIENCE, LONG_PATIENCE = 5, 45


def told(replies):
    """Replies for a text and for the file: no byte of the flash is among them."""
    text = " ".join(TOLD.get(byte, "..") for byte in replies[:8]) or "nothing"
    return text + (f" and more, {len(replies)} bytes" if len(replies) > 8 else "")


def frame_told(data):
    """What was sent, for the same texts: a frame that may hold data is told by its length."""
    return " ".join(f"{byte:02X}" for byte in data) if len(data) <= 5 else f"{len(data)} bytes"


def pages_told(pages):
    shown = list(pages)
    return ", ".join(map(str, shown[:6])) + (" .." if len(shown) > 6 else "")


class Board:
    """A board on a line, and what its model says of it once it has told who it is."""

    def __init__(self, line, words, progress):
        self.line, self.words, self.progress = line, words, progress
        self.wait, self.byte_time = words.wait / 1000, 11 / words.baud
        self.model, self.code, self.page, self.other = None, None, None, None
        self.version, self.codes, self.was_contacted = None, [], False
        # what a fresh board answers the first 7F
        self.greeting = bytes([ACK])
        # seconds until the first byte of a reply, by what was asked
        self.times = {}
        # what a user has to say to stmflash; what is told of the board
        self.options, self.facts = {}, {}
        self.saved, self.is_touched = None, False
        # why nothing more may be changed; why the board can't be used at all
        self.harm, self.refusal = None, None

    # ---- bytes

    def put(self, data):
        """Sends bytes, and answers the replies that are due. Nothing is sent from the first on that is never sent."""
        due, fed = [], bytearray()
        try:
            for byte in data:
                due += self.model.feed(byte)
                fed.append(byte)
        finally:
            self.line.write(bytes(fed))
        return due

    def talk(self, name, data, patience=None):
        """Sends bytes and takes the replies that are due: Differs where others come."""
        due = self.put(data)
        begun = time.monotonic() + len(data) * self.byte_time
        first = patience or (LONG_PATIENCE if name == "erase" else PATIENCE)
        got = self.line.read(1, first if due else self.wait, 2)
        if got and due and due[0] in (None, got[0]):
            self.note_time(name, time.monotonic() - begun)
            got += self.line.read(len(due) - 1, 2 + len(due) * self.byte_time, 2)
        if len(got) != len(due) or any(want not in (None, byte) for want, byte in zip(due, got)):
            got += self.drain()
            raise Differs(f"{name}: behind {frame_told(data)} came {told(got)}, and not {told([x or 0 for x in due])}")
        return got

    def note_time(self, name, seconds):
        self.times.setdefault(name, []).append(max(0.0, seconds))

    def usual_time(self, name):
        """What such an answer mostly takes: a machine that is busy for a moment isn't the board."""
        return statistics.median(self.times.get(name, [0.0]))

    def drain(self):
        return self.line.read(4096, self.wait, self.wait)

    def hush(self):
        """Nothing may be on its way any more."""
        more = self.line.read(16, self.wait / 2, self.wait / 2)
        if more:
            raise Differs(f"behind the replies came {told(more)}, unasked")

    # ---- commands

    def step(self, code):
        self.talk("command", [code, code ^ 0xFF])

    def address(self, at, flip=0):
        place = (self.model.base + at).to_bytes(4, "big")
        return [*place, fold(place) ^ flip]

    def erase_frame(self, page, flip=0):
        """What follows the code of an erase of one page and its complement."""
        width = 1 if self.code == ERASE else 2
        body = bytes(width) + page.to_bytes(width, "big")
        return [*body, fold(body) ^ flip]

    def read(self, at, count):
        """The bytes that stand there, and what was known of them. From now on they are known."""
        self.step(READ)
        self.talk("address", self.address(at))
        place = slice(at, at + count)
        before, self.model.flash[place] = self.model.flash[place], [None] * count
        got = self.talk("read", [count - 1, count - 1 ^ 0xFF])[1:]
        self.model.flash[place] = got
        return got, before

    def erase(self, page):
        self.is_touched = True
        self.step(self.code)
        self.talk("erase", self.erase_frame(page))

    def write(self, at, data):
        self.is_touched = True
        self.step(WRITE)
        self.talk("address", self.address(at))
        body = [len(data) - 1, *data]
        self.talk("write", [*body, fold(body)])

    def fill(self, page):
        """Erases a page, and writes it full of bytes that tell their place. No code of a command that changes something stands
        beside its complement among them, so that a board that has lost a byte takes none for a command."""
        self.erase(page)
        for at in self.blocks(page):
            self.write(at, bytes((at >> 8) + i * 7 + (i >> 4) & 0xFF for i in range(BLOCK)))

    # ---- the flash beside the model

    def blocks(self, page):
        start = self.model.starts[page]
        return range(start, start + self.model.sizes[page], BLOCK)

    def compare(self, pages=None):
        """Reads pages, all of them without a list, and answers those of which a byte isn't what the model says."""
        found = []
        for page in range(len(self.model.sizes)) if pages is None else pages:
            for at in self.blocks(page):
                self.progress.show(at)
                got, before = self.read(at, BLOCK)
                if page not in found and any(want not in (None, byte) for want, byte in zip(before, got)):
                    found.append(page)
        return found

    def expect(self, what, pages=None):
        """These pages hold what the model says; where they don't the others are looked at too."""
        wrong = self.compare(pages)
        if wrong and pages is not None:
            wrong += [page for page in self.compare() if page not in wrong]
        strange = sorted(set(wrong) - set(self.words.pages))
        if strange:
            self.harm = f"page {pages_told(strange)} was changed, and wasn't named"
        if wrong:
            raise Differs(f"{what}: page {pages_told(sorted(wrong))} has other bytes than it should")

    def both(self):
        """The pages that the trial works on."""
        return list(dict.fromkeys((self.other, self.page)))

    # ---- a board that was reset

    def restart(self):
        """Resets the board and connects anew. can_reset of the line is true."""
        self.line.reset()
        self.model.reset()
        self.connect()

    def connect(self):
        """Sends 7F to a fresh board, and takes its greeting."""
        self.put([CONNECT])
        got = self.line.read(len(self.greeting), PATIENCE, 1)
        if got != self.greeting:
            raise Differs(f"a fresh board answers 7F by {told(got + self.drain())}, and not {told(self.greeting)}")
