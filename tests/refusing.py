"""What tests of a board share that refuses a step: the board, and cases that are played on boards that aren't there."""

import itertools

from rows import Rows, bytes_of
from served import Peer

from device import exclusive_or as check
from planted_board import FRESH, READ, REFUSED, PlantedBoard

BASE = 0x08000000
SIZES = [1024] * 32


def write_to(at, data):
    """A Write Memory in its steps: code, address, count and data with their check."""
    address, body = (BASE + at).to_bytes(4, "big"), bytes([len(data) - 1]) + data
    return b"\x31\xce" + address + bytes([check(address)]) + body + bytes([check(body)])


def erase(*pages, width=1):
    """An Erase Memory of pages, or an Extended Erase Memory."""
    body = (len(pages) - 1).to_bytes(width, "big") + b"".join(page.to_bytes(width, "big") for page in pages)
    return (b"\x43\xbc" if width == 1 else b"\x44\xbb") + body + bytes([check(body)])


def frame_of(chip, command, page, data=b""):
    """The frame of an erase of a page, or of a write of these bytes at its beginning."""
    return write_to(chip.base - BASE + chip.part(page).start, data) if command == "write" else erase(page, width=1 + chip.extended)


def stopped(chip, flash, command, page, sent, data=b"", beside=()):
    """What a session has left on a chip of this flash that was stopped behind so many bytes of such a frame, a write's in a page that it had
    erased: the flash, the line, and the journal, which keeps these pages beside."""
    part, frame = chip.part(page), frame_of(chip, command, page, data)
    is_whole, blank = sent == len(frame), bytes([chip.erased])
    held = data * is_whole if command == "write" else flash[part] * (not is_whole)
    line = f"rest {frame[:sent].hex().upper()}" if 0 < sent < len(frame) else "idle"
    kept = "".join(f"page {it} {flash[chip.part(it)].hex().upper()}\n" for it in (*beside, page))
    journal = f"stmjournal 2 {chip.number:04X}\nopen 1\n{kept}erase {page}\n" + f"program {page}\n" * (command == "write")
    return flash[:part.start] + held.ljust(chip.sizes[page], blank) + flash[part.stop:], f"{line}\n".encode(), journal.encode()


class Guarded(PlantedBoard):
    """A board that refuses one step of its commands, at these pages or codes, until its protection is removed."""

    def __init__(self, step, refused, code=0x43):
        super().__init__(0x412, SIZES, code, {}, flash=bytes(i % 251 for i in range(32768)))
        self.step, self.refused = step, {refused}

    def refuses(self, step, at):
        return step == self.step and at in self.refused

    def judge_code(self, code, complement):
        return REFUSED if self.refuses("code", code) else super().judge_code(code, complement)

    def do(self, rest):
        """Write Unprotect is acknowledged twice, and resets the device."""
        if rest[0] == 0x73:
            self.acknowledge()
            self.refused.clear()
            self.phase = FRESH
        super().do(rest)

    def judge_address(self, rest):
        step, page = "read" if rest[0] == READ else "write", (int.from_bytes(rest[2:6], "big") - BASE) // 1024
        return REFUSED if self.refuses(step, page) else super().judge_address(rest)

    def can_read(self, at, count):
        return not self.refuses("count", at // 1024) and super().can_read(at, count)

    def can_write(self, at, count):
        return not self.refuses("data", at // 1024) and super().can_write(at, count)

    def has_page(self, page):
        return not self.refuses("page", page) and super().has_page(page)


class OnBoard(Rows):
    """A test whose cases are played on boards, each call with a line of its own (tests/hints.rows says how they are told)."""

    # by their names, with what a board or a peer is made of
    kinds = {"guarded": Guarded}

    def begin(self):
        super().begin()
        # who listens in a case before is nobody's in this one
        self.serving = None

    def call(self, *words, **how):
        """Runs the program, at the board where it names one."""
        if "board" not in words or not self.serving:
            return super().call(*words, **how)
        name = next(it for it in map("peer{}".format, itertools.count()) if not self.is_there(it))
        Peer(self, name, self.serving)
        return super().call(*(name if it == "board" else it for it in words), **how)

    def does(self, sign, told, name, *more):
        if sign == "peer":
            self.serving = self.kinds[name]
        elif sign == "board":
            self.board = self.kinds[name](*(int(it, 0) if it[0].isdigit() and "-" not in it else it for it in more))
            self.serving, self.heard, feed = self.board.serve, bytearray(), self.board.feed
            self.board.feed = lambda byte: self.heard.append(byte) or feed(byte)
        elif sign == "fed":
            for byte in bytes.fromhex(name):
                self.board.feed(byte)
            self.board.owed.clear()
        elif sign == "sets":
            setattr(self.board, name, int(*more))
        elif sign == "reset":
            self.board.reset()
        elif sign == "lets":
            self.board.sets.clear()
            getattr(self.board, "refused", set()).clear()
        elif sign == "refuses":
            self.assertTrue(self.board.refused)
        elif sign == "holds":
            self.assertEqual(bytes(self.board.flash), bytes_of(told))
        elif sign == "heard":
            self.assertRegex(self.heard.hex().upper(), rf"\A{told}\Z")
            self.heard.clear()
        else:
            super().does(sign, told, name, *more)
