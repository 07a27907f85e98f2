"""The journal of docs/FORMATS.md: what its text says, and the lines that are added to it."""

import re

from image import crc

HEADER = re.compile(rb"stmjournal (?:[12] ([0-9A-F]{4})|3 ([0-9A-F]{4}) ((?:[0-9A-F]{2}){8,32}))")
LINE = re.compile(rb"(open|erase|program|end|undone|page) (0|[1-9][0-9]*)(?: ((?:[0-9A-F]{2})+))?")
# the void lines behind a page that is kept, and behind a segment that has ended, in a journal that names its board
SEAL, LEFT = re.compile(rb"crc ([0-9A-F]{8})!"), re.compile(rb"left (0|[1-9][0-9]*) .*!")
GREATEST = 65535
# the longest header of each version
HEADERS = (b"stmjournal 1 0000", b"stmjournal 2 0000", b"stmjournal 3 0000 " + 64 * b"0")

OPEN, ENDED, RETURNING = "open", "ended", "returning"


def untimed(text):
    """The text of a journal without what it says of the beginning of its segments; any other as it is."""
    return re.sub(rb"(?m)^(time|image) [^\n]*!\n", b"", text) if re.search(rb"(?m)^stmjournal 3 ", text) else text


def untimed_line(text, number):
    """The number that a line of a journal has there."""
    return untimed(b"\n".join(text.split(b"\n")[:number]) + b"\n").count(b"\n")


class BadLine(Exception):
    def __init__(self, line):
        super().__init__(line)
        self.line = line


def is_no_journal(text):
    """By the first line that isn't void, where there is one; else by whether all of it may be what stopped appends of a header leave: a
    beginning of one, which may be nothing, and NUL and `!` alone behind it."""
    lines = bytes(text).split(b"\n")
    for line in lines[:-1]:
        if not line.endswith(b"!"):
            return not line.startswith(b"stmjournal ")
    begun = [line.rstrip(b"\0!") for line in lines]
    return not all(any(len(line) <= len(header) and HEADER.fullmatch(line + header[len(line):]) for header in HEADERS) for line in begun)


def seal(held):
    """The line behind a page of these bytes, of which zeros fill the last word."""
    return b"crc %08X!" % crc(held + bytes(-len(held) % 4))


def left(page, held):
    """The line of a page that a segment left with these bytes."""
    return b"left %d %d %s" % (page, len(held), seal(held)[4:])


class Kept:
    """A page that a segment keeps: its number, its bytes, the number of its line, and the line of a CRC behind it or None."""

    seal = None

    def __init__(self, page, held, line):
        self.page, self.held, self.line = page, held, line


class Segment:
    def __init__(self):
        self.state, self.kept, self.intent = OPEN, [], None
        # the line of what each page was left with, of those that no undo began to give back
        self.left = {}

    def keeps(self, page):
        return any(kept.page == page for kept in self.kept)


class Journal:
    def __init__(self, text):
        # what the header says; the unique id is of one of version 3
        self.version = self.number = self.unique = self.header_line = None
        self.stack, self.lines = [], 0
        lines = bytes(text).split(b"\n")
        self.torn = lines[-1] != b""
        for line in lines[:-1]:
            self.take(line)

    def take(self, line):
        """One whole line."""
        self.lines += 1
        if not line.endswith(b"!"):
            if not self.understand(line):
                raise BadLine(self.lines)
        elif self.stack:
            newest, found = self.stack[-1], LEFT.fullmatch(line)
            if SEAL.fullmatch(line) and newest.kept and newest.kept[-1].line == self.lines - 1:
                newest.kept[-1].seal = line
            if found and newest.state != OPEN:
                newest.left[int(found[1])] = line

    def understand(self, line):
        if self.number is None:
            found = HEADER.fullmatch(line)
            if not found:
                return False
            self.version, self.number = line[11] - ord("0"), int(found[1] or found[2], 16)
            self.unique, self.header_line = bytes.fromhex(found[3].decode()) if found[3] else None, self.lines
            return True
        found = LINE.fullmatch(line)
        if not found or int(found[2]) > GREATEST or (found[3] is None) == (found[1] == b"page"):
            return False
        word, value, newest = found[1], int(found[2]), self.stack[-1] if self.stack else None
        if word == b"open":
            if self.is_unfinished() or value != self.depth() + 1:
                return False
            self.stack.append(Segment())
            return True
        if newest is None or word in (b"page", b"end") and newest.state != OPEN:
            return False
        # a page is kept once, and no other one is erased or written; the others name the segment
        if newest.keeps(value) == (word == b"page") if word in (b"page", b"erase", b"program") else value != self.depth():
            return False
        if word == b"page":
            newest.kept.append(Kept(value, bytes.fromhex(found[3].decode()), self.lines))
        elif word == b"end":
            newest.state, newest.intent = ENDED, None
        elif word == b"undone":
            self.stack.pop()
        else:
            newest.intent = (word.decode(), value)
            newest.state = RETURNING if newest.state == ENDED else newest.state
            for page in (1, 257) if value == 1 else (value,):
                newest.left.pop(page, None)
        return True

    def depth(self):
        return len(self.stack)

    def is_unfinished(self):
        return bool(self.stack) and self.stack[-1].state != ENDED

    def intent(self):
        return self.stack[-1].intent if self.is_unfinished() else None

    def risked_pages(self):
        """The pages that a stopped command may have been at work on."""
        return [kept.page for kept in self.stack[-1].kept] if self.is_unfinished() else []

    def damaged(self, count):
        """The first page of the newest so many segments, or of all, that has another CRC than stands behind it, and its segment's number."""
        for number in range(self.depth(), max(self.depth() - count, 0) if count else 0, -1):
            for kept in self.stack[number - 1].kept:
                if kept.seal not in (None, seal(kept.held)):
                    return kept.page, number
        return None

    def changed(self, page, held):
        """Whether the newest segment left another page behind, by its line, than one of these bytes."""
        return self.stack[-1].left.get(page, left(page, held)) != left(page, held)

    def is_of_other(self, unique):
        """Whether it names a board, and another than the one of this unique id, which may be none."""
        return self.unique is not None and self.unique != unique

    def add(self, rig, line, chip=None):
        """Adds a line in one append; with a chip before the first segment, the header too. The file adds the CRC behind a page, and a second
        mark where a torn line is closed."""
        lines = [b"!"] * self.torn
        if chip is not None and self.number is None:
            lines.append(b"stmjournal %d %04X%s" % (3 if chip.unique else 2, chip.number, b" " * bool(chip.unique) + chip.unique.hex().upper().encode()))
        lines.append(line)
        begin = len(rig.journal)
        try:
            rig.append(b"".join(it + b"\n" for it in lines))
        finally:
            added = bytes(rig.journal[begin:])
            if added.startswith(b"!\n") and (self.version == 3 or added.startswith(b"!\nstmjournal 3 ")):
                rig.journal[begin:begin] = b"!"
        self.torn = False
        for it in lines:
            self.take(it)
        if line.startswith(b"page ") and self.version == 3:
            rig.journal += seal(self.stack[-1].kept[-1].held) + b"\n"
