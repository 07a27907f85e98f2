"""The sessions of docs/INSIDE.md: what is refused, what is sent, what is added to the journal, in order."""

import bisect
from collections import namedtuple

from device import CONNECT, ERASE
from journal import BadLine, Journal
import wire

BLOCK = 256
COMPANION = 257
DEEPEST = 65535


class Fault(Exception):
    """Why a session failed, in the program's words."""


UNFINISHED = "unfinished command, undo first"
OUT_OF_FLASH = "address outside the flash"
IN_SESSION = "journal is open, refused"
OTHER_DEVICE = "journal belongs to another device"
OTHER_BOARD = "journal is of another board"
DAMAGED = "page %d of segment %d has another CRC in the journal than when it was kept; undo by a copy of the journal, or --trust-journal"
CHANGED = "page %d isn't as segment %d left it; --trust-journal to undo all the same"
BOARD_CHANGED = "another board answers than at first"
NO_ERASE = "no erase command"
FULL = "journal is full"
DEVICE = "device does not follow the protocol"


Write, Erase, Verify = namedtuple("Write", "image"), namedtuple("Erase", "pages"), namedtuple("Verify", "image")
Read = namedtuple("Read", "start length")
CHANGES = Write, Erase


def load(rig):
    try:
        return Journal(rig.journal)
    except BadLine as bad:
        raise Fault("bad journal line %d" % bad.line)


def find(table, number):
    for chip in table:
        if chip.number == number:
            return chip
    raise Fault("unknown chip %04X" % number)


class Board(namedtuple("Board", "number unique kib")):
    """What a device told: its number, its unique id or no byte, and how many KiB its flash has, or None."""

    def table(self, table):
        return [chip.of_board(self.unique, self.kib) if chip.number == self.number else chip for chip in table]


def ask_board(rig, table):
    """The question before a session, of a device that is settled as the session will."""
    journal = load(rig)
    if journal.is_unfinished():
        chip = find(table, journal.number)
        # it fits some board of the chip: its unique id has the length that such boards tell, and its lines fit all pages or, where boards tell
        # their size, the first 257 or 256
        if journal.unique is not None and len(journal.unique) != (0 if chip.unique_at is None else chip.unique_at[1]):
            raise Fault(OTHER_BOARD)
        lines = [misfit(journal, part) for part in ([chip] if chip.size_at is None else [chip, chip.first_pages(257), chip.first_pages(256)])]
        if None not in lines:
            raise Fault("bad journal line %d" % lines[0])
        settle_by(rig, journal, chip)
    else:
        wire.settle(rig, CONNECT)
    wire.get_commands(rig)
    number = wire.get_id(rig)
    unique, kib = None, None
    for chip in table:
        if chip.number == number and chip.unique_at is not None:
            unique = wire.read_unless_refused(rig, *chip.unique_at)
        if chip.number == number and chip.size_at is not None:
            kib = wire.read_unless_refused(rig, chip.size_at, 2)
    if unique is None or set(unique) in ({0x00}, {0xFF}):
        unique = b""
    return Board(number, unique, None if kib in (None, b"\x00\x00", b"\xff\xff") else int.from_bytes(kib, "little"))


def check_of(journal, chip):
    """The journal is of no other board, and fits."""
    if journal.is_of_other(chip.unique):
        raise Fault(OTHER_BOARD)
    line = misfit(journal, chip)
    if line is not None:
        raise Fault("bad journal line %d" % line)


def misfit(journal, chip):
    """The least line that this chip can't have: a page that it hasn't, or of another size; on a chip with a page 257 page 1 without
    it; a header of version 1 where there are more than 256 pages. None where all fit."""
    bad = [journal.header_line] if chip.pages() > 256 and journal.version == 1 else []
    bad += [kept.line for segment in journal.stack for kept in segment.kept
            if chip.sizes[kept.page:kept.page + 1] != [len(kept.held)]
            or kept.page == 1 and COMPANION < chip.pages() and not segment.keeps(COMPANION)]
    return min(bad, default=None)


def open_session(rig, table):
    """The first steps of `run` and `info`: the journal, the chip, and what the device tells."""
    journal = load(rig)
    if journal.is_unfinished():
        raise Fault(UNFINISHED)
    wire.settle(rig, CONNECT)
    version, codes = wire.get_commands(rig)
    number = wire.get_id(rig)
    if journal.number is not None and journal.number != number:
        raise Fault(OTHER_DEVICE)
    chip = find(table, number)
    check_of(journal, chip)
    return journal, chip, version, codes


def page_of(chip, address):
    """The page that an address of the flash lies in."""
    return bisect.bisect_right(chip.starts, address - chip.base) - 1


def read_part(rig, chip, start, length):
    """Any part of the flash, in blocks of at most 256 bytes that stay within a page."""
    taken = b""
    while len(taken) < length:
        address = start + len(taken)
        end = chip.base + chip.part(page_of(chip, address)).stop
        taken += wire.read(rig, address, min(BLOCK, end - address, length - len(taken)))
    return taken


def read_page(rig, chip, page):
    return read_part(rig, chip, chip.base + chip.starts[page], chip.sizes[page])


def frames(chip, wanted):
    """How a page that was erased is written: pairs of an offset and bytes."""
    blocks = [(offset, wanted[offset:offset + BLOCK]) for offset in range(0, len(wanted), BLOCK)]
    lengths = [len(block.rstrip(bytes([chip.erased]))) for _, block in blocks]
    return [(offset, block[:(length + 3) // 4 * 4]) for (offset, block), length in zip(blocks, lengths) if length > 0]


def rewrite(rig, journal, chip, page, wanted):
    """A page that the newest segment keeps is erased and written."""
    rig.begin("erase line")
    journal.add(rig, b"erase %d" % page)
    wire.erase_page(rig, chip.extended, page)
    parts = frames(chip, wanted)
    if parts:
        rig.begin("program line")
        journal.add(rig, b"program %d" % page)
    for offset, data in parts:
        wire.program(rig, chip.base + chip.starts[page] + offset, data)


def keep(rig, journal, page, held):
    rig.begin("page line")
    journal.add(rig, b"page %d %s" % (page, held.hex().upper().encode()))


def turn(rig, journal, chip, page, content):
    """Gives a page what the command makes of its bytes. Whether it was changed."""
    held = read_page(rig, chip, page)
    wanted = content(held)
    if held == wanted:
        return False
    newest = journal.stack[-1]
    if not newest.keeps(page):
        if page == 1 and COMPANION < chip.pages() and not newest.keeps(COMPANION):
            keep(rig, journal, COMPANION, read_page(rig, chip, COMPANION))
        keep(rig, journal, page, held)
    rewrite(rig, journal, chip, page, wanted)
    return True


def change(rig, journal, chip, command):
    """A Write or an Erase, as one segment. Its number, and how many pages were changed. Of a Write a page has the image's bytes where that has
    one, and its own elsewhere."""
    rig.begin("open line")
    segment, count = journal.depth() + 1, 0
    journal.add(rig, b"open %d" % segment, chip)
    is_write = isinstance(command, Write)
    for page in sorted({page_of(chip, address) for address in command.image} if is_write else set(command.pages)):
        start = chip.base + chip.starts[page]
        count += turn(rig, journal, chip, page, lambda held: bytes(
            command.image.get(start + place, byte) if is_write else chip.erased for place, byte in enumerate(held)))
    look_again(rig, chip)
    rig.begin("end line")
    journal.add(rig, b"end %d" % segment)
    return segment, count


def verify(rig, chip, image):
    """From the image's next place on blocks of at most 256 bytes, within a page, as long as it has one."""
    end = 0
    for start in sorted(image):
        if start < end:
            continue
        end = min(start + BLOCK, chip.base + chip.part(page_of(chip, start)).stop)
        for place, byte in enumerate(wire.read(rig, start, end - start)):
            if image.get(start + place, byte) != byte:
                raise Fault("differs at %08X" % (start + place))


def told_its_board(chip):
    return chip.unique_at is not None and chip.unique_at[1] == len(chip.unique)


def confirm(rig, chip):
    """A settled device is asked once more for its unique id, where it told one before the session."""
    if told_its_board(chip) and wire.read_unless_refused(rig, *chip.unique_at) != chip.unique:
        raise Fault(BOARD_CHANGED)


def look_again(rig, chip):
    """And behind the last frame of a segment for its number and for that id."""
    if told_its_board(chip) and wire.get_id(rig) != chip.number:
        raise Fault(BOARD_CHANGED)
    confirm(rig, chip)


def begin(rig, table, command):
    """All that can be refused is, before it is done."""
    journal, chip, _, codes = open_session(rig, table)
    is_change = isinstance(command, CHANGES)
    if is_change and chip.erase_code() not in codes:
        raise Fault(NO_ERASE)
    if isinstance(command, Read):
        inside = command.length == 0 or chip.has(command.start, command.length)
    else:
        inside = all(page < chip.pages() for page in command.pages) if isinstance(command, Erase) else all(chip.has(at, 1) for at in command.image)
    if not inside:
        raise Fault(OUT_OF_FLASH)
    if journal.depth() + is_change > DEEPEST:
        raise Fault(FULL)
    confirm(rig, chip)
    return journal, chip


def run(rig, table, command):
    journal, chip = begin(rig, table, command)
    if isinstance(command, CHANGES):
        return change(rig, journal, chip, command)
    if isinstance(command, Verify):
        return verify(rig, chip, command.image)
    return read_part(rig, chip, command.start, command.length)


def write_and_verify(rig, table, image):
    """What the write answers, and how many bytes of the image were read again: those in pages that its segment keeps."""
    journal, chip = begin(rig, table, Write(image))
    written = change(rig, journal, chip, Write(image))
    kept = {it.page for it in journal.stack[-1].kept}
    again = {place: byte for place, byte in image.items() if page_of(chip, place) in kept}
    verify(rig, chip, again)
    return *written, len(again)


def info(rig, table):
    return open_session(rig, table)[1:]


def settle_by(rig, journal, chip):
    """By the journal's intent, as a device of this chip."""
    word, page = journal.intent() or ("", None)
    if page is None:
        return wire.settle(rig, CONNECT)
    byte = page if word == "erase" and page < 256 else 0x02
    wire.settle(rig, byte, wire.limit_for(byte, word == "erase" and chip.erase_code() != ERASE), in_batches=True)


def to_change(journal):
    """How many segments there are up to the newest that keeps a page; 0, which is all, where none does."""
    return next((count for count, segment in enumerate(reversed(journal.stack), 1) if segment.kept), 0)


def undo(rig, table, count, trusts):
    """How many segments were undone: the newest so many, or all where that is 0 or more than there are. By a journal that isn't
    trusted no page is given back which holds something else than its segment left there."""
    journal = load(rig)
    depth = journal.depth()
    if depth == 0:
        return 0
    chip = find(table, journal.number)
    check_of(journal, chip)
    work = journal.intent()
    settle_by(rig, journal, chip)
    _, codes = wire.get_commands(rig)
    if chip.erase_code() not in codes:
        raise Fault(NO_ERASE)
    if wire.get_id(rig) != chip.number:
        raise Fault(OTHER_DEVICE)
    confirm(rig, chip)
    # behind page 1 also page 257, which the byte that settles a stopped erase of page 1 may erase
    for page in [] if work is None else [1, COMPANION] if work[1] == 1 and journal.stack[-1].keeps(COMPANION) else [work[1]]:
        kept = next(kept for kept in journal.stack[-1].kept if kept.page == page)
        rewrite(rig, journal, chip, kept.page, kept.held)
    taken = depth if count == 0 else min(count, depth)
    for _ in range(taken):
        for kept in journal.stack[-1].kept:
            held = read_page(rig, chip, kept.page)
            if held != kept.held:
                if not trusts and journal.changed(kept.page, held):
                    raise Fault(CHANGED % (kept.page, journal.depth()))
                rewrite(rig, journal, chip, kept.page, kept.held)
        look_again(rig, chip)
        rig.begin("undone line")
        journal.add(rig, b"undone %d" % journal.depth())
    return taken


def leave(rig, command, given):
    """By wire.go at an address, or wire.protect with a code."""
    if load(rig).depth() > 0:
        raise Fault(IN_SESSION)
    wire.settle(rig, CONNECT)
    command(rig, given)
