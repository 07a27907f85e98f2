"""Rows that erase and write the named pages: P is the last of them, Q the first."""

import random
import time

from board import BLOCK, pages_told
from faults import Differs, NotTried, Odd
from model import ACK, EXTENDED_ERASE, GET, NACK, WRITE, fold
from row import NOTE, row
from settling import byte_of, settle

SMALLEST, SIZES = (4,), (8, 12, 16, 20, 28, 32, 36, 64, 100, 128, 252)
# an answer behind an erase that is so much later than usual, in seconds, each of so many times, wasn't asked of an idle board
LATE, TIMES = 0.3, 3


@row("erase", "an erase of page P is acknowledged, and all of P holds one byte then", "effect of an erase", "nothing can be written",
     intent="erase", changes="the named pages")
def erase(board):
    board.erase(board.page)
    seconds = board.usual_time("erase")
    board.facts["erase_seconds"] = round(seconds, 3)
    board.model.forget(board.page)
    board.compare([board.page])
    held = set(board.model.flash[board.model.page(board.page)])
    if len(held) > 1:
        raise Differs(f"page {board.page} holds {len(held)} different bytes behind its erase")
    board.facts["erased"] = held.pop()
    return f"{seconds:.3f} s"


@row("erased-byte", "an erased place holds what the table says", "what an erased place holds", "blocks are left out that hold something",
     intent="erase", changes="the named pages")
def erased_byte(board):
    held, due = board.facts.get("erased"), board.model.erased
    if held is None:
        raise NotTried("no page was seen erased")
    if held not in (0x00, 0xFF):
        raise Differs(f"page {board.page} holds another byte than 00 and FF behind its erase")
    if held != due:
        # what is still to come is tried with the right one
        board.model.erased = held
        board.refusal = f"the table's `erased` is {due}, and it is {held}: give --table one that says so"
        raise Differs(f"{held:02X}, and not {due:02X}")


@row("write", "256 bytes in each block of P, and of Q, hold what was sent", "effect of a write", "images aren't what was sent",
     intent="write", changes="the named pages")
def write(board):
    for page in board.both():
        board.fill(page)
    board.expect("written", board.both())


@row("erase-only", "an erase of Q, and one of P, changes no other byte of the flash",
     "effect of an erase; the table's pages; the headline", "bytes that no journal keeps are lost", intent="erase",
     changes="the named pages; where it differs any page")
def erase_only(board):
    try:
        for page in board.both():
            board.erase(page)
            board.expect(f"page {page} was erased", None if page == board.page else board.both())
    except Differs:
        board.harm = board.harm or "an erase did something else than it was asked"
        raise


@row("ack-late", "what an erase acknowledges is done, and the next command is answered at once", "a reply comes behind its effect",
     "the next frame is lost", intent="erase", changes="the named pages")
def ack_late(board):
    board.fill(board.page)
    for number in range(TIMES):
        board.erase(board.page)
        begun = time.monotonic()
        board.talk("get behind an erase", [GET, GET ^ 0xFF])
        late = time.monotonic() - begun
        board.expect("right behind its erase", [board.page])
        if late < LATE + 4 * board.usual_time("get"):
            return f"{late:.3f} s"
    raise Differs(f"Get is answered {late:.3f} s behind the ACK of an erase, {number + 1} times of {TIMES}")


def write_sizes(board, sizes):
    """So many bytes at the beginning of one block each, as many blocks as a page has before the next erase."""
    chance, blocks = random.Random(1), list(board.blocks(board.page))
    for at, count in enumerate(sizes):
        if at % len(blocks) == 0:
            board.erase(board.page)
        # no code and its complement: bytes below 21 are complements of none
        board.write(blocks[at % len(blocks)], bytes(chance.randrange(0x21) for _ in range(count)))
        if at % len(blocks) == len(blocks) - 1 or at == len(sizes) - 1:
            board.expect(f"blocks of {', '.join(map(str, sizes))} bytes", [board.page])


@row("write-4", "4 bytes over erased ones can be written", "the frames of a page: any multiple of 4", "a page can't be put back",
     intent="write", changes="the named pages")
def write_4(board):
    write_sizes(board, SMALLEST)


@row("write-sizes", f"{', '.join(map(str, SIZES))} bytes over erased ones can be written", "the frames of a page: any multiple of 4",
     "a page can't be put back", intent="write", changes="the named pages")
def write_any(board):
    write_sizes(board, SIZES)


@row("write-gap", "some blocks written and one left out; the one stays erased, and data that look like commands are data",
     "effect of a write; blocks that are left out", "images aren't what was sent", intent="write", changes="the named pages")
def write_gap(board):
    blocks = board.blocks(board.page)
    for page in board.both():
        board.fill(page)
    board.erase(board.page)
    # no erase of everything, also for a board that takes them for commands
    for number, data in ((0, b"\x7f\x43\xbc\x44\xbb\x79\x1f\x00" * 8), (2, bytes(64)), (3, bytes(range(BLOCK)))):
        if number < len(blocks):
            board.write(blocks[number], data)
    board.expect("blocks with a gap", board.both())


@row("refuse-write", "a write whose check is wrong is refused, and changes nothing", "verdict of Write Memory",
     "a garbled image is written", intent="write", changes="the named pages")
def refuse_write(board):
    board.erase(board.page)
    for flip in (1, 0x80):
        board.step(WRITE)
        board.talk("address", board.address(board.model.starts[board.page]))
        board.talk("refusal", [63, *range(64), 63 ^ fold(range(64)) ^ flip], 2)
    board.hush()
    board.expect("a write was refused", [board.page])


@row("refuse-erase", "an erase whose check is wrong is refused, and changes nothing", "verdict of both erases",
     "a garbled page number is erased", intent="erase", changes="the named pages")
def refuse_erase(board):
    board.fill(board.page)
    for flip in (1, 0x40):
        board.step(board.code)
        board.talk("refusal", board.erase_frame(board.page, flip), 2)
    board.hush()
    board.expect("an erase was refused", board.both())


@row("page-absent", "an erase of a page that isn't there is refused, and changes nothing",
     "verdict of both erases: each page exists; settling inside them", "settling inside 44 BB erases another page",
     intent="erase", changes="P; where it differs any page")
def page_absent(board):
    count, byte = len(board.model.sizes), byte_of(board, "erase")
    board.fill(board.page)
    # what settling by P's byte names behind 44 BB is one of them
    pages = {count, byte << 8 | byte} if board.code == EXTENDED_ERASE else {count} - {256}
    acknowledged = []
    for page in sorted(page for page in pages if page >= count):
        board.step(board.code)
        board.put(board.erase_frame(page))
        came = board.line.read(1, 5, 1)
        if came not in (bytes([ACK]), bytes([NACK])):
            raise Differs(f"an erase of page {page}, which isn't there, is answered {len(came)} bytes that are neither 79 nor 1F")
        acknowledged += [page] if came[0] == ACK else []
    if not pages:
        raise NotTried("each byte is a page of this chip")
    board.hush()
    board.expect("a page that isn't there was named")
    if acknowledged:
        raise Odd(f"an erase of page {pages_told(acknowledged)}, which isn't there, is acknowledged, and changes nothing")


@row("busy", "bytes that are sent while it erases are taken", "a device takes each byte; settling's limits",
     "settling takes more bytes, and repeats less than its limit allows", NOTE, intent="erase", changes="the named pages")
def busy(board):
    byte = byte_of(board, "erase")
    board.is_touched = True
    board.step(board.code)
    due = board.put([*board.erase_frame(board.page), *[byte] * 8])
    came = board.line.read(len(due), 45, max(1, board.wait))
    settle(board, byte, 512)
    if came != bytes(due):
        board.facts["loses_while_busy"] = True
        raise Differs(f"of {len(due)} replies to an erase and four pairs behind it {len(came)} came")


@row("map", "each page's erase changes that page alone (--map: each page is used)", "effect of an erase; the table's pages",
     "bytes that no journal keeps are lost", intent="erase", changes="with --map every page")
def page_map(board):
    if not board.words.map:
        raise NotTried("without --map")
    board.words.pages = list(range(len(board.model.sizes)))
    for odd in (0, 1):
        for page in board.words.pages:
            board.fill(page)
        for page in board.words.pages[odd::2]:
            board.erase(page)
        board.expect("every second page was erased")
