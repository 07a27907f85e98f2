"""Rows that read the flash. The first of them saves it, and no row that changes something stands before that."""

import time

import saved
from board import BLOCK, pages_told
from faults import Differs, NotTried
from model import ACK, READ
from row import NOTE, row
from settling import recover

# reads that may fail before the flash counts as one that can't be read; how much of it is read twice
MOST_LOST, AGAIN = 20, 65536
# seconds that a reading of the whole flash may take without --patient
LONG = 300
# where the flash's size stands, in KiB, by the ids of its family: from memory of the reference manuals, and not looked up
SIZE_REGISTERS = {
    0x1FFFF7E0: {0x410, 0x412, 0x414, 0x418, 0x420, 0x428, 0x430},
    0x1FFFF7CC: {0x422, 0x432, 0x438, 0x439, 0x440, 0x442, 0x444, 0x445, 0x446, 0x448},
    0x1FFF7A22: {0x411, 0x413, 0x419, 0x421, 0x423, 0x431, 0x433, 0x434, 0x441, 0x458, 0x463},
    0x1FFF75E0: {0x415, 0x435, 0x456, 0x460, 0x461, 0x462, 0x464, 0x466, 0x467, 0x468, 0x469, 0x470, 0x479},
    0x1FF8004C: {0x416, 0x429}, 0x1FF1E880: {0x450}, 0x1FF0F442: {0x449, 0x451},
}


@row("save", "each block of the flash can be read, 256 bytes at a time, and none is lost", "Read Memory; what a journal keeps", "the journal can't keep a page")
def save(board):
    model, data, lost, begun = board.model, bytearray(), [], time.monotonic()
    for at in range(0, model.size, BLOCK):
        board.progress.show(at)
        if at == 8 * BLOCK and not board.words.patient and (time.monotonic() - begun) * model.size / at > LONG:
            raise NotTried(f"a reading takes {(time.monotonic() - begun) * model.size / at / 60:.0f} minutes: --patient")
        data += read_block(board, at, lost)
    saved.store(board.words.save, data)
    board.saved = bytes(data)
    if lost:
        board.refusal = board.harm = "bytes are lost: a lower --baud, another cable or adapter, and try again"
        raise Differs(f"of {model.size // BLOCK} reads {len(lost)} failed at first: {lost[0]}")
    return f"{model.size} bytes"


def read_block(board, at, lost):
    """A block, which is read once more where the first reading fails."""
    for _ in range(2):
        try:
            return board.read(at, BLOCK)[0]
        except Differs as error:
            lost.append(str(error))
            recover(board, "ask")
            if len(lost) > MOST_LOST:
                break
    board.refusal = f"from {board.model.base + at:08X} on it can't be read, " + (
        "and the table has more flash: count this part's pages" if at else "which may be a protection")
    raise Differs(f"{board.model.base + at:08X} can't be read: {lost[-1]}")


@row("read-again", "64 KiB and the named pages hold the same bytes when they are read again", "parity is the only guard of a read",
     "the journal keeps wrong bytes")
def read_again(board):
    if board.saved is None:
        raise NotTried("the flash wasn't saved")
    wrong = board.compare([page for page, start in enumerate(board.model.starts) if start < AGAIN or page in board.words.pages])
    if wrong:
        board.harm = "what is read can't be trusted"
        raise Differs(f"page {pages_told(wrong)} has other bytes when it is read again")


@row("read-sizes", "1, 2, 3, 4, 128, 255 and 256 bytes can be read, from any place of a page", "Read Memory", "a part can't be read")
def read_sizes(board):
    start, size = board.model.starts[board.page], board.model.sizes[board.page]
    places = ((1, 0), (2, 1), (3, 3), (4, 4), (128, 200 % (size - 127)), (255, 1), (255, 0), (256, 0), (256, size - 256), (1, size - 1))
    for count, at in places:
        if at + count > size:
            continue
        got, before = board.read(start + at, count)
        if any(want not in (None, byte) for want, byte in zip(before, got)):
            raise Differs(f"{count} bytes from {at} on of page {board.page} aren't what the whole reading has")


@row("size", "the first and the last byte can be read, and what lies before and behind the flash is refused",
     "an address outside is refused; the table's base and pages", "the table has another flash than this part: count its pages")
def size(board):
    board.read(0, 1)
    board.read(board.model.size - 1, 1)
    for at in (board.model.size, -1):
        board.step(READ)
        board.talk("refusal", board.address(at), 2)


@row("size-register", "the register of the flash's size has the table's, where it is known and can be read", "the table's pages",
     "the table has another flash than this part: count its pages", NOTE)
def size_register(board):
    at = next((at for at, numbers in SIZE_REGISTERS.items() if board.model.number in numbers), None)
    if at is None:
        raise NotTried("where it stands isn't known")
    board.step(READ)
    # outside the flash the model refuses each address, and a bootloader may read it
    address = board.address(at - board.model.base)
    board.line.write(bytes(address))
    came = board.line.read(1, 5, 1)
    board.model.rest.clear()
    if came != bytes([ACK]):
        raise NotTried(f"{at:08X} can't be read")
    board.line.write(bytes([1, 0xFE]))
    came = board.line.read(3, 5, 1)
    kib = int.from_bytes(came[1:], "little") if len(came) == 3 and came[0] == ACK else 0
    if kib * 1024 != board.model.size:
        raise Differs(f"it says {kib} KiB, and the table {board.model.size // 1024}")
    return f"{kib} KiB"
