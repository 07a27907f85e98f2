"""Intel HEX, as far as it is needed here: where an image begins, how long it is, and its text with other addresses.

What is written stmflash reads itself, from this text or the one that is made here, and decides what it means.
"""

import re

from .fault import Fault

RECORD, DIGITS = re.compile(rb":([0-9A-Fa-f]{2})"), re.compile(rb"[0-9A-Fa-f]*")


def read(text):
    """The pieces of an image, each an address and its bytes, in the text's order."""
    pieces, upper, segment = [], 0, None
    for count, record in enumerate(records(text), 1):
        kind, offset, data = record[3], int.from_bytes(record[1:3], "big"), record[4:-1]
        if kind == 0:
            # what goes on past the end begins anew at 0, and so does no image of a flash
            if offset + len(data) > 65536 if segment is not None else upper + offset + len(data) > 1 << 32:
                raise bad(f"record {count}: passes the end of its addresses")
            pieces.append(((upper if segment is None else segment) + offset, data))
        elif kind == 1:
            return [piece for piece in pieces if piece[1]]
        elif kind == 2 and len(data) == 2:
            segment = int.from_bytes(data, "big") * 16
        elif kind == 4 and len(data) == 2:
            upper, segment = int.from_bytes(data, "big") << 16, None
        elif kind not in (3, 5):
            raise bad(f"record {count}: of no known kind or length")
    raise bad("no record ends it")


def bad(text):
    return Fault(f"Intel HEX ERROR: Invalid File\n{text}; -f takes the file as raw bytes")


def records(text):
    """Each record's bytes, its checksum among them."""
    at, count = 0, 1
    while True:
        while text[at:at + 1] in (b"\r", b"\n", b" ", b"\t"):
            at += 1
        if at == len(text):
            return
        begin = RECORD.match(text, at)
        end = at + 11 + 2 * int(begin[1], 16) if begin else at
        digits = text[at + 1:end]
        if not begin or end > len(text) or not DIGITS.fullmatch(digits):
            raise bad(f"record {count}: is none")
        record = bytes.fromhex(digits.decode("ascii"))
        if sum(record) % 256:
            raise bad(f"record {count}: checksum")
        yield record
        at, count = end, count + 1


def span(pieces):
    """The address of the first byte, and of the one behind the last."""
    if not pieces:
        return 0, 0
    return min(at for at, _ in pieces), max(at + len(data) for at, data in pieces)


def moved(pieces, by, end):
    """The text of these pieces at addresses that are greater by a number, without what lies at `end` or behind it then."""
    lines = []
    for at, data in pieces:
        at += by
        data = data[:max(0, end - at)]
        if data:
            lines += [record(4, 0, (at >> 16).to_bytes(2, "big")), record(0, at % 65536, data)]
    return b"".join([*lines, record(1, 0, b"")])


def record(kind, offset, data):
    whole = bytes([len(data)]) + offset.to_bytes(2, "big") + bytes([kind]) + data
    return b":" + (whole + bytes([-sum(whole) % 256])).hex().encode("ascii") + b"\n"
