"""Images: HEX texts of docs/FORMATS.md, raw bytes, and the CRC of some. An image is a dict of address to byte."""

import itertools

from hex_text import END, record

SPACES = b"\r\n \t"
DIGITS = b"0123456789abcdefABCDEF"
TOP = 1 << 32
LENGTHS = {1: 0, 2: 2, 3: 4, 4: 2, 5: 4}


class ImageFault(Exception):
    pass


def read_raw(text, start):
    if start + len(text) > TOP:
        raise ImageFault("image past the end")
    return {start + place: byte for place, byte in enumerate(text)}


def read_hex(text):
    """The image, up to the end record."""
    image, segment, linear, at = {}, None, 0, 0
    for count in itertools.count(1):
        at = len(text) - len(text[at:].lstrip(SPACES))

        def need(is_so, name):
            if not is_so:
                raise ImageFault("hex record %d: %s" % (count, name))

        need(at < len(text), "no end")
        need(text[at] == ord(":"), "no colon")
        record = bytearray()
        while len(record) < (record[0] + 5 if record else 1):
            for place in (at + 1, at + 2):
                need(place < len(text), "short")
                need(text[place] in DIGITS, "bad digit")
            record.append(int(text[at + 1:at + 3], 16))
            at += 2
        at += 1
        offset, kind, data = record[1] << 8 | record[2], record[3], record[4:-1]
        need(sum(record) % 256 == 0, "checksum")
        need(kind <= 5, "type")
        need(LENGTHS.get(kind, len(data)) == len(data), "length")
        if kind == 1:
            return image
        if kind in (2, 4):
            segment, linear = (int.from_bytes(data, "big"), linear) if kind == 2 else (None, int.from_bytes(data, "big"))
        for index, byte in enumerate(data if kind == 0 else b""):
            address = (linear * 65536 + offset + index) % TOP if segment is None else segment * 16 + (offset + index) % 65536
            need(image.setdefault(address, byte) == byte, "conflict")


def write_hex(image, blank=None):
    """The canonical text; with a blank byte the one of what stays where its lines that hold nothing else are left out."""
    found, upper, lines = [], 0, []
    # each data record: runs, cut also where the upper sixteen bits change, and then by 16 bytes
    for address in sorted(image):
        if not lines or address != lines[-1][0] + len(lines[-1][1]) or len(lines[-1][1]) == 16 or address % 65536 == 0:
            lines.append((address, bytearray()))
        lines[-1][1].append(image[address])
    for start, data in lines:
        if blank is not None and set(data) == {blank}:
            continue
        if start >> 16 != upper:
            upper = start >> 16
            found.append(record(4, 0, upper.to_bytes(2, "big")))
        found.append(record(0, start & 0xFFFF, data))
    return b"".join(found) + END


def crc(data):
    """The number that the chip's unit has for these words of four bytes, the low byte first; bit by bit."""
    value = 0xFFFFFFFF
    for at in range(0, len(data), 4):
        value ^= int.from_bytes(data[at:at + 4], "little")
        for _ in range(32):
            value = (value << 1 ^ (0x04C11DB7 if value >> 31 else 0)) & 0xFFFFFFFF
    return value
