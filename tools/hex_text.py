"""Texts of Intel HEX, for the tools, tests and benches that need one."""

END = b":00000001FF\n"


def record(kind, offset, data):
    body = bytes([len(data), offset >> 8, offset & 0xFF, kind]) + data
    return b":" + (body + bytes([-sum(body) & 0xFF])).hex().upper().encode() + b"\n"


def text_of(data, start, places, width=16):
    """The records of the data at these places, the first at `start`, in this order; before one whose upper half is another stands one of type 04."""
    lines, upper = [], 0
    for place in places:
        address = start + place
        if address >> 16 != upper:
            upper = address >> 16
            lines.append(record(4, 0, upper.to_bytes(2, "big")))
        lines.append(record(0, address & 0xFFFF, data[place:place + width]))
    return b"".join(lines) + END
