"""Random images and uses, drawn from one source of chance a story."""

from hex_text import END, record
from program import KINDS, Use, others

TOP = 1 << 32
NAMES = ("info", "read", "crc", "write", "write", "write", "write", "verify", "erase", "erase", "undo", "undo")
MARKED_PAGES = (0, 1, 2, 5, 127, 128, 255, 256, 257, 258, 259, 511)


def draw_content(chance, chip, length):
    """So many bytes: erased ones, others alone, chance, or mostly erased."""
    kind = chance.randrange(5)
    if kind == 0:
        return bytes([chip.erased]) * length
    if kind == 1:
        return bytes([chance.choice((0x00, 0xFF, chip.erased ^ 0xFF, 0x5A))]) * length
    found = bytearray(chance.randbytes(length)) if kind < 4 else bytearray([chip.erased]) * length
    for _ in range(chance.randrange(4) if length > 0 else 0):
        at = chance.randrange(length)
        end = min(length, at + chance.randrange(300))
        found[at:end] = bytes([chip.erased]) * (end - at) if kind < 4 else chance.randbytes(end - at)
    return bytes(found)


def draw_page(chance, chip):
    page = chance.choice(MARKED_PAGES + (chip.pages() - 1,)) if chance.random() < 0.5 else chip.pages()
    return page if page < chip.pages() else chance.randrange(chip.pages())


def draw_address(chance, chip):
    """Mostly inside the flash, often near the edge of a page."""
    if chance.random() < 0.03:
        return chance.choice((chip.base - 1, min(chip.base + chip.size, TOP - 1), 0, TOP - 1))
    page = draw_page(chance, chip)
    size = chip.sizes[page]
    return chip.base + chip.starts[page] + chance.choice((0, size - 1, size - 2, chance.randrange(size), chance.randrange(size), 256 % size))


def draw_length(chance):
    return chance.choice((0, 1, 2, 3, 4, 5, 255, 256, 257, chance.randrange(40), chance.randrange(1200)))


def draw_piece(chance, chip, flash, start):
    """Bytes for these addresses: drawn, or those that stand there, with a few changed or none."""
    length, at = draw_length(chance), start - chip.base
    if chance.random() < 0.5 or at < 0 or at + length > chip.size:
        return draw_content(chance, chip, length)
    found = bytearray(flash[at:at + length])
    for _ in range(chance.randrange(3) if length > 0 else 0):
        found[chance.randrange(length)] ^= 1 << chance.randrange(8)
    return bytes(found)


def hex_text(chance, pieces):
    """A HEX text of pieces (address, bytes), not always the canonical one."""
    records = []
    for address, data in pieces:
        upper = None
        while data:
            if address >> 16 != upper:
                upper = address >> 16
                records.append(record(4, chance.choice((0, 0, 0x1234)), upper.to_bytes(2, "big")))
            step = min(chance.choice((16, 32, 255, 1)), len(data), 0x10000 - (address & 0xFFFF))
            records.append(record(0, address & 0xFFFF, data[:step]))
            address, data = address + step, data[step:]
    if chance.random() < 0.1:
        records.append(record(5, 0, chance.randbytes(4)))
    records = [one.rstrip(b"\n") for one in (*records, END)]
    text = b"".join((one.lower() if chance.random() < 0.1 else one) + chance.choice((b"\n", b"\n", b"\r\n", b"", b" \t\n")) for one in records)
    if chance.random() > 0.06:
        return text
    # rarely it is broken somewhere
    at = chance.randrange(len(text))
    return chance.choice((text[:at], text[:at] + b"0" + text[at + 1:], text[:at] + b"x" + text[at:], text + b"junk"))


def draw_image(chance, chip, flash):
    """A file, and what else its use says: HEX, or raw bytes with their place or without."""
    if chance.random() < 0.5:
        starts = (draw_address(chance, chip) for _ in range(chance.choice((0, 1, 1, 1, 2, 3))))
        text = hex_text(chance, [(start, draw_piece(chance, chip, flash, start)[:TOP - start]) for start in starts])
        given = {"force": True} if chance.random() < 0.02 else {}
        if chance.random() < 0.02:
            given["range"] = (chip.base, None)
        return text, given
    if chance.random() < 0.4:
        return draw_piece(chance, chip, flash, chip.base), {"force": chance.random() < 0.5}
    start = draw_address(chance, chip)
    text = draw_piece(chance, chip, flash, start)
    length = chance.choice((None, None, len(text), len(text) + 5, max(len(text) - 1, 0)))
    return text, {"force": chance.random() < 0.8, "range": (start, length)}


def draw_part(chance, chip):
    """A part of the flash by its range; none is all of it."""
    kind = chance.randrange(10)
    if kind == 0 and chip.size <= 32768:
        return None
    start = draw_address(chance, chip)
    left = chip.base + chip.size - start
    if kind == 1 and 0 < left <= 4096:
        return start, None
    length = draw_length(chance)
    return start, length if kind == 2 else max(min(length, left), 0)


def draw_info(*_):
    return Use("info")


def draw_read(chance, chip):
    out = chance.choice(("OUT", "OUT", "OUT.hex"))
    as_hex = chance.random() < 0.3
    blank = chance.random() < (0.5 if as_hex or out == "OUT.hex" else 0.02)
    return Use("read", range=draw_part(chance, chip), out=out, hex=as_hex, skip_blank=blank)


def draw_crc(chance, chip):
    """Mostly whole words."""
    part = draw_part(chance, chip)
    if part is not None and chance.random() < 0.9:
        start, length = part
        part = start // 4 * 4, length and length // 4 * 4
    return Use("crc", range=part)


def draw_erase(chance, chip):
    if chance.random() < 0.03:
        return Use("erase", all=chance.random() < 0.5)
    if chance.random() < 0.1 and chip.pages() <= 8:
        return Use("erase", all=True)
    pages = [draw_page(chance, chip) for _ in range(chance.choice((1, 1, 1, 2, 3)))]
    return Use("erase", pages=pages + [chip.pages()] * (chance.random() < 0.03))


def draw_undo(chance, _):
    count = chance.choice((None, None, 0, 1, 1, 2, 100, "change"))
    return Use("undo", to_change=True) if count == "change" else Use("undo", count=count)


def draw_leave(chance, chip):
    return Use("go", address=draw_address(chance, chip)) if chance.random() < 0.5 else Use("protect", kind=chance.choice(sorted(KINDS)))


def draw_sequel(chance, chip, is_gone, name):
    """What follows a write: nothing most of the time. To a device that is gone it is often to be done again, but once: a session
    with it settles to the end."""
    found = {}
    if chance.random() < (0.8 if is_gone else 0.12):
        found["again"] = 1 if is_gone else chance.choice((0, 1001, 1, 2, 1000))
    kind = chance.random()
    found["keep"] = kind < 0.15
    if 0.12 < kind < 0.35:
        found["to"] = chance.choice(("K",) * 20 + others(name) + ("none/K",))
    if chance.random() < (0.5 if kind < 0.35 else 0.01):
        found["go"] = chance.choice((chip.base, chip.base, draw_address(chance, chip)))
    return found


def draw_wanted(chance, chip):
    """The digits of a board that is wanted: those of this one, or its last ones, or others."""
    digits = chip.unique.hex() or "%024x" % chance.getrandbits(96)
    kind = chance.random()
    if kind < 0.7:
        found = digits[chance.choice((0, 0, -1, -2, -8, chance.randrange(len(digits)))):]
    elif kind < 0.97:
        found = chance.choice((digits[:-1], "0" + digits, digits[:-1] + "%x" % (int(digits[-1], 16) ^ 1), digits[:6], digits * 4))
    else:
        found = chance.choice(("", "0x" + digits, "g", digits + " "))
    return chance.choice((found, found.upper(), found.lower()))


def draw_use(chance, chip, flash, unfinished, is_gone, allowed, name):
    """A use of the simulator of this name, and the image's file where it has one."""
    use, image = draw_task(chance, chip, flash, unfinished, is_gone, allowed, name)
    use.file = name
    if chance.random() < 0.12:
        use.board = draw_wanted(chance, chip)
    use.no_board = chance.random() < (0.02 if use.board is not None else 0.05)
    use.trusts = chance.random() < 0.1
    return use, image


def draw_task(chance, chip, flash, unfinished, is_gone, allowed, file):
    if unfinished and chance.random() < 0.75:
        name = "undo"
    elif is_gone and chance.random() < 0.5:
        name = "write"
    else:
        name = chance.choice(NAMES)
        name = "leave" if chance.random() < 0.03 else name
    if allowed is not None and name not in allowed:
        name = chance.choice(allowed)
    if name not in ("write", "verify"):
        return globals()["draw_" + name](chance, chip), None
    text, given = draw_image(chance, chip, flash)
    is_placed = given.get("range") or text.startswith(b":") and not given.get("force")
    if is_placed and chance.random() < 0.2:
        start = draw_address(chance, chip)
        given["second"] = start, draw_piece(chance, chip, flash, start)
    if name == "write":
        given.update(draw_sequel(chance, chip, is_gone, file), verify=chance.random() < 0.3)
    return Use(name, image="I", **given), text
