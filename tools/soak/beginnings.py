"""What a story begins with: a chip, a table, and files, drawn from its source of chance."""

from device import Chip
import wire

SIZES = (256, 256, 256, 512, 768, 1024, 2048)
COUNTS = (1, 2, 3, 4, 8, 16, 32, 128, 255, 256)
MORE_COUNTS = COUNTS + (257, 258, 259, 300, 512, 512)
GREATEST_FLASH = 131072
TOP = 1 << 32
# what a table says of a board that was tried
TRIED = 'part = "a", version = "22", who = "b", when = "c", verdict = "d", file = "e"'


def draw_chip(chance, number):
    extended = chance.random() < 0.5
    count = chance.choice(MORE_COUNTS if extended else COUNTS)
    if count > 32 or chance.random() < 0.5:
        sizes = [256 if count > 128 else chance.choice(SIZES[:5])] * count
    else:
        sizes = [chance.choice(SIZES) for _ in range(count)]
    if chance.random() < 0.15:
        # a family: 128 pages of which the smaller kinds have 64 or fewer, and the like
        sizes = list(chance.choice(([1024] * 128, [2048] * 64, [4096] * 4 + [16384] * 3 + [65536])))
    while sum(sizes) > GREATEST_FLASH:
        sizes.pop()
    last = TOP - sum(sizes)
    base = chance.choice((0x08000000, 0x08000000, 0x01000000, last, chance.randrange(0x01000000, last + 1) // 256 * 256))
    places = draw_places(chance, base, base + sum(sizes)) if chance.random() < 0.8 else (None, None)
    return Chip(number, base, sizes, extended, chance.choice((0xFF, 0x00)), *places)


def draw_places(chance, base, end):
    """Where it tells its unique id and its size, or one of them: mostly somewhere else, also at an edge of the flash, or at one place."""
    def draw(length):
        drawn = (0x1FFFF7E8, 0x1FFFF7E0, 0, base - length, end, TOP - length, chance.randrange(TOP - length))
        return chance.choice([at for at in drawn if at + length <= TOP and (at + length <= base or end <= at)])

    length = chance.choice((12, 12, 12, 8, 24, 32))
    unique = draw(length)
    size = unique if chance.random() < 0.1 else draw(2)
    kind = chance.random()
    return (unique, length) if kind < 0.9 else None, size if not 0.7 < kind < 0.9 else None


def draw_unique(chance, chip, other):
    """A unique id, of this chip or of another length, often as that of the other board but in one byte; blank ones."""
    length = chip.unique_at[1] if chip.unique_at is not None and chance.random() < 0.95 else chance.randrange(8, 33)
    kind = chance.random()
    if kind < 0.12:
        return bytes([chance.choice((0x00, 0xFF))]) * length
    if other and kind < 0.2:
        return other
    if other and kind < 0.6:
        found = bytearray(other)
        found[chance.choice((0, -1, chance.randrange(len(found))))] ^= 1 << chance.randrange(8)
        return bytes(found)
    return chance.choice((b"", b"\x00", b"\xff")).join((b"", chance.randbytes(length)))[:length]


def draw_board(chance, chip, other):
    """The text that says which board a simulator is, and how large its flash. None is a missing file."""
    if chance.random() < 0.08:
        return None
    lines = []
    if chance.random() < 0.9:
        digits = draw_unique(chance, chip, other).hex()
        lines.append("unique %s\n" % chance.choice((digits, digits.upper())))
    if chance.random() < 0.6:
        half = chip.size // 2048
        any_size = chance.randrange(2 * half + 3)
        lines.append("size %d\n" % chance.choice((half, half, half // 2, chip.size // 1024, 1, 0, 99999, any_size)))
    chance.shuffle(lines)
    text = "".join(lines).encode()
    if chance.random() < 0.01:
        return chance.choice((text + b"x\n", text + b"unique 12\n", b" " + text, text + b"size\n", text + b"size 100000\n",
                              text + 257 * b"\n"))
    return text.rstrip(b"\n") if chance.random() < 0.1 else text


def table_text(chance, chips):
    text = ""
    for chip in chips:
        runs = []
        for size in chip.sizes:
            if runs and runs[-1][1] == size and chance.random() < 0.95:
                runs[-1][0] += 1
            else:
                runs.append([1, size])
        text += "[[chip]]\nid = 0x%X\nbase = 0x%08X\npages = %s\n" % (chip.number, chip.base, runs)
        text += 'erase = "%s"\n' % ("extended" if chip.extended else "page")
        if chip.erased != 0xFF or chance.random() < 0.3:
            text += "erased = %d\n" % chip.erased
        if chip.unique_at is not None:
            text += "unique = [0x%08X, %d]\n" % chip.unique_at
        if chip.size_at is not None:
            text += "size_at = 0x%08X\n" % chip.size_at
        real, simulated = chip.tried()
        boards = real * ["{ %s }" % TRIED] + simulated * ["{ %s, simulated = true }" % TRIED]
        # it may be left out where there is none
        text += "tried = [%s]\n" % ", ".join(boards) if boards else ""
    return text.encode()


def draw_rest(chance, chip):
    """What a device may have been left with, by this host or another: the start of some frame; seldom no such thing."""
    base, erase = bytes(wire.placed(chip.base)), bytes(wire.pair(chip.erase_code()))
    frame = chance.choice((
        b"\x11\xEE" + base + b"\3",
        b"\x31\xCE" + base + b"\3\1\2\3",
        erase + (b"\0\0\0\0" if chip.extended else b"\0\1"),
        erase + (b"\0\1\0\2" if chip.extended else b"\3\1"),
        bytes([chance.randrange(256)]),
        chance.randbytes(chance.randrange(1, 5))))
    return frame[:chance.randrange(1, len(frame) + 1)]


def draw_line(chance, chip):
    """None is a missing file, a device that was reset."""
    kind = chance.random()
    for most, line in ((0.6, None), (0.75, b"idle\n"), (0.8, b"fresh\n"), (0.805, b"gone\n")):
        if kind < most:
            return line
    if kind < 0.82:
        return chance.choice((b"rest \n", b"idle", b"rest 1\n", b"", b"rest 11ee\n", b"idle\n\n", b"rest 11EEFF\n"))
    return b"rest %s\n" % draw_rest(chance, chip).hex().upper().encode()


def draw_journal(chance, chip):
    """None is a missing file. Mostly a session begins with no journal."""
    kind, one, two, three = chance.random(), *(b"stmjournal %d %04X" % (version, chip.number) for version in (1, 2, 3))
    if kind < 0.92:
        return None if kind < 0.85 else one + b"\n"
    # how a header may end that names a board: as this one, or another, or as none may
    digits = (chip.unique or chance.randbytes(12)).hex().upper().encode()
    other, page = b"%02X" % (int(digits[:2], 16) ^ 1) + digits[2:], b"\nopen 1\npage 0 %s" % (b"5A" * chip.sizes[0])
    ends = (digits, other, digits + b"00", digits.lower(), digits[:14], digits + b" ", digits[:-1], digits * 9, digits + page + b"\nend 1",
            other + page + b"\nerase 0")
    return chance.choice((
        b"", two + b"\n", b"stmjournal 2 %04X\n" % (chip.number ^ 1), three + b"\n", *(three + b" %s\n" % end for end in ends),
        two + b"\nopen 1\npage 0 FF\nend 1\n", two + b"\nopen 1\npage 1 %s\nend 1\n" % (b"00" * chip.sizes[-1]),
        one + b"\nopen 1\npage 0 %s" % (b"FF" * (chip.sizes[0] // 2)), two + b"\nopen 2\n", b"stmjour", b"stmj!\n"))
