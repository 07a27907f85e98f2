"""The device of docs/MODEL.md, with the free choices that the simulator makes: of all tests and tools here. A board that does something
otherwise overrides that step. It shares no code with stmflash's simulator, nor with the model by which the companions judge."""

from collections import deque
import functools
from itertools import accumulate
import operator

ACK, NACK, CONNECT = 0x79, 0x1F, 0x7F
GET, GET_VERSION, GET_ID, READ, GO, WRITE, ERASE, EXTENDED_ERASE = 0x00, 0x01, 0x02, 0x11, 0x21, 0x31, 0x43, 0x44
WRITE_UNPROTECT, READOUT_PROTECT, READOUT_UNPROTECT = 0x73, 0x82, 0x92
PROTECTIONS = (WRITE_UNPROTECT, READOUT_PROTECT, READOUT_UNPROTECT)

FRESH, CONNECTED, GONE = "fresh", "connected", "gone"

# what a byte makes of the rest: nothing yet, the end of a step, or a verdict
OPEN, STEP, REFUSED, DONE = "open", "step", "refused", "done"


class Chip:
    """A chip of the table: where its flash begins, how its pages lie, how they are erased and what they hold then; where it tells
    its board, by an address and how many bytes, and the size of its flash. That of a device has its unique id too, or no byte."""

    def __init__(self, number, base, sizes, extended, erased, unique_at=None, size_at=None, unique=b""):
        self.number, self.base, self.sizes, self.extended, self.erased = number, base, sizes, extended, erased
        self.unique_at, self.size_at, self.unique = unique_at, size_at, unique
        *self.starts, self.size = accumulate(sizes, initial=0)

    def pages(self):
        return len(self.sizes)

    def has(self, address, length):
        """Whether so many bytes from the address on lie in the flash."""
        return self.base <= address and address + length <= self.base + self.size

    def tried(self):
        """How many real boards with this chip the table says were tried, and how many simulated ones."""
        return self.number % 4, self.number // 4 % 2

    def without_places(self):
        return Chip(self.number, self.base, self.sizes, self.extended, self.erased)

    def of_board(self, unique, kib):
        """The chip of a device with this unique id, and with the pages that lie inside so many KiB; None, or where no page lies inside: with all."""
        inside = [size for start, size in zip(self.starts, self.sizes) if kib is None or start + size <= 1024 * kib]
        return Chip(self.number, self.base, inside or self.sizes, self.extended, self.erased, self.unique_at, self.size_at, unique)

    def first_pages(self, count):
        return Chip(self.number, self.base, self.sizes[:count], self.extended, self.erased, self.unique_at, self.size_at, self.unique)

    def told(self):
        """What the device tells beside its flash, by the address and the length of a read."""
        found = {self.unique_at: self.unique} if self.unique_at is not None and self.unique_at[1] == len(self.unique) else {}
        return found | ({(self.size_at, 2): (self.size // 1024).to_bytes(2, "little")} if self.size_at is not None else {})

    def part(self, page):
        """The places of a page, counted from the flash's first byte."""
        return slice(self.starts[page], self.starts[page] + self.sizes[page])

    def erase_code(self):
        return EXTENDED_ERASE if self.extended else ERASE

    def codes(self):
        return [GET, GET_ID, READ, GO, WRITE, self.erase_code(), *PROTECTIONS]

    def version(self):
        return 0x31 if self.extended else 0x22

    def entry(self):
        """Its entry in a chip table, where all pages are of one size."""
        told = "unique = [0x%08X, %d]\n" % self.unique_at if self.unique_at else ""
        return (f"[[chip]]\nid = 0x{self.number:04X}\nbase = 0x{self.base:08X}\npages = [[{self.pages()}, {self.sizes[0]}]]\n"
                f'erase = "{"extended" if self.extended else "page"}"\nerased = {self.erased}\n{told}')


def exclusive_or(numbers):
    return functools.reduce(operator.xor, numbers, 0)


def number(parts):
    """The number of these bytes, the high one first."""
    return int.from_bytes(bytes(parts), "big")


def named_pages(rest):
    """The pages that a whole erase frame names, its count and its check left away."""
    return list(rest[3:-1]) if rest[0] == ERASE else [number(rest[at:at + 2]) for at in range(4, len(rest) - 1, 2)]


class Device:
    def __init__(self, chip, flash):
        self.chip, self.flash = chip, bytearray(flash)
        self.codes, self.version = chip.codes(), chip.version()
        self.phase, self.rest, self.owed = FRESH, bytearray(), deque()

    def reset(self):
        self.phase = FRESH
        self.rest.clear()
        self.owed.clear()

    def feed(self, byte):
        if self.phase == FRESH:
            self.connect(byte)
            return
        if self.phase == GONE:
            return
        self.rest.append(byte)
        said = self.judge(self.rest)
        rest = bytes(self.rest)
        if said not in (OPEN, STEP):
            self.rest.clear()
        if said == REFUSED:
            self.owed.append(NACK)
        elif said in (STEP, DONE):
            self.acknowledge()
        if said == DONE:
            self.do(rest)

    def connect(self, byte):
        if byte == CONNECT:
            self.phase = CONNECTED
            self.owed.append(ACK)

    def acknowledge(self):
        self.owed.append(ACK)

    def judge(self, rest):
        """What the last byte of the rest makes of it."""
        code = rest[0]
        if len(rest) == 2:
            return self.judge_code(code, rest[1])
        if len(rest) > 2 and code in (ERASE, EXTENDED_ERASE):
            return self.judge_erase(rest)
        if len(rest) < 7:
            return OPEN
        return self.judge_address(rest) if len(rest) == 7 else self.judge_read(rest) if code == READ else self.judge_write(rest)

    def judge_code(self, code, complement):
        if complement != code ^ 0xFF or code not in self.codes:
            return REFUSED
        return DONE if code in (GET, GET_VERSION, GET_ID, *PROTECTIONS) else STEP

    def judge_address(self, rest):
        address = number(rest[2:6])
        right = self.chip.has(address, 1) or rest[0] == READ and address in [at for at, _ in self.told()]
        if not right or exclusive_or(rest[2:6]) != rest[6]:
            return REFUSED
        return DONE if rest[0] == GO else STEP

    def judge_read(self, rest):
        if len(rest) < 9:
            return OPEN
        address, length = number(rest[2:6]), rest[7] + 1
        right = self.chip.has(address, length) or (address, length) in self.told()
        return DONE if right and rest[8] == rest[7] ^ 0xFF else REFUSED

    def judge_write(self, rest):
        if len(rest) < 8 + rest[7] + 1 + 1:
            return OPEN
        right = exclusive_or(rest[7:]) == 0 and self.chip.has(number(rest[2:6]), rest[7] + 1)
        return DONE if right else REFUSED

    def judge_erase(self, rest):
        """Erase and Extended Erase: a count, pages, a check; the greatest counts have the check at once."""
        width = 1 if rest[0] == ERASE else 2
        if len(rest) < 2 + width:
            return OPEN
        count = number(rest[2:2 + width])
        special = count == 0xFF if width == 1 else count >= 0xFFF0
        if len(rest) < (2 + width + 1 if special else 2 + width + width * (count + 1) + 1):
            return OPEN
        if special:
            everything = count == (0xFF if width == 1 else 0xFFFF) and rest[-1] == 0
            return DONE if everything else REFUSED
        return DONE if exclusive_or(rest[2:]) == 0 and all(map(self.has_page, named_pages(rest))) else REFUSED

    def has_page(self, page):
        return page < self.chip.pages()

    def told(self):
        """What it tells beside its flash."""
        return self.chip.told()

    def do(self, rest):
        """A done frame's replies behind its acknowledgement, and its effect."""
        code = rest[0]
        if code in (GET, GET_VERSION, GET_ID):
            self.answer(code)
        elif code == READ:
            self.owed.extend(self.read(number(rest[2:6]), rest[7] + 1))
        elif code == GO:
            self.phase = GONE
        elif code == WRITE:
            self.write(number(rest[2:6]) - self.chip.base, rest[8:-1])
        elif code in (ERASE, EXTENDED_ERASE):
            self.erase(rest)
        else:
            self.owed.append(ACK)
            self.phase = FRESH
            if code == READOUT_UNPROTECT:
                self.flash[:] = bytes([self.chip.erased]) * self.chip.size

    def answer(self, code):
        told = {GET: [len(self.codes), self.version, *self.codes], GET_VERSION: [self.version, 0, 0],
                GET_ID: [1, *self.chip.number.to_bytes(2, "big")]}
        self.owed.extend([*told[code], ACK])

    def read(self, address, length):
        if not self.chip.has(address, length):
            return self.told()[address, length]
        at = address - self.chip.base
        return self.flash[at:at + length]

    def write(self, at, data):
        for at, byte in enumerate(data, at):
            self.flash[at] = self.flash[at] & byte if self.chip.erased == 0xFF else self.flash[at] | byte

    def named_pages(self, rest):
        """The same, or all pages."""
        return range(self.chip.pages()) if len(rest) == (4 if rest[0] == ERASE else 5) else named_pages(rest)

    def erase(self, rest):
        for page in self.named_pages(rest):
            self.wipe(page)

    def wipe(self, page):
        self.flash[self.chip.part(page)] = bytes([self.chip.erased]) * self.chip.sizes[page]
