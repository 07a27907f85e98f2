"""What docs/MODEL.md says of each byte that a bootloader gets: which replies are due, and what becomes of its flash.

The trial and the watch feed it each byte before the byte is sent. It shares no code with stmflash's simulator.
"""

ACK, NACK, CONNECT = 0x79, 0x1F, 0x7F
GET, GET_VERSION, GET_ID, READ, WRITE, ERASE, EXTENDED_ERASE = 0x00, 0x01, 0x02, 0x11, 0x31, 0x43, 0x44
# what is known here of the codes that a device may list
KNOWN = frozenset({GET, GET_VERSION, GET_ID, READ, WRITE, ERASE, EXTENDED_ERASE})
# counts of pages from here on mean everything, or something that the model leaves open
FIRST_SPECIAL = {ERASE: 0xFF, EXTENDED_ERASE: 0xFFF0}


def fold(data):
    """The exclusive-or of some bytes."""
    folded = 0
    for byte in data:
        folded ^= byte
    return folded


class Model:
    """A connected or fresh device. A byte of the flash that isn't known, and a byte of a reply that isn't, is None. What it makes
    of other commands and of counts of pages that mean everything, others say: `judge_other` and `judge_special`."""

    def __init__(self, number, chip, version, codes):
        self.number, self.version, self.codes = number, version, codes
        self.base, self.erased = chip["base"], chip.get("erased", 0xFF)
        self.sizes = [size for count, size in chip["pages"] for _ in range(count)]
        self.starts = [sum(self.sizes[:page]) for page in range(len(self.sizes))]
        self.size = sum(self.sizes)
        self.flash = [None] * self.size
        self.fresh, self.rest = False, bytearray()

    def page(self, number):
        """Where a page lies in the flash."""
        return slice(self.starts[number], self.starts[number] + self.sizes[number])

    def forget(self, page):
        """Nothing is known of this page any more."""
        self.flash[self.page(page)] = [None] * self.sizes[page]

    def reset(self):
        self.fresh, self.rest = True, bytearray()

    def feed(self, byte):
        """The replies to a byte. Nothing is fed where a judge raises."""
        if self.fresh:
            self.fresh = byte != CONNECT
            return [] if self.fresh else [ACK]
        rest = self.rest + bytes([byte])
        is_verdict, replies = self.judge(rest)
        self.rest = bytearray() if is_verdict else rest
        return replies

    def judge(self, rest):
        """Whether a rest has its verdict, and what its last byte is answered."""
        code = rest[0]
        if len(rest) == 1:
            return False, []
        if len(rest) == 2:
            return self.judge_code(code, rest[1])
        if code in (READ, WRITE):
            return self.judge_address(rest) if len(rest) <= 7 else self.judge_bytes(rest)
        return self.judge_pages(rest)

    def judge_code(self, code, complement):
        if complement != code ^ 0xFF or code not in self.codes:
            return True, [NACK]
        if code not in KNOWN:
            return self.judge_other(code)
        if code == GET:
            return True, [ACK, len(self.codes), self.version, *self.codes, ACK]
        if code == GET_VERSION:
            return True, [ACK, None, None, None, ACK]
        if code == GET_ID:
            return True, [ACK, 1, self.number >> 8, self.number & 0xFF, ACK]
        return False, [ACK]

    def judge_address(self, rest):
        if len(rest) < 7:
            return False, []
        is_good = fold(rest[2:7]) == 0 and 0 <= self.offset(rest) < self.size
        return not is_good, [ACK if is_good else NACK]

    def offset(self, rest):
        return int.from_bytes(rest[2:6], "big") - self.base

    def judge_bytes(self, rest):
        """Read Memory and Write Memory, from the count on."""
        if len(rest) == 8:
            return False, []
        start, count = self.offset(rest), rest[7] + 1
        if rest[0] == READ:
            if rest[8] != rest[7] ^ 0xFF or start + count > self.size:
                return True, [NACK]
            return True, [ACK, *self.tell(start, count)]
        if len(rest) < 9 + count:
            return False, []
        if fold(rest[7:]) or start + count > self.size:
            return True, [NACK]
        for at, byte in enumerate(rest[8:-1], start):
            # over another byte than an erased one any byte may come to stand
            self.flash[at] = byte if self.flash[at] == self.erased else None
        return True, [ACK]

    def tell(self, start, count):
        """What a read of these bytes brings."""
        return self.flash[start:start + count]

    def judge_pages(self, rest):
        """Both commands that erase, from the count on."""
        width = 1 if rest[0] == ERASE else 2
        if len(rest) < 2 + width:
            return False, []
        count = int.from_bytes(rest[2:2 + width], "big")
        if count >= FIRST_SPECIAL[rest[0]]:
            return self.judge_special(rest, count)
        if len(rest) < 3 + width * (count + 2):
            return False, []
        named = {int.from_bytes(rest[at:at + width], "big") for at in range(2 + width, len(rest) - 1, width)}
        if fold(rest[2:]) or max(named) >= len(self.sizes):
            return True, [NACK]
        for page in named:
            self.flash[self.page(page)] = [self.erased] * self.sizes[page]
        return True, [ACK]
