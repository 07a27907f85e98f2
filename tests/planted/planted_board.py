"""A board that isn't there: the device of docs/MODEL.md, and one deviation of deviations.py. It shares no code with the trial, nor with
the simulator: the model is the second one, of tools/soak."""

import collections
import os
import random
import sys

sys.path.append(os.path.join(os.path.dirname(os.path.abspath(__file__)), "..", "..", "tools", "soak"))
from device import (ACK, DONE, ERASE, EXTENDED_ERASE, FRESH, GET, GET_ID, GET_VERSION, NACK, OPEN, READ, REFUSED, WRITE,  # noqa: E402
                    Chip, Device, named_pages, number)
from device import exclusive_or as fold  # noqa: E402

# what no trial may ever send
DANGEROUS = frozenset({0x21, 0x63, 0x73, 0x82, 0x92})
SIZE_REGISTER = 0x1FFFF7CC
# a verdict without a word
SILENT = "silent"


class PlantedBoard(Device):
    """`sets` is what a deviation sets; each name of it stands at the place that it changes."""

    def __init__(self, number, sizes, code, sets, base=0x08000000, flash=None):
        self.sets = collections.defaultdict(lambda: None, sets)
        chip = Chip(number, base, sizes, code == EXTENDED_ERASE, 0xFF if self.sets["erased"] is None else self.sets["erased"])
        chip.size = int(chip.size * (self.sets["part"] or 1))
        # a program in the first two thirds
        super().__init__(chip, flash or random.Random(1).randbytes(chip.size * 2 // 3).ljust(chip.size, bytes([chip.erased])))
        codes = [GET, GET_VERSION, GET_ID, READ, 0x21, WRITE, code, 0x63, 0x73, 0x82, 0x92]
        codes += [ERASE if code == EXTENDED_ERASE else EXTENDED_ERASE] if self.sets["lists_both"] else []
        self.codes = [listed for listed in codes if not (self.sets["lists_no_write"] and listed == WRITE)]
        self.version, self.is_dead, self.reads, self.danger = 0x31, bool(self.sets["is_silent"]), 0, []
        # seconds of work before the replies to the byte that came, and behind them; the pages of the last erase, which a loss of power may spoil
        self.work, self.behind, self.at_work = 0.0, 0.0, ()

    def reset(self):
        self.phase, self.is_dead = FRESH, bool(self.sets["is_silent"])
        if self.sets["reset_spoils"]:
            place = self.chip.starts[2]
            self.flash[place] = self.flash[place] + 1 & 0xFF
        if not self.sets["sticky"]:
            self.rest.clear()

    def lose_power(self):
        """The page at work holds anything then."""
        self.reset()
        for page in [*self.at_work, *([2] if self.sets["spoils"] and self.at_work else [])]:
            self.flash[self.chip.part(page)] = random.Random(2).randbytes(self.chip.sizes[page])

    def feed(self, byte):
        """The replies to a byte, which wait for self.work."""
        self.owed.clear()
        self.work, self.behind = 0.0, 0.0
        if not self.is_dead:
            super().feed(byte)
        return bytes(self.owed)

    def serve(self, line, ending):
        """Serves a host's line until either has gone."""
        while not ending.is_set():
            came = line.recv(4096)
            if not came:
                return
            self.hear(line, came, ending)

    def hear(self, line, came, ending):
        """All replies to what came together."""
        self.say(line, b"".join(self.feed(byte) for byte in came), ending)

    def say(self, line, replies, ending):
        line.sendall(replies)

    def connect(self, byte):
        super().connect(byte)
        if self.phase == FRESH:
            self.is_dead = bool(self.sets["deaf"])
        else:
            self.owed.extend((self.sets["greeting"] or b"")[1:])

    def acknowledge(self):
        self.owed.extend([ACK, ACK] if self.sets["twice"] else [ACK])
        self.work += self.sets["delay"] or 0

    def wrong(self):
        return SILENT if self.sets["mute"] else REFUSED

    def judge(self, rest):
        return REFUSED if self.sets["refuses_7f"] and rest[0] == 0x7F else super().judge(rest)

    def judge_code(self, code, complement):
        bits = (code ^ complement ^ 0xFF).bit_count()
        is_taken = self.sets["takes_twice"] and code == complement and code in (GET, GET_ID) or bits <= bool(self.sets["any_complement"])
        if code not in self.codes or not is_taken:
            return self.wrong()
        if code in DANGEROUS:
            self.danger.append(code)
            return DONE
        return REFUSED if code == READ and self.sets["is_protected"] else super().judge_code(code, code ^ 0xFF)

    def do(self, rest):
        if rest[0] not in DANGEROUS:
            super().do(rest)

    def answer(self, code):
        super().answer(code)
        if code == GET_VERSION and self.sets["short_version"]:
            del self.owed[-2]
        if code == GET_ID and self.sets["long_id"]:
            self.owed = collections.deque([*list(self.owed)[:-4], 2, *self.chip.number.to_bytes(2, "big"), 0, ACK])

    def told(self):
        size = int(self.chip.size // 1024 * (self.sets["register"] or 0))
        return {(SIZE_REGISTER, 2): size.to_bytes(2, "little")} if size else {}

    def is_late(self, rest):
        """Whether this frame's address is wrong, and refused behind its time."""
        return self.sets["late_refusal"] and fold(rest[2:7])

    def judge_address(self, rest):
        if self.is_late(rest):
            return OPEN
        said = super().judge_address(rest[:6] + bytes([fold(rest[2:6])]) if self.sets["any_address"] else rest)
        return self.wrong() if said == REFUSED else said

    def judge_read(self, rest):
        if len(rest) < 9 or self.is_late(rest):
            return OPEN if len(rest) < 9 else REFUSED
        self.is_dead = bool(self.sets["dies_in_read"]) and rest[7] == 0x7F
        said = super().judge_read(rest[:8] + bytes([rest[7] ^ 0xFF]) if self.sets["any_count"] else rest)
        return said if said == DONE and self.can_read(number(rest[2:6]) - self.chip.base, rest[7] + 1) else self.wrong()

    def can_read(self, at, count):
        is_odd = bool(self.sets["read_even"]) and count % 2 == 1 and count > 1
        return count <= (self.sets["read_most"] or 256) and not is_odd

    def read(self, address, length):
        data = bytearray(super().read(address, length))
        self.reads += 1
        if self.sets["flip"] and self.reads % self.sets["flip"] == 0:
            data[(length - 1) // 2] ^= 4
        return data

    def judge_write(self, rest):
        if self.is_late(rest):
            return OPEN if len(rest) < 10 else REFUSED
        at, data = number(rest[2:6]) - self.chip.base, rest[8:9 + rest[7]]
        if len(rest) < 10 + rest[7]:
            self.is_dead = bool(self.sets["dies"]) and len(data) == self.sets["dies"] + 1 and data[-2:] == b"\x02\x02"
            if self.sets["data_are_commands"] and data[-2:] == b"\x44\xbb":
                self.wipe(self.chip.pages() - 2)
            return OPEN
        is_good = fold(rest[7:]) == 0 or bool(self.sets["any_check"])
        if (is_good or self.sets["write_first"]) and not self.can_write(at, len(data)):
            return REFUSED
        self.work += is_good and self.sets["late_write"] or 0
        if not is_good and self.sets["write_first"]:
            self.write(at, data)
        return DONE if is_good else SILENT if self.sets["mute_data"] else REFUSED

    def can_write(self, at, count):
        is_whole = count % (self.sets["write_step"] or 1) == 0 or bool(self.sets["takes_4"]) and count == 4
        return at + count <= self.chip.size and count >= (self.sets["write_least"] or 1) and is_whole

    def write(self, at, data):
        data = bytearray(data)
        if self.sets["wrong_last"] and len(data) == 256:
            data[-1] ^= 1
        if self.sets["pads"]:
            data += bytes(-len(data) % 8)
        if self.sets["spills"]:
            data += data[:8]
        self.at_work = ()
        super().write(at, data[:self.chip.size - at])

    def judge_erase(self, rest):
        width = 1 if rest[0] == ERASE else 2
        less = number(rest[2:2 + width]) if len(rest) >= 2 + width else 0
        if less >= (0xFF, 0xFFF0)[width - 1]:
            self.danger += ["everything"] * (len(rest) == 2 + width)
            return OPEN if len(rest) == 2 + width else REFUSED
        if self.sets["count_most"] and less >= self.sets["count_most"]:
            return REFUSED
        if self.sets["overrun"] and less >= self.sets["overrun"]:
            self.is_dead = len(rest) == 2 + width + 2 * self.sets["overrun"]
            return OPEN
        # (the check of a long list takes long, in each byte's turn)
        if super().judge_erase(rest) == OPEN:
            return OPEN
        # whatever its check is
        said = super().judge_erase(rest[:-1] + bytes([fold(rest[2:-1])]))
        is_good = not fold(rest[2:]) or self.sets["any_check"]
        if said == DONE and is_good:
            self.end_erase(self.pages_of(rest))
        elif said == DONE and self.sets["erase_first"]:
            self.erase(rest)
        return said if is_good or said != DONE else REFUSED

    def has_page(self, page):
        return super().has_page(page) or bool(self.sets["wraps"] or self.sets["absent_ok"])

    def pages_of(self, rest):
        return [page & 3 if self.sets["wraps"] and page >= self.chip.pages() else page for page in named_pages(rest)]

    def erase(self, rest):
        for page in self.pages_of(rest):
            page += self.sets["shift"] or 0
            page = {1: 2, 2: 1}.get(page, page) if self.sets["swap"] else page
            beside = [page - 1] * bool(self.sets["pair"]) + [3] * bool(self.sets["wipes"] and page == self.chip.pages() - 1)
            for wiped in (page, *beside):
                self.wipe(wiped)

    def wipe(self, page):
        if 0 <= page < self.chip.pages() and self.chip.part(page).stop <= self.chip.size:
            start, size = self.chip.starts[page], self.chip.sizes[page] // (2 if self.sets["half"] else 1)
            self.flash[start:start + size] = bytes([self.chip.erased ^ (self.sets["leaves"] or 0)]) * size

    def end_erase(self, pages):
        self.at_work = {page for page in pages if page < self.chip.pages()}
        self.behind = self.sets["early"] or self.behind
        self.work += 0.0 if self.sets["early"] else (self.sets["erase_seconds"] or 0.0) * len(pages)
        self.owed.extend([0x76] * bool(self.sets["busy_76"]))
