"""A line that watches: each reply of a board beside what a device that follows the model could say (docs/MODEL.md).

It knows nothing of a board until a session has asked for its codes and its id, one behind the other, as each session of stmflash
does; from then on each byte that comes has to be one that is due.
"""

import collections

from .model import ACK, GET, GET_ID, NACK, READ, Model, fold

GO = 0x21
# what each session asks first
ASKS_CODES = bytes([GET, GET ^ 0xFF])
ASKS_ID = bytes([GET_ID, GET_ID ^ 0xFF])
# what a read of one byte brings, which `00 FF` may end too
SHORT = 2
# what each list of codes has
NEEDED, ERASES = {0x00, 0x02, 0x11, 0x31}, {0x43, 0x44}
NAMES = {0x00: "Get", 0x02: "Get ID", 0x11: "Read Memory", 0x21: "Go", 0x31: "Write Memory", 0x43: "Erase Memory", 0x44: "Extended Erase"}


class Otherwise(Exception):
    """A byte that no device of the model sends here: what there is to say, and how many bytes came before it."""


# A byte of the flash that a read brings: what is known of it, where it is, and when that was. What a step of a question which board it is
# brings: an acknowledgement, or else a refusal, where none was told before. A byte of the answer to such a question.
Told = collections.namedtuple("Told", "want at age")
Answer = collections.namedtuple("Answer", "is_told")
Tells = collections.namedtuple("Tells", "place index")


class Watched(Model):
    """A device whose codes and chip are known, as a whole session may use it. `answers`: what it told of its board, by the address and
    the count of a read."""

    # whether the model leaves open what comes now
    is_open = False
    # how often its flash was changed
    age = 0

    def __init__(self, number, chip, version, codes, answers):
        super().__init__(number, chip, version, codes)
        self.answers = answers
        # where a device tells which board it is, and how large: outside the flash, where one may also refuse
        unique, size_at = chip.get("unique"), chip.get("size_at")
        self.places = ([tuple(unique)] if unique else []) + ([(size_at, 2)] if size_at else [])

    def places_at(self, rest):
        """The places that begin where this frame reads."""
        return [place for place in self.places if rest[0] == READ and place[0] == int.from_bytes(rest[2:6], "big")]

    def judge_address(self, rest):
        if len(rest) == 7 and rest[0] == READ and fold(rest[2:7]) == 0:
            if places := self.places_at(rest):
                return False, [Answer(any(place in self.answers for place in places))]
            address = int.from_bytes(rest[2:6], "big")
            if any(start < address < start + count for start, count in self.places):
                self.is_open = True
                return False, []
        return super().judge_address(rest)

    def judge_place(self, rest, places):
        """A question which board it is, from the count on."""
        if len(rest) == 8:
            return False, []
        if rest[8] != rest[7] ^ 0xFF:
            return True, [NACK]
        place = int.from_bytes(rest[2:6], "big"), rest[7] + 1
        if place not in places:
            self.is_open = True
            return True, []
        return True, [Answer(place in self.answers), *(Tells(place, index) for index in range(place[1]))]

    def judge_other(self, code):
        if code == GO:
            return False, [ACK]
        # a protection, or a code that the model doesn't know
        self.is_open = True
        return True, []

    def judge(self, rest):
        if rest[0] == GO and len(rest) > 2:
            is_verdict, replies = self.judge_address(rest)
            # the program runs
            self.is_open = replies == [ACK]
            return is_verdict or self.is_open, replies
        return super().judge(rest)

    def judge_special(self, rest, count):
        width = (count.bit_length() + 7) // 8
        if len(rest) < 3 + width:
            return False, []
        if count not in (0xFF, 0xFFFF):
            self.is_open = True
            return True, []
        if rest[-1]:
            return True, [NACK]
        self.flash = [self.erased] * self.size
        self.age += 1
        return True, [ACK]

    def judge_bytes(self, rest):
        if places := self.places_at(rest):
            return self.judge_place(rest, places)
        verdict = super().judge_bytes(rest)
        self.age += verdict == (True, [ACK])
        return verdict

    def judge_pages(self, rest):
        verdict = super().judge_pages(rest)
        self.age += verdict == (True, [ACK])
        return verdict

    def tell(self, start, count):
        return [Told(byte, at, self.age) for at, byte in enumerate(super().tell(start, count), start)]


class Watch:
    """What a client has sent, and what came of it."""

    def __init__(self, chips):
        self.chips = chips
        self.begin()

    def begin(self):
        """Another client: of the board nothing is known."""
        self.count, self.has_sent, self.is_otherwise = 0, False, False
        self.answers = {}
        self.forget()

    def forget(self):
        self.model, self.codes, self.version, self.asks = None, None, None, False
        self.sent, self.heard = b"", b""
        # replies that are due, each with what asked for it
        self.due = collections.deque()

    def put(self, data):
        """These bytes go to the board."""
        self.has_sent = True
        for byte in data:
            if self.asks:
                # whether it is part of the question hangs on an answer that isn't there yet
                self.forget()
            if self.model is None:
                self.sent, self.heard = (self.sent + bytes([byte]))[-2:], b""
                if self.sent not in (ASKS_CODES[1:] + ASKS_ID[:1], ASKS_ID):
                    self.codes = None
                continue
            before = bytes(self.model.rest)
            replies = self.model.feed(byte)
            self.due += [(want, before) for want in replies]
            self.asks = any(isinstance(want, Answer) for want in replies)
            if self.model.is_open:
                # what is due of it can't be told from what comes behind
                self.forget()

    def take(self, data):
        """These bytes came. Otherwise, with the bytes before it, for the first that isn't due."""
        for number, byte in enumerate(data):
            if self.model is None:
                self.heard += bytes([byte])
                self.learn(number)
                continue
            if not self.due:
                raise Otherwise(f"{byte:02X} came unasked", number)
            want, before = self.due.popleft()
            if isinstance(want, Told):
                self.compare(want, byte, number)
            elif isinstance(want, Answer):
                self.answer(want, byte, number)
            elif isinstance(want, Tells):
                self.compare_board(want, byte, number)
            elif want not in (None, byte):
                raise Otherwise(f"{byte:02X} came in {name_of(before)}, and {want:02X} was due", number)
            self.count += 1

    def due_of(self, data):
        """Those of these bytes that come before the first that isn't due, and what there is to say of that; None: each is."""
        try:
            self.take(data)
        except Otherwise as otherwise:
            self.is_otherwise = True
            text, number = otherwise.args
            return data[:number], text
        return data, None

    def told(self):
        """What a session comes to."""
        if not self.count:
            return "nothing, since no chip of the table has told its codes and id"
        more = f"; {len(self.due)} more were due" if self.due else ""
        return f"{self.count} bytes of replies, each as a device of the model sends it{more}"

    def compare(self, told, byte, number):
        """A byte of the flash: what was known of it has to stand there."""
        if told.want is None:
            if told.age == self.model.age:
                self.model.flash[told.at] = byte
        elif told.want != byte:
            place = self.model.base + told.at
            raise Otherwise(f"{byte:02X} stands at {place:08X}, and {told.want:02X} was read or written there before", number)

    def answer(self, want, byte, number):
        """A refusal ends a question which board it is."""
        if byte != ACK and (byte != NACK or want.is_told):
            or_refused = "" if want.is_told else f" or {NACK:02X}"
            raise Otherwise(f"{byte:02X} came in {NAMES[READ]}, and {ACK:02X}{or_refused} was due", number)
        self.asks = False
        if byte == NACK:
            self.model.rest.clear()
            self.due.clear()

    def compare_board(self, tells, byte, number):
        """A byte of the answer which board it is: what was told there before."""
        told = self.answers.setdefault(tells.place, [])
        if tells.index == len(told):
            told.append(byte)
        elif told[tells.index] != byte:
            at = tells.place[0] + tells.index
            raise Otherwise(f"{byte:02X} stands at {at:08X}, and {told[tells.index]:02X} was told there before", number)

    def learn(self, number):
        """Takes a device for known once it has told its codes, and then its id."""
        heard = self.heard
        if self.sent == ASKS_CODES and len(heard) > SHORT and len(heard) == heard[1] + 4 and heard[0] == heard[-1] == ACK:
            codes = heard[3:-1]
            if not NEEDED <= set(codes) or len(ERASES & set(codes)) != 1 or 0x7F in codes:
                raise Otherwise(f"it lists the codes {codes.hex(' ').upper()}", number)
            self.version, self.codes = heard[2], list(codes)
        elif self.sent == ASKS_ID and self.codes and len(heard) == 5:
            id_told = int.from_bytes(heard[2:4], "big")
            chip = next((chip for chip in self.chips if chip["id"] == id_told), None)
            if heard[:2] == bytes([ACK, 1]) and heard[4] == ACK and chip:
                self.model = Watched(id_told, chip, self.version, self.codes, self.answers)
                self.count += 5


def name_of(rest):
    """The command that a rest belongs to."""
    return NAMES.get(rest[0], f"{rest[0]:02X}") if rest else "nothing"
