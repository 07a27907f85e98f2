"""A line to a device, and what is said there: settling of docs/UNDO.md, and the frames of docs/MODEL.md."""

from device import ACK, CONNECT, ERASE, EXTENDED_ERASE, GET, GET_ID, GO, NACK, READ, WRITE, exclusive_or

LIMIT = 131072
# where pages are erased by numbers of one byte, and the least in any case
SHORT_LIMIT = 512
DRAINED = 4096
# bytes of the first batch and of the last ones, how many are sent in the first two, and bytes of a later one
BATCH = 256
BEGINNING = 1280
LARGE_BATCH = 7168


class Stopped(Exception):
    pass


class Rig:
    """A line to a device, and a journal, with the steps of `--stop`: a byte put, a byte got, a byte added to the journal."""

    def __init__(self, device, journal, steps=None):
        self.device, self.journal, self.steps = device, bytearray(journal), steps
        self.done, self.parts = 0, []

    def begin(self, name):
        """Notes where a part of a session begins, so that a stop can be chosen there."""
        self.parts.append((self.done, name))

    def step(self):
        if self.done == self.steps:
            raise Stopped()
        self.done += 1

    def put(self, byte):
        self.step()
        self.device.feed(byte)

    def get(self):
        if not self.device.owed:
            return None
        self.step()
        return self.device.owed.popleft()

    def append(self, text):
        for byte in text:
            self.step()
            self.journal.append(byte)


class WireFault(Exception):
    """The device answers what the protocol hasn't."""


def limit_for(byte, extended):
    """How often the byte of an intent is sent at most: behind 44 BB of an extended erase it is the count of 257 * byte + 1 pages."""
    if not extended:
        return SHORT_LIMIT
    return LIMIT if byte == CONNECT else min(max(514 * byte + 8, SHORT_LIMIT), LIMIT)


def drain(rig):
    taken = []
    while (byte := rig.get()) is not None:
        taken.append(byte)
        if len(taken) > DRAINED:
            raise WireFault()
    return taken


def settle(rig, byte, limit=LIMIT, in_batches=False):
    rig.begin("settle")
    drain(rig)
    sent, is_refused = 0, not in_batches and byte == CONNECT
    while not is_refused and limit - sent > 2:
        batch = batch_size(sent, limit - sent)
        put(rig, [byte] * batch)
        sent += batch
        is_refused = NACK in drain(rig)
    for _ in range(limit - sent):
        rig.put(byte)
        reply = rig.get()
        if reply is not None:
            drain(rig)
        if reply == NACK:
            return
    # the limit is used up: the device is fresh, or gone
    put(rig, [CONNECT], ACK)
    drain(rig)
    put(rig, [byte], None)
    put(rig, [byte], NACK, None)


def batch_size(sent, left):
    if sent < BATCH or left <= 2 * BATCH:
        return min(BATCH, left - 2)
    return min(BEGINNING - BATCH if sent < BEGINNING else LARGE_BATCH, left - BATCH)


def expect(rig, reply):
    if rig.get() != reply:
        raise WireFault()


def put(rig, data, *replies):
    """These bytes, and what has to be answered then."""
    for byte in data:
        rig.put(byte)
    for reply in replies:
        expect(rig, reply)


def send(rig, *steps):
    """The steps of a frame: the bytes of each, and its acknowledgement."""
    for step in steps:
        put(rig, step, ACK)


def take(rig):
    byte = rig.get()
    if byte is None:
        raise WireFault()
    return byte


def pair(code):
    return [code, code ^ 0xFF]


def checked(data):
    return [*data, exclusive_or(data)]


def placed(address):
    return checked(address.to_bytes(4, "big"))


def get_commands(rig):
    """The version, and the codes."""
    rig.begin("get")
    send(rig, pair(GET))
    count, version = take(rig), take(rig)
    codes = [take(rig) for _ in range(count)]
    expect(rig, ACK)
    return version, codes


def get_id(rig):
    rig.begin("get id")
    send(rig, pair(GET_ID))
    expect(rig, 1)
    found = take(rig) << 8 | take(rig)
    expect(rig, ACK)
    return found


def read(rig, address, length):
    rig.begin("read")
    send(rig, pair(READ), placed(address), pair(length - 1))
    return bytes(take(rig) for _ in range(length))


def read_unless_refused(rig, address, length):
    """The bytes, or None where the device refuses a step of the frame."""
    rig.begin("board")
    for step in (pair(READ), placed(address), pair(length - 1)):
        put(rig, step)
        reply = rig.get()
        if reply == NACK:
            return None
        if reply != ACK:
            raise WireFault()
    return bytes(take(rig) for _ in range(length))


def program(rig, address, data):
    rig.begin("write frame")
    send(rig, pair(WRITE), placed(address), checked([len(data) - 1, *data]))


def erase_page(rig, extended, page):
    rig.begin("erase frame")
    send(rig, *((pair(EXTENDED_ERASE), [0, 0, *checked([page >> 8, page & 0xFF])]) if extended else (pair(ERASE), [0, *checked([page])])))


def go(rig, address):
    rig.begin("go")
    send(rig, pair(GO), placed(address))


def protect(rig, code):
    rig.begin("protect")
    put(rig, pair(code), ACK, ACK)
