"""Settling as stmflash does it (docs/UNDO.md), beside the model: which byte, how many of them, and what came."""

import typing

from board import frame_told
from faults import Differs, Ended, NotTried, Odd
from model import ACK, CONNECT, ERASE, GET, NACK

# bytes of the first batch and of the last ones, how many are sent in the first two, and bytes of a later one
BATCH, BEGINNING, LARGE_BATCH = 256, 1280, 7168
# bytes that an undo sends at least and at most before it connects; in the midst of a question a frame has 11 at most
SHORT_LIMIT, LONG_LIMIT, LIMIT_OF_ASKING = 512, 131072, 16
# so many times in a row the refusals that are due may fail to come before the board counts as one that can't be settled
MISSES = 5


class Settled(typing.NamedTuple):
    """How many bytes it took; whether each reply was the model's; whether the board lost bytes while it was at work."""

    count: int
    is_same: bool
    has_lost: bool


def byte_of(board, intent):
    """The settling byte of an intent of page P."""
    if intent == "ask":
        return CONNECT
    return board.page if intent == "erase" and board.page < 256 else 2


def limit_of(board, intent):
    """As an undo has it: behind 44 BB the byte twice is the count of 257 times as many pages, and one more."""
    if intent == "ask":
        return LIMIT_OF_ASKING
    if board.code == ERASE or intent != "erase":
        return SHORT_LIMIT
    byte = byte_of(board, intent)
    return LONG_LIMIT if byte == CONNECT else min(max(514 * byte + 8, SHORT_LIMIT), LONG_LIMIT)


class Settling:
    """One settling of a board, with one byte."""

    def __init__(self, board, byte, limit):
        self.board, self.byte, self.limit = board, byte, limit
        self.count = self.misses = 0
        self.is_same, self.has_lost = True, False
        # a reply that is due may be late on a busy machine: until one failed to come, and for one behind another since
        self.patience, self.gap = max(board.wait, 2), max(board.wait, 0.7)

    def run(self):
        self.board.drain()
        is_refused = self.byte == CONNECT
        while not is_refused and self.limit - self.count > 2:
            is_refused = NACK in self.send(self.batch_size())
        while self.count < self.limit:
            if self.send(1)[:1] == bytes([NACK]):
                self.board.drain()
                self.board.model.rest.clear()
                return Settled(self.count, self.is_same, self.has_lost)
        raise Differs(f"{self.count} bytes {self.byte:02X} didn't settle it")

    def batch_size(self):
        left = self.limit - self.count
        if self.count < BATCH or left <= 2 * BATCH:
            return min(BATCH, left - 2)
        return min(BEGINNING - BATCH if self.count < BEGINNING else LARGE_BATCH, left - BATCH)

    def send(self, count):
        """Sends the byte so many times, and answers what came."""
        board = self.board
        due = board.put([self.byte] * count)
        self.count += count
        board.progress.show(self.count)
        took = count * board.byte_time
        if due:
            # behind 43 BC a page is named as often as its number says
            work = 2 + board.usual_time("erase") * (len(board.model.sizes) + 2) if ACK in due else 0
            got = board.line.read(len(due), self.patience + work + took, self.gap if self.has_lost or not self.is_same else self.patience)
            got += board.line.read(4096, 0.002, board.wait)
        else:
            # nothing is due, unless the board has done otherwise already
            got = board.line.read(1, took + (0.005 if self.is_same and not self.has_lost else self.patience), 1)
            got += board.drain() if got else b""
        self.compare(due, got)
        self.misses = 0 if NACK in got else self.misses + bool(due)
        if self.misses > MISSES:
            raise Differs(f"{self.count} bytes {self.byte:02X}, and it refuses none")
        return got

    def compare(self, due, got):
        if bytes(byte or 0 for byte in due) == got:
            return
        # of what came while it was at work some was lost: fewer refusals, and later ones elsewhere
        is_loss = ACK in due or self.has_lost
        if is_loss and got.count(ACK) == due.count(ACK) and set(got) <= {ACK, NACK}:
            self.has_lost = True
        else:
            self.is_same = False


def settle(board, byte, limit):
    return Settling(board, byte, limit).run()


def recover(board, intent):
    """Gets a board back that did otherwise than the model: by settling it, or else by a reset."""
    try:
        settle(board, byte_of(board, intent), limit_of(board, intent))
    except Differs:
        if not board.line.can_reset():
            raise Ended("the board can't be settled: reset it") from None
        try:
            board.restart()
        except Differs:
            raise Ended("the board answers no more, also behind a reset") from None


def cut_and_settle(board, cuts, intent):
    """Stops behind each of these beginnings, settles by the intent's byte, and looks at the whole flash in the end."""
    byte, most, lost, odd = byte_of(board, intent), 0, False, None
    board.is_touched = board.is_touched or intent != "ask"
    for cut in cuts:
        # what is due of it may be late on a busy machine
        board.line.read(len(board.put(cut)), max(board.wait, 2), 2)
        board.drain()
        found = settle(board, byte, limit_of(board, intent))
        most, lost = max(most, found.count), lost or found.has_lost
        if not found.is_same and odd is None:
            odd = f"stopped behind {frame_told(cut)} it was settled by {found.count} bytes {byte:02X}, with other replies"
        if intent != "ask" and (found.has_lost or not found.is_same):
            # how often P was erased, or whether it was written, isn't known
            board.model.forget(board.page)
        board.talk("get", [GET, GET ^ 0xFF])
    if lost:
        board.facts["loses_while_busy"] = True
    if intent != "ask":
        board.expect(f"settled inside the frames of a command ({intent})")
    if odd:
        raise Odd(odd)
    return f"{len(cuts)} places, {most} bytes at most" + (", some of them lost while it was at work" if lost else "")


def need_reset(board):
    if not board.line.can_reset():
        raise NotTried("the board can't be reset from here: --reset, --port with --wiring, or a terminal")
