"""What `undo -v` reads again before it says that a write or an erase is undone (tests/verified.rows)."""

from hostile import Board
from refusing import OnBoard
from rows import cases


class Wavering(Board):
    """A board that tells one byte of page 5 otherwise, at that reading of the page."""

    reading = seen = 0

    def can_read(self, at, count):
        if at == 5 * 1024 + 512:
            self.seen += 1
        self.sets["flip"] = int(at == 5 * 1024 + 512 and self.seen == self.reading)
        return super().can_read(at, count)


class Unwilling(Board):
    """A board that acknowledges each erase and write of page 5, and does none of them while that page is protected."""

    is_protecting = False

    def wipe(self, page):
        if page != 5 or not self.is_protecting:
            super().wipe(page)

    def write(self, at, data):
        if at // 1024 != 5 or not self.is_protecting:
            super().write(at, data)


class UndoVerified(OnBoard):
    kinds = {"wavering": Wavering, "unwilling": Unwilling}

    def test_each_undo(self):
        self.play_all(cases("verified.rows"))
