"""Which board stands there (tests/boards.rows), and which one Go and a protection ask (tests/leaving.rows); one that answers otherwise than it
should where it is asked, and a cable that is moved to another board of the same id while a session runs (tests/moved.rows). What was done to a
board that is put in was done by then, and isn't promised (docs/DECISIONS.md)."""

import contextlib
import time

import telling
from place import WAIT
from rows import in_parts
from telling import NACK, READ, SIZE_AT, UNIQUE_AT, WRITE, Stand

GET_ID = b"\x02\xfd"
ERASE = b"\x43\xbc"
CONNECT = b"\x7f"
# what both boards tell of their size
KIB = b"\x80\x00"
HERE, THERE = (bytes.fromhex(it) for it in ("2B0035000A51363034393332", "2B0035000A5136303439333F"))


class Late(Stand):
    """Each answer of which board it is comes later than a quiet line is waited for."""

    def reply(self, data):
        time.sleep(1.5 * int(WAIT) / 1000)
        super().reply(data)


def garbling(numbers, data):
    """One that says this in the place of some of its answers, counted from 0, of which board it is; a refusal ends the frame."""
    class Garbling(Stand):
        replies, is_refused = 0, False

        def reply(self, right):
            is_one = self.replies in numbers
            super().reply(data if is_one else right)
            self.replies, self.is_refused = self.replies + 1, is_one and data == NACK

        def heard(self, came):
            if self.is_refused:
                self.step, self.is_refused = self.command, False

    return Garbling


class Moved(Stand):
    """The cable is moved to another board, fresh or not, before that is handed on of which `when` says so."""

    def __init__(self, line, here, there, when, is_fresh):
        super().__init__(line, here, {UNIQUE_AT: HERE, SIZE_AT: KIB}, False)
        self.there, self.when, self.is_fresh = there, when, is_fresh
        self.is_moved, self.ids = False, 0

    def heard(self, came):
        self.ids += came == GET_ID
        if not self.is_moved and self.step == self.command and self.when(self, came):
            self.is_moved = True
            self.board = self.there
            self.told = {UNIQUE_AT: THERE, SIZE_AT: KIB}

    def command(self, came):
        if self.is_moved and self.is_fresh:
            # which tells nothing until it is connected
            self.is_fresh = CONNECT not in came
            self.hand_on(came)
        else:
            super().command(came)


class ResetInside(Moved):
    """It is the same board, which is reset inside the data of its fourth Write Memory."""
    writes = 0

    def command(self, came):
        self.writes += came == WRITE
        if self.writes == 4 and len(came) > 5 and not self.is_moved:
            self.is_moved = True
            self.hand_on(came[:2])
            self.board, came = self.there, came[2:]
        self.hand_on(came) if came != READ else super().command(came)


class Mute(Stand):
    """One that hears no third Get ID, and nothing behind it."""
    ids = 0

    def command(self, came):
        self.ids += came == GET_ID
        if self.ids < 3:
            super().command(came)


# when a cable is moved. Behind Get ID is behind the one of the session itself, and before the second question, or behind that of a session
# before it; the last frame is ahead of the Get ID of the third question
MOMENTS = {
    "before the unique id": lambda stand, came: came == READ,
    "behind the unique id": lambda stand, came: len(stand.asked) == 1,
    "behind the question": lambda stand, came: len(stand.asked) == 2,
    "behind Get ID": lambda stand, came: stand.ids == 2 and came != GET_ID,
    "behind the second question": lambda stand, came: len(stand.asked) == 3,
    "before the erase": lambda stand, came: came == ERASE,
    "behind the last frame": lambda stand, came: stand.ids == 3,
    "behind the last frame of two segments": lambda stand, came: stand.ids == 4,
    "inside a frame": lambda stand, came: False,
}
KINDS = {"stands": Stand, "late": Late, "mute": Mute}


class BoardMoved(telling.Asked):
    moment = None

    def begin(self):
        super().begin()
        self.kind = Stand

    def does(self, sign, told, name, *more):
        if sign == "kind":
            self.kind = KINDS[name] if name in KINDS else garbling([int(it) for it in more[0].split(",")], bytes.fromhex(more[1]))
        elif sign == "moves":
            self.moment = told.split(" / ")
        else:
            super().does(sign, told, name, *more)

    def call(self, *words, **how):
        """Runs the program at the first board, whose cable is moved to the other one where that is said."""
        if self.moment is None:
            return super().call(*words, **how)
        (when, stands), self.moment = self.moment, None
        self.store("there.line", stands.encode() + b"\n")
        kind, made = ResetInside if when == "inside a frame" else Moved, []

        def serve(listener):
            with telling.simulated(self, "flash", "behind") as here, telling.simulated(self, "there", "beyond") as there:
                line, _ = listener.accept()
                with line:
                    made.append(kind(line, here, there, MOMENTS[when], stands == "fresh"))
                    with contextlib.suppress(telling.Unacknowledged):
                        made[0].run()

        said = telling.run_beside(self, serve, *words)
        self.assertTrue(made[0].is_moved)
        return said


in_parts(BoardMoved, "moved.rows", 6)


class Board(telling.Asked):
    """Each page in parts, which wait for their boards side by side."""


in_parts(Board, "boards.rows", 6)
in_parts(Board, "leaving.rows", 4)
