"""`--watch`: over a board that follows the model nothing changes; the first reply that no such board gives ends the session, is named,
and nothing is sent or added behind it (tests/watched.rows; tests/planted has boards that do otherwise)."""

import itertools

from holding import Held
from rows import in_parts
from test_trial import planted


class Played(Held):
    def set_nothing(self):
        super().set_nothing()
        self.relayed = None

    def call(self, *words, **how):
        """Runs the program, where that is said at a simulator behind a relay: one byte of what that sends is complemented, or one more comes behind
        it. What is sent to it is noted, with a blank where replies came."""
        if self.relayed is None:
            return super().call(*words, **how)
        (kind, at), numbers, self.sent = self.relayed, itertools.count(), ""

        def relayed(byte):
            if next(numbers) != at:
                return bytes([byte])
            return bytes([byte ^ 0xFF]) if kind == "wrong" else bytes([byte, 0x55])

        def change(replies):
            self.sent = self.sent.rstrip() + " "
            return b"".join(map(relayed, replies))

        def hear(came):
            self.sent += came.hex().upper()

        self.serve(1, number="0440")
        with self.between(change, heard=hear):
            return super().call(*words, **how)

    def does(self, sign, told, name, *more):
        if sign == "planted":
            self.enterContext(planted(self.folder, name, "--pages", "8", "--clients", "1000"))
        elif sign == "relay":
            self.relayed = name, int(*more)
        elif sign == "sent":
            self.assertRegex(self.sent, rf"\A{told}\Z")
        else:
            super().does(sign, told, name, *more)


in_parts(Played, "watched.rows", 4)
