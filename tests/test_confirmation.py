"""The question on a terminal before `protect readout-unprotect` (tests/confirmation.rows)."""

import os
import pty

from place import PATIENCE, Place, read_some, readable
from rows import Rows, bytes_of, cases


class Confirmation(Rows):
    def set_nothing(self):
        super().set_nothing()
        self.typed, self.streams = None, ()

    def does(self, sign, told, name, *more):
        if sign == "typed":
            self.typed, self.streams = bytes_of(told), ("stdin", "stderr")
        elif sign == "terminal":
            self.streams = (name, *more)
        else:
            super().does(sign, told, name, *more)

    def call(self, *words, before, variables, given):
        here, there = pty.openpty()
        before = (lambda: os.dup2(os.open("/proc/self/fd/0", os.O_RDONLY), 2)) if "unwritable" in self.streams else before
        process = Place.start(self, *words, before=before, variables=variables, **dict.fromkeys(self.streams[:2], there))
        os.close(there)
        shown = b""
        if self.typed is not None:
            shown = self.shown_until(here, b"[y/N] ")
            os.write(here, self.typed)
        said, shown = self.ended(process), shown + self.shown_until(here)
        os.close(here)
        return said._replace(err=shown + (said.err or b""))

    def shown_until(self, here, text=None):
        """What a terminal shows until it shows this, or has no more."""
        shown = b""
        while (text is None or text not in shown) and readable([here], 0.5 if text is None else PATIENCE) and (piece := read_some(here)):
            shown += piece
        return shown

    def played(self, which):
        """Plays cases by their titles, and by whether somebody answers, or could but for what shows the question."""
        self.play_all(case for case in cases("confirmation.rows") if which(case[0], any(sign == "typed" or told.endswith("unwritable") for sign, told in case[1])))

    def test_what_is_answered(self):
        self.played(lambda _, is_asked: is_asked)

    def test_faults_of_the_words_come_first(self):
        self.played(lambda title, _: title.startswith("faults of the words"))

    def test_nobody_is_asked(self):
        self.played(lambda title, is_asked: not is_asked and not title.startswith("faults of the words"))
