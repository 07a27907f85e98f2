"""What a segment left its pages with (tests/left.rows): journals in any order, and an undo that is stopped anywhere."""

import itertools
import random

import telling
from rows import Rows, in_parts
from test_damage import BEGINS, COUNTING

# two pieces, the last one first, which lies in page 9; the other over the edge of pages 1 and 2
HEX = b":020000040800F2\n:0409050001020304E4\n:0801FC00111213141516171857\n:00000001FF\n"
ERASE = ("erase", "3", "5", "7")
OTHERWISE = "page 3 isn't as segment 1 left it; --trust-journal to undo all the same"
# at how many places an undo is stopped
STOPS = 60


class Lines(Rows):
    """Each line that says what was left, in parts."""


in_parts(Lines, "left.rows", 3)


class Left(telling.Told):
    begins = {**BEGINS, "image": b"\xfe" * 300, "hex": HEX}

    def begin(self, *calls, flash=COUNTING):
        """These calls are done on this flash, by a new journal: the flash and the journal then."""
        self.store_all({"flash": flash, "flash.line": None, "journal": None})
        for words in calls:
            self.assertEqual(self.at(*words).status, 0, words)
        return self.held("flash"), self.held("journal")

    def test_journals_in_any_order(self):
        """Three of one board, each of a change of page 3: none is undone but the newest that stands."""
        self.begin()
        for name, words in zip("123", (("erase", "3", "5"), ("write", "-S", "0x08000310", "image"), ("write", "-f", "-S", "0x08000340", "hex"))):
            self.assertWell(self.at(*words, journal=name))
        before = {name: self.held(name) for name in ("flash", "flash.line", *"123")}
        for order in itertools.permutations("123"):
            with self.subTest(order=order):
                self.store_all(before)
                stands = set("123")
                for name in filter(stands.__contains__, (*order, *"321")):
                    said, is_newest = self.at("undo", journal=name), name == max(stands)
                    if is_newest:
                        stands.remove(name)
                        self.assertTold(said, "undone 1\n")
                    else:
                        self.assertFault(said, OTHERWISE, **{name: before[name]})
                self.assertEqual((stands, self.held("flash")), (set(), COUNTING))

    def test_an_undo_that_is_stopped_anywhere(self):
        flash, journal = self.begin(ERASE, ("write", "-S", "0x08000310", "image"))
        self.assertEqual(journal.count(b"\nleft "), 5)
        chance = random.Random(1)
        for stop in (*range(3), *(chance.randrange(3000) for _ in range(STOPS))):
            with self.subTest(stop=stop):
                self.store_all({"flash": flash, "flash.line": b"idle\n", "journal": journal})
                said = self.at("undo", "--stop", str(stop))
                if said.status:
                    self.assertFault(said, "stopped", status=3)
                    self.assertIn(self.at("undo", "--stop", str(chance.randrange(3000))).status, (0, 3))
                self.assertWell(self.at("undo", "-v"), flash=COUNTING)
