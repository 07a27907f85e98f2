"""A page that a journal keeps, of which the disk has changed a digit (tests/damage.rows): each digit, and one that changes while a write is undone."""

import random

import telling
from place import UNIQUE, WAIT, Said, files
from rows import Rows, cases

SIZE = 256
COUNTING = bytes(i % 251 for i in range(16 * SIZE))
TOLD = {telling.UNIQUE_AT: bytes.fromhex(UNIQUE), telling.SIZE_AT: None}
DAMAGED = "page {} of segment {} has another CRC in the journal than when it was kept; undo by a copy of the journal, or --trust-journal"
CHECK = ("log", "--check", "--journal", "journal")
BEGINS = {"table": telling.TABLE.replace(b"[[128, 1024]]", b"[[16, 256]]"), "flash": COUNTING, "image": b"an image",
          "flash.board": f"unique {UNIQUE}\n".encode()}
# how many digits rot, and by which words all that is there is undone
ROTS, ALL = 250, (("undo",), ("undo", "-v"), ("undo", "0"), ("undo", "2"))


def rotten(journal, page, chance=random):
    """A journal of which a digit of this page is another one."""
    at = journal.index(b"page %d " % page) + 7 + chance.randrange(2 * SIZE)
    return journal[:at] + bytes([chance.choice([it for it in b"0123456789ABCDEF" if it != journal[at]])]) + journal[at + 1:]


class Pages(Rows):
    def test_each_page(self):
        self.play_all(cases("damage.rows"))


class Damage(telling.Told):
    begins = BEGINS

    def test_each_rotten_digit_is_told(self):
        """Of two segments, of pages 3 and 5 and of pages 7 and 9: nothing is changed."""
        for pages in (("3", "5"), ("7", "9")):
            self.assertWell(self.at("erase", *pages))
        chance, flash, line, whole = random.Random(1), self.held("flash"), self.held("flash.line"), self.held("journal")
        for number in range(ROTS):
            page, segment = chance.choice(((3, 1), (5, 1), (7, 2), (9, 2)))
            rotted, fault = rotten(whole, page, chance), DAMAGED.format(page, segment)
            with self.subTest(number=number, page=page):
                self.store("journal", rotted)
                self.assertFault(self.at(*ALL[number % len(ALL)]), fault, holds=(flash, line), journal=rotted)
                self.assertFault(self.call(*CHECK), fault, journal=rotted)
                if number % 10 == 0:
                    self.assertTold(self.at("undo", "--trust-journal"), "undone 2\n")
                    given = bytes.fromhex(rotted.split(b"page %d " % page)[1].split(b"\n")[0].decode())
                    self.assertFile("flash", COUNTING[:page * SIZE] + given + COUNTING[(page + 1) * SIZE:])
                    self.store_all({"flash": flash, "flash.line": line})

    def test_a_write_that_is_done_again(self):
        """The undo of one that was broken off compares too: its page rots as it is erased, and the line is cut as it is to be written."""
        class Rotting(telling.Stand):
            def heard(stand, came):
                if came == b"\x43\xbc":
                    self.store("journal", rotten(self.raw("journal"), 0))

        words = ("write", *files("board"), "--wait", WAIT, "--again", "1", "image")
        said = telling.run_beside(self, lambda it: telling.serve_one(self, it, "flash", TOLD, True, Rotting), *words)
        fault = DAMAGED.format(0, 1)
        self.assertEqual(said, Said(1, b"", f"again 1 of 1: line failed; not undone: {fault}\n"
                                    f"stands: segment 1 is unfinished, undo first\nstmflash: {fault}\n".encode()))
