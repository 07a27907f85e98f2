"""The journal's file where it is added to: a stop and a disk that is full at one byte after another, and what is on its way to the disk
at once (tests/disk.rows, tests/full.rows); and what comes of calls that fail, are held or are the last (tests/held.rows)."""

import holding
import syncs
from place import HEADER, files
from rows import each_named, in_parts

# a chip with a flash that is shorter than its journal
SMALL_TABLE = b'[[chip]]\nid = 0x412\nbase = 0x08000000\npages = [[2, 256]]\nerase = "page"\n'
SMALL_FLASH = b"\x00" * 512
IMAGE = b"\xaa" * 256
HELD = HEADER + b"open 1\npage 0 " + b"0" * 512 + b"\nerase 0\nprogram 0\nend 1\n"
# how many boards are served at a time
SIDE_BY_SIDE = 16


class Disk(holding.Held):
    def test_a_line_is_whole_on_the_disk_only_behind_what_it_ends(self):
        """A disk writes sectors of 512 bytes in any order, each whole or not at all. Whatever is on its way to it at once has no
        LF but in its first sector, wherever in a sector the journal begins."""
        for begins in (0, 400, 480, 486, 487, 488, 500, 511):
            journal = HEADER + b"." * (begins - len(HEADER) - 2) + b"!\n" if begins else b""
            with self.subTest(begins=begins):
                self.store_all({"table": SMALL_TABLE, "image": IMAGE, "flash": SMALL_FLASH, "flash.line": None, "journal": journal or None})
                held = [journal]

                def look(number, process, held=held):
                    now = self.held("journal")
                    self.assertTrue(now.startswith(held[-1]))
                    first = len(held[-1])
                    for at in range(first, len(now)):
                        if now[at] == 10:
                            self.assertEqual(at // 512, first // 512, f"the LF at {at} of what was added at {first}")
                    held.append(now)

                said, _ = syncs.call(self.folder, ("write", *files(), "image"), at=look)
                self.assertTold(said, "segment 1: 1 pages written\n", journal=journal + (HELD[len(HEADER):] if begins else HELD))
                self.assertTold(self.use("undo"), "undone 1\n")


class OverSocket(holding.Held):
    """The same over a socket: the program alone has no room, the simulator that it talks to has."""


each_named(Disk, "disk.rows")
each_named(OverSocket, "full.rows", lambda self, found: self.play_apart(found, SIDE_BY_SIDE))


class Held(holding.Held):
    """Each case of held.rows."""


in_parts(Held, "held.rows", 10)
