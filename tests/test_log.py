"""What `log` tells of a journal, and what `--check` tells of its lines and pages, without a device and without a table (tests/log.rows)."""

import random
import re

import syncs
from place import HEADER
from rows import Rows, each_named

# so many bytes of a journal are asked for at a time
PIECE = 4096


class Log(Rows):
    def test_a_journal_is_read_in_large_pieces(self):
        """Each but the last is whole, so that a journal of many pages takes few calls. One piece is read ahead, to see that it is one."""
        journal = b"stmjournal 2 0412\nopen 1\n" + b"page 5 " + b"00" * 32768 + b"\nerase 5\nprogram 5\nend 1\n"
        self.store("journal", journal)
        record = syncs.traced(self, "read", "log", "--journal", "journal")
        ahead, came = ([int(count) for count in re.findall(r"read\(.*, \d+\) += (\d+)", "read(" + it)] for it in record.split("stmjournal")[1:])
        whole, rest = divmod(len(journal), PIECE)
        self.assertEqual((ahead, came), ([PIECE], [PIECE] * whole + [rest, 0]))

    def test_each_digit_counts(self):
        """Each digit of a page, made another one, makes its CRC another one."""
        for size in (1, 2, 3, 4, 66):
            digits = random.Random(size).randbytes(size).hex().upper()
            others = [digits]
            for at, digit in enumerate(digits):
                others += [digits[:at] + other + digits[at + 1:] for other in "0123456789ABCDEF" if other != digit]
            lines = "".join(f"page {number} {digits}\n" for number, digits in enumerate(others))
            self.store("journal", HEADER + b"open 1\n" + lines.encode() + b"end 1\n")
            said = self.call("log", "--check", "--journal", "journal")
            sums = re.findall(rb" crc (\w+)\n", said.out)
            with self.subTest(size=size):
                self.assertEqual((said.status, said.err, len(sums)), (0, b"", len(others)))
                self.assertNotIn(sums[0], sums[1:])


each_named(Log, "log.rows")
