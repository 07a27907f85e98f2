"""How the way back is given up: what `keep` leaves beside another file system and a folder that went away (tests/held.rows, tests/uses.rows and
tests/linux.rows have the rest)."""

import os
import tempfile

from place import Place

JOURNAL = b"stmjournal 2 0412\nopen 1\nend 1\nopen 2\npage 0 " + b"0" * 2048 + b"\nend 2\n"


class Keep(Place):
    begins = {"journal": JOURNAL}

    def test_another_file_system_is_told_before_anything_is_sent(self):
        """A journal can't be renamed to it."""
        other = next(it for it in ("/dev/shm", "/run", "/dev") if os.access(it, os.W_OK) and os.stat(it).st_dev != os.stat(self.folder).st_dev)
        with tempfile.TemporaryDirectory(dir=other) as there:
            words, text = f"{there}/elsewhere", f"cannot write {there}/elsewhere: it is on another file system than the journal"
            self.assertFault(self.call("keep", "--journal", "journal", words), text, journal=JOURNAL)
            self.remove("journal")
            self.assertFault(self.use("write", "--keep-to", words, "table", device="absent"), text, journal=None)

    def test_says_so_where_its_folder_went_away(self):
        """A journal is kept only if it's gone then."""
        def leave():
            os.mkdir("away")
            os.chdir("away")
            os.rmdir("../away")

        for words in ((), ("../elsewhere",)):
            with self.subTest(words=words):
                said = self.call("keep", "--journal", "../journal", *words, before=leave)
                if said.status == 0:
                    self.assertTold(said, "kept 2\n", journal=None)
                    self.store("journal", JOURNAL)
                else:
                    self.assertIn(said.err, (b"stmflash: cannot write ../journal\n", b"stmflash: cannot write ../elsewhere\n"))
                    self.assertFile("journal", JOURNAL)
