"""What the program was specified to say: each text of it word for word, and its worked examples (tests/stated.rows); and what its words do
to files, case by case (tests/uses.rows, and the pages of rows beside it)."""

from rows import Rows, cases

PAGES = ("stated.rows", "uses.rows", "words.rows", "folders.rows", "answers.rows")
# every text of a fault that was specified, with an example in each place
TEXTS = """line failed; journal failed; out of memory; unfinished command, undo first; unknown chip 0777; address outside the flash;
no erase command; journal is open, refused; differs at 08000001; device does not follow the protocol; bad journal line 2;
journal belongs to another device; journal is full; hex record 1: bad digit; hex record 1: short; hex record 2: checksum; hex record 1: type;
hex record 1: length; hex record 2: conflict; hex record 3: no end; hex record 2: no colon; image past the end; table: syntax;
table: chip 1: missing; table: chip 2: limit; table: chip 2: twice; cannot read absent; cannot write absent/OUT; cannot connect absent;
bad simulator file flash; usage: bad number 08; usage: bad device sim:412:flash; usage: -S needs a raw image;
usage: --stop needs a simulator; usage: give pages or --all; stopped""".replace("\n", " ").split("; ")


def is_of_files(case):
    """Whether a case is of files alone: nothing listens, no call wants less memory than there is."""
    return not any(sign in ("serve", "answer", "memory") or told.startswith("sim ") for sign, told in case[1])


class Stated(Rows):
    def play_page(self, page):
        self.play_all(filter(is_of_files, cases(page)))

    def test_each_case(self):
        self.play_all(case for page in PAGES for case in cases(page) if not is_of_files(case))

    def test_each_use(self):
        self.play_page("stated.rows")
        self.play_page("uses.rows")

    def test_every_text_has_a_case(self):
        told = {line.removeprefix("stmflash: ") for _, lines in cases("stated.rows") for sign, line in lines if sign == "!"}
        self.assertEqual([text for text in TEXTS if text not in told], [])


for name, page in (("of_words", "words"), ("of_a_folder", "folders"), ("that_is_told_as_json", "answers")):
    setattr(Stated, f"test_each_use_{name}", lambda self, page=page: self.play_page(f"{page}.rows"))
for name, page in (("behind_a_crash", "crashed"), ("of_a_protected_flash", "protected"), ("on_linux", "linux"),
                   ("by_a_journal_that_no_board_has", "misfit")):
    setattr(Stated, f"test_each_use_{name}", lambda self, page=page: self.play_all(cases(f"{page}.rows")))
