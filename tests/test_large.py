"""Flashes, journals and tables as large as the limits allow."""

import random

from place import Place, is_slow

from hex_text import text_of

# a flash in 512 pages, of which one write changes all
PAGES = 512
CHIPS = 60


class Large(Place):
    def test_undoes_all_pages(self):
        """A flash of 2 MiB (of 128 KiB by a slow program), of many pages, by a HEX text whose records fall, or of one, as large as a
        table may have it: kept, written in one segment, read back whole, and undone."""
        for pages in (PAGES, 1):
            size = 512 * (256 if is_slow() else 4096)
            dice = random.Random(pages)
            before, image = dice.randbytes(size), dice.randbytes(size)
            table = f'[[chip]]\nid = 0x470\nbase = 0x08000000\npages = [[{pages}, {size // pages}]]\nerase = "extended"\n'
            text = text_of(image, 0x0800_0000, range(0, len(image), 32)[::-1], 32) if pages > 1 else image
            self.store_all({"table": table.encode(), "flash": before, "image": text, "journal": None, "flash.line": None})
            said = self.use("write", "-v", *(() if pages > 1 else ("-S", "0x08000000")), "image", device="sim:0470:flash")
            self.assertTold(said, f"segment 1: {pages} pages written\nverified {size} bytes\n", flash=image)
            self.assertSilent(self.use("read", "out", device="sim:0470:flash"), out=image)
            self.assertTold(self.use("undo", device="sim:0470:flash"), "undone 1\n", flash=before)

    def test_finds_the_last_of_many_chips(self):
        chips = (f'[[chip]]\nid = {n}\nbase = 0x08000000\npages = [[{n}, 256]]\nerase = "page"\n' for n in range(1, CHIPS + 1))
        self.store("table", "".join(chips).encode())
        said = self.use("info", device=f"sim:{CHIPS:04X}:flash")
        self.assertWell(said)
        self.assertIn(b"id %04X\n" % CHIPS, said.out)
