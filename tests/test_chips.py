"""Each chip of chips.toml on its simulator, in the process and served: what it is told to be, a verified write into its last
page, and its undo; and what each entry says of itself."""

import re
import tomllib

from place import WAIT, is_slow, text_in
from served import Served

from device import Chip
from program import tell

TABLE = text_in("chips.toml")
CHIPS = {f"{chip['id']:04X}": chip for chip in tomllib.loads(TABLE)["chip"]}
# the one that no maker sells
FOR_TESTS = "0A01"
# chips that are served too: of many pages, of sectors of three sizes, erased by 44, erased to 00
SERVED = ("0410", "0413", "0430", "0416")
# so many tests share the chips, so that they run side by side
PARTS = 6
IMAGE = b"a last page's last bytes"
# families of which something isn't known: the words of their notes, and which ids begin so in stm32flash's and OpenOCD's tables
EIGHT = ("0466", "0456", "0460", "0467", "0468", "0469", "0479", "0464", "0435", "0462", "0415", "0461", "0470", "0471", "0472", "0494",
         "0495", "0496", "0497")
# what `notes` says of whence the places are known
SIZE_AT = ("size_at: Debian's libstlink1 1.7.0", "size_at: OpenOCD 0.12", "size_at: from memory of the reference manual, unchecked")
UNIQUE = ("unique: from memory of the reference manual, unchecked",)
BANKS = ("0430", "0419", "0434", "0467", "0469", "0450", "0415", "0461", "0470", "0471", "0472", "0480", "0482")


def chip_of(number):
    entry = CHIPS[number]
    sizes = [size for count, size in entry["pages"] for _ in range(count)]
    return Chip(int(number, 16), entry["base"], sizes, entry["erase"] == "extended", entry.get("erased", 255))


def flash_of(number):
    """A flash of a chip without an erased page."""
    size = chip_of(number).size
    return (bytes(range(251)) * (size // 251 + 1))[:size]


class Chips(Served):
    begins = {"table": TABLE.encode()}

    def try_chip(self, number, device, wait=()):
        """What it is; a write into the last page, which keeps all else; and the way back."""
        chip = chip_of(number)
        place = chip.size - len(IMAGE)
        told = self.use("info", *wait, device=device)
        self.assertWell(told)
        self.assertTrue(told.out.startswith(tell(chip, chip.version(), []).partition(b"version")[0] + b"version "), told)
        self.store("image", IMAGE)
        words = ("-v", "-S", f"0x{chip.base + place:08X}", "image")
        self.assertTold(self.use("write", *wait, *words, device=device), f"segment 1: 1 pages written\nverified {len(IMAGE)} bytes\n")
        if not wait:
            self.assertFile("flash", flash_of(number)[:place] + IMAGE)
        self.assertTold(self.use("undo", *wait, device=device), "undone 1\n")

    def try_part(self, part):
        for number in sorted(CHIPS)[part::PARTS]:
            # a slow program has the small ones
            if is_slow() and chip_of(number).size > 128 << 10:
                continue
            with self.subTest(chip=number):
                self.clear("journal", "flash.line")
                before = flash_of(number)
                self.store("flash", before)
                self.try_chip(number, f"sim:{number}:flash")
                self.assertFile("flash", before)

    def try_served(self, number):
        before = flash_of(number)
        self.store("flash", before)
        self.serve(3, number=number)
        self.try_chip(number, "board", ("--wait", WAIT))
        self.assertServed(flash=before)

    def test_each_says_where_its_numbers_come_from(self):
        for number, chip in CHIPS.items():
            if number == FOR_TESTS:
                continue
            with self.subTest(chip=number):
                tables, notes = chip["tables"].split(", "), " ".join(chip.get("notes", ()))
                self.assertGreater(len(chip["name"]), 5)
                self.assertLessEqual(set(tables), {"stm32flash", "OpenOCD"})
                self.assertRegex(chip.get("manual", "RM0000"), r"^[RP]M\d{4}(, [RP]M\d{4})*$")
                if tables != ["stm32flash", "OpenOCD"]:
                    self.assertTrue(re.search("doubtful|alone|OpenOCD has", notes), notes)
                self.assertEqual("manual" in chip, "alone" not in notes)
        self.assertEqual(len(CHIPS), 60)

    def test_each_is_in_the_page(self):
        """FORMATS has a table with each id and its parts, and none besides."""
        table = text_in("docs", "FORMATS.md").split("| Family | Ids |\n|---|---|\n")[1].split("\n\n")[0]
        told = [it.strip() for row in table.splitlines() for it in row.split("|")[2].split(". ")]
        self.assertEqual(sorted(told), sorted(f"{number} " + re.sub("^STM32(?!W)", "", chip["name"]) for number, chip in CHIPS.items()))

    def test_what_is_not_known_stands_at_the_entry(self):
        for number, chip in CHIPS.items():
            notes = " ".join(chip.get("notes", ()))
            with self.subTest(chip=number):
                for note, those in (("words of 8 bytes", EIGHT), ("words of 16 bytes", ("0480", "0482")), ("words of 32 bytes", ("0450", "0483")), ("second bank", BANKS)):
                    self.assertEqual(note in notes, number in those, note)

    def test_each_says_whence_it_knows_where_its_board_is_told(self):
        for number, chip in CHIPS.items():
            notes = chip.get("notes", ())
            with self.subTest(chip=number):
                self.assertEqual(["size_at" in chip, "unique" in chip], [any(note in those for note in notes) for those in (SIZE_AT, UNIQUE)])
                # the pages of a smaller part may not be the first ones
                self.assertFalse("size_at" in chip and number in BANKS)
        self.assertEqual([sum(key in chip for chip in CHIPS.values()) for key in ("size_at", "unique")], [41, 56])

    def test_the_places_lie_outside_the_flash_and_apart(self):
        for number, chip in CHIPS.items():
            end = chip["base"] + chip_of(number).size
            places = [chip["unique"]] if "unique" in chip else []
            places += [[chip["size_at"], 2]] if "size_at" in chip else []
            with self.subTest(chip=number):
                for at, length in places:
                    self.assertTrue(at + length <= chip["base"] or end <= at)
                if len(places) == 2:
                    (at, length), (size_at, _) = places
                    self.assertTrue(at + length <= size_at or size_at + 2 <= at)
                    self.assertEqual(at % 4, 0)


for part in range(PARTS):
    setattr(Chips, f"test_each_on_its_simulator_{part}", lambda self, part=part: self.try_part(part))
for number in SERVED:
    setattr(Chips, f"test_served_{number}", lambda self, number=number: self.try_served(number))
