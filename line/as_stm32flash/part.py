"""Which part of the flash a call is for, by -S, or -s and -e."""

from .fault import Fault


class Part:
    """From `start` on, up to `end`. `is_exact` is False where -e asks for pages behind the flash's end."""

    def __init__(self, start, end, is_exact=True):
        self.start, self.end, self.is_exact = start, end, is_exact

    def word(self):
        """It as stmflash is given it."""
        return f"0x{self.start:08X}:{self.end - self.start}"


def of(words, chip):
    """The part that these words name; the whole flash where they name none."""
    if words.address is not None or words.length is not None:
        return by_address(words, chip)
    if not words.page and not words.pages:
        return Part(chip.base, chip.end)
    first, count = words.page or 0, len(chip.starts) - 1
    if first > count:
        raise Fault("Address range exceeds flash size.")
    last = first + words.pages if words.pages else count
    return Part(chip.starts[first], chip.starts[min(last, count)], last <= count)


def by_address(words, chip):
    start = chip.base if words.address is None else words.address
    if not chip.holds(start):
        raise Fault(f"ERROR: -S 0x{start:08x}: not in the flash of this chip, which ends at 0x{chip.end:08x}")
    return Part(start, min(start + words.length, chip.end) if words.length else chip.end)


def pages(part, chip):
    """The numbers of a part's pages, as stmflash is given them."""
    first, behind = chip.page_from(part.start), chip.page_from(part.end)
    if first is None or behind is None or not part.is_exact:
        raise Fault("Specified start & length are invalid (must be page aligned)")
    return [f"{first}-{behind - 1}"] if first < behind else []
