"""What the text of a journal says: whose it is, by the chip and the board that its header names, and what its writes and erases keep."""

import collections
import contextlib
import re

# the header is the first line that isn't void, and what was torn off before it is short
HEADER = re.compile(rb"^stmjournal (?:[12] ([0-9A-F]{4})|3 ([0-9A-F]{4}) ((?:[0-9A-F]{2}){8,32}))$", re.M)
BEGINNING = 4096
# a whole line, but for one that ends with `!`, which is void
LINE = re.compile(rb"\n(open|page|undone) [0-9]+(?: [0-9A-F]+)?(?=\n)")


class Owner(collections.namedtuple("Owner", ("chip", "board"), defaults=(None, None))):
    """The product id of a chip and the unique id of a board, as upper-case digits; None where they aren't known."""

    __slots__ = ()

    def may_be(self, other):
        """Whether both may be one board, as far as they are known."""
        pairs = ((self.chip, other.chip), (self.board, other.board))
        return all(one is None or two is None or one == two for one, two in pairs)

    def takes(self, other):
        """Whether a journal of another owner may be undone on this board, as stmflash has it: one that names no board is any
        board's of its kind. One that can't be read is refused by the next that reads it."""
        return other.chip in (None, self.chip) and other.board in (None, self.board)

    def __str__(self):
        if self.chip is None:
            return "of nobody, since it can't be read"
        return f"of the board {self.board}" if self.board else f"of a chip {self.chip} that doesn't tell its board"


def owner_of(path):
    """Whose the journal at this path is; nobody's where it can't be read."""
    try:
        with open(path, "rb") as file:
            found = HEADER.search(file.read(BEGINNING))
    except OSError:
        found = None
    if not found:
        return Owner()
    short, long, board = (part and part.decode() for part in found.groups())
    return Owner(short or long, board)


def kept_pages(path):
    """How many pages each write and erase has that can be undone by a journal that stmflash can read, the newest last: one that was of what is there
    already keeps none, and has changed nothing."""
    found, held = [], b""
    with contextlib.suppress(OSError), open(path, "rb") as file:
        held = file.read()
    for line in LINE.finditer(held):
        if line[1] == b"open":
            found.append(0)
        elif line[1] == b"undone":
            del found[-1:]
        elif found:
            found[-1] += 1
    return found
