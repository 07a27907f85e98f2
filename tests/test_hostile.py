"""Sessions at boards that do them harm: each ends in time, with one clear line, and nothing is lost.

Each kind has one command; STMFLASH_LONG=1 tries each command on each kind of board.
"""

import collections
import concurrent.futures
import os
import time
import tomllib
import typing

import hostile
from hostile import FLASH, Line
from place import Place, Said, text_in
from served import Peer

# when a board is given up, and how long a reply may take, in seconds, where it matters whether one is late: so that a busy machine's answers
# don't come near
GIVE_UP, LONG_WAIT = 2, 0.5
# what is told of a board that is gone
GONE = "no answer from the device"

# how much longer than it waits for an answer a session may take, in seconds; one that took longer beside others, on a busy machine,
# is tried again alone, so often at most, and so many of them. For the slowest command there is more beside them
SPARE, AGAIN, FEW, MARGIN = 2, 2, 4, 16
# how long the slowest command is waited for, whatever else is said, in seconds
SLOWEST = 40
# how many calls go on at once
AT_ONCE = 8
# how many kinds each command meets, at least
LEAST = 6
# boards that every command meets at the default wait too, which is longer
AT_DEFAULT = ("silent", "deaf", "echoes", "doubles")
START, SIZE = 5 * 1024, 1024
PAGE = f"page 5 {FLASH[START:START + SIZE].hex().upper()}".encode()
BEGUN = b"stmjournal 2 0412\nopen 1\n" + PAGE + b"\nerase 5\n"
IMAGE = bytes(256)
COMMANDS = {"info": ("info",), "read": ("read", "-S", f"{0x08000000 + START:#x}:{SIZE}", "OUT"),
            "write": ("write", "-S", f"{0x08000000 + START:#x}", "image"), "undo": ("undo",)}
# the lines that a session adds to a journal of page 5
LINES = (b"stmjournal 2 0412", b"open 1", PAGE, b"connect!", b"silent!", b"erase 5", b"program 5", b"end 1", b"undone 1")


class Kind(typing.NamedTuple):
    """A kind of boards, as hostile.toml tells it."""

    made: str
    command: str
    row: str
    sets: dict = {}
    faults: list = [GONE]
    hints: list = [""]
    undo: list = []
    undo_hints: list = []
    may_end: list = []
    is_slow_at: list = []
    wait: float = 0.1
    is_model: bool = False


KINDS = {name: Kind(**told) for name, told in tomllib.loads(text_in("tests", "hostile.toml")).items()}


class Came(typing.NamedTuple):
    """What came of one call: for how many seconds it went on behind the first byte to the board, of an undo at one that says
    nothing behind its beginning, or behind the board's last one where that answers as a board of the model for a while; and what
    came of the same place at a board that is well."""

    said: Said
    seconds: float
    journal: typing.Optional[bytes]
    read: typing.Optional[bytes]
    board: typing.Optional[hostile.Board]
    after: Said
    flash_after: bytes


class Hostile(Place):
    def at(self, folder, serve, words, wait=LONG_WAIT):
        """Runs the program at a board that is served so: what it said, when it ended, and its line. A wait of none is the default."""
        lines = []

        def serve_line(line, ending):
            lines.append(Line(line))
            serve(lines[0], ending)

        peer = Peer(self, f"{folder}/board", serve_line)
        waits = () if wait is None else ("--wait", str(int(1000 * wait)))
        said = self.use(words[0], "--give-up", str(GIVE_UP), *waits, *words[1:], device="board", cwd=self.path(folder))
        ended = time.monotonic()
        peer.end()
        self.assertTrue(lines, f"nobody came: {said}")
        self.remove(f"{folder}/board")
        return said, ended, lines[0]

    def once(self, name, command, again=0, at_default=False):
        """One command at one kind of board; and what it left, at a board that is well and was reset."""
        kind = KINDS[name]
        folder = f"{list(KINDS).index(name)}-{command}-{again}"
        os.mkdir(self.path(folder))
        self.store_all({f"{folder}/table": self.held("table"), f"{folder}/image": IMAGE})
        if command == "undo":
            self.store(f"{folder}/journal", BEGUN)
        made = getattr(hostile, kind.made)
        board = made(**kind.sets) if isinstance(made, type) else None
        said, ended, line = self.at(folder, board.serve if board else made, COMMANDS[command], None if at_default else kind.wait)
        is_silent = line.last is None
        began = line.reached if command == "undo" and is_silent else line.first or line.reached
        since = line.last if kind.is_model and line.last else began
        journal, read = self.held(f"{folder}/journal"), self.held(f"{folder}/OUT")
        well = hostile.Board()
        well.flash = bytearray(board.flash if board else FLASH)
        after, _, _ = self.at(folder, well.serve, ("undo" if journal else "info", "--fresh"))
        return Came(said, ended - since, journal, read, board, after, bytes(well.flash))

    def test_each_ends_in_time(self):
        """Each kind of board with its command, or with each."""
        is_long = os.environ.get("STMFLASH_LONG") == "1"
        self.assertAllEnd(((name, command) for name, kind in KINDS.items() for command in (COMMANDS if is_long else (kind.command,))), False)

    def test_each_ends_in_time_at_the_default_wait(self):
        self.assertAllEnd(((kind, command) for kind in AT_DEFAULT for command in COMMANDS), True)

    def assertAllEnd(self, met, at_default):
        """Each of these commands ends in time at its board, with one clear line, and nothing is lost."""
        with concurrent.futures.ThreadPoolExecutor(AT_ONCE) as pool:
            begun = [(kind, command, pool.submit(self.once, kind, command, 0, at_default)) for kind, command in met]
            all_came = [(kind, command, calling.result()) for kind, command, calling in begun]
        late = [(kind, command) for kind, command, came in all_came if command not in KINDS[kind].is_slow_at and came.seconds >= GIVE_UP + SPARE]
        for kind, command, came in all_came:
            with self.subTest(kind, command=command):
                for again in range(1, AGAIN + 1):
                    if (kind, command) not in late[:FEW] or came.seconds < GIVE_UP + SPARE:
                        break
                    came = self.once(kind, command, again, at_default)
                self.assertInTime(KINDS[kind], command, came)
                self.assertEnded(KINDS[kind], command, came)
                self.assertKept(command, came)
                self.assertGoesBack(came)

    def assertInTime(self, kind, command, came):
        """Not before a board that falls silent may be given up, and `--give-up` and two seconds at most, but for erases and writes."""
        least, most = 0, GIVE_UP + SPARE
        if command in kind.is_slow_at:
            least, most = SLOWEST - 1, SLOWEST + SPARE + MARGIN
        elif kind.is_model and came.said.err == f"stmflash: {GONE}\n".encode():
            least = 0.9 * GIVE_UP
        self.assertTrue(least <= came.seconds < most, f"{came.seconds:.1f} s, {came.said}")

    def assertEnded(self, kind, command, came):
        """One line says why, and perhaps a hint; or all was done, where that kind of board may let it."""
        if came.said.status == 0:
            self.assertIn(command, kind.may_end)
            self.assertEqual(came.said.err, b"")
            self.assertDone(command, came)
            return
        self.assertEqual((came.said.status, came.said.out), (1, b""))
        faults, hints = (command == "undo" and its or others for its, others in ((kind.undo, kind.faults), (kind.undo_hints, kind.hints)))
        told = [f"stmflash: {fault}\n" + (f"hint: {hint}\n" if hint else "") for fault in faults for hint in hints]
        self.assertIn(came.said.err.decode(), told)

    def assertDone(self, command, came):
        """What says that it was done, was."""
        if command == "read":
            self.assertEqual(came.read, FLASH[START:START + SIZE])
        if command == "write":
            self.assertEqual(came.board.flash[START:START + len(IMAGE)], IMAGE)
            self.assertTrue(came.journal.endswith(b"\nend 1\n"))
        if command == "undo":
            self.assertEqual(came.board.flash, FLASH)
            self.assertTrue(came.journal.endswith(b"\nundone 1\n"))

    def assertKept(self, command, came):
        """The journal has what it had, and whole lines that a session adds; without a further erase in it no page was changed."""
        before = BEGUN if command == "undo" else b""
        journal = came.journal or b""
        self.assertEqual(journal[:len(before)], before)
        if command in ("info", "read"):
            self.assertIsNone(came.journal)
        if command != "read" or came.said.status != 0:
            self.assertIsNone(came.read)
        *added, last = journal[len(before):].split(b"\n")
        self.assertEqual(([line for line in added if line not in LINES], last), ([], b""))
        if came.board is None:
            return
        flash = bytes(came.board.flash)
        self.assertEqual(flash[:START] + flash[START + SIZE:], FLASH[:START] + FLASH[START + SIZE:])
        if b"erase 5" not in added:
            self.assertEqual(flash, FLASH)

    def assertGoesBack(self, came):
        """A board that is well is served, and an undo gives it back what the first one had."""
        self.assertEqual((came.after.status, came.flash_after), (0, FLASH), came.after)
        # where the first one ended before it kept a page
        self.assertIn(came.after.err, (b"", b"note: segment 1 had changed nothing; 0 more can be undone\n"))

    def test_each_command_meets_some(self):
        met = collections.Counter(kind.command for kind in KINDS.values())
        self.assertTrue(all(met[command] >= LEAST for command in COMMANDS), met)

    def test_the_table_tells_each(self):
        """docs/UNDO.md has a row for each kind, with each fault and the hints that are told there; and no row without one."""
        part = text_in("docs", "UNDO.md").split("\n### Boards that aren't well\n")[1].split("\n## ")[0]
        rows = {row.split(" | ")[0].removeprefix("| "): row for row in part.splitlines() if row.startswith("| ")}
        self.assertEqual(set(rows) - {"The board"}, {kind.row for kind in KINDS.values()})
        self.assertIn(f"has {len(KINDS)} kinds", part)
        for name, kind in KINDS.items():
            with self.subTest(name):
                for told in (*kind.faults, *kind.undo, *(hint.split(":")[0] for hint in kind.hints if hint)):
                    self.assertIn(f"`{told}`", rows[kind.row])
