"""stmflash-line over pseudo-terminals, with simulated boards behind them (tests/started.rows), eight at once, and killed."""

import concurrent.futures
import os
import random
import threading
import time

from boards import LinePlace
from place import COUNTING, ERASED, PATIENCE, SIZE
from rows import in_parts
from started import Started

KILLS = int(os.environ.get("STMFLASH_LINE_KILLS", "6"))


class Played(Started):
    """Each case of started.rows."""


in_parts(Played, "started.rows", 6)


class Sessions(LinePlace):
    def test_eight_at_once(self):
        boards = [self.board(f"ttyUSB{number}") for number in range(8)]
        images = [random.Random(number).randbytes(5000) for number in range(8)]

        def use(number, name, *words):
            self.store(f"image{number}", images[number])
            said = self.line(f"ttyUSB{number}", "--", *self.stmflash(name, *words, journal=f"journal{number}"))
            return said.status, said.err

        with concurrent.futures.ThreadPoolExecutor(8) as pool:
            place = ("-v", "-f", "-S", "0x08000100")
            written = pool.map(lambda number: use(number, "write", *place, f"image{number}"), range(8))
            self.assertEqual(list(written), [(0, b"")] * 8)
            for board, image in zip(boards, images):
                self.assertEqual(board.store(), ERASED[:256] + image + ERASED[256 + len(image):])
            self.assertEqual(list(pool.map(lambda number: use(number, "undo"), range(8))), [(0, b"")] * 8)
        self.assertEqual([board.store() for board in boards], [ERASED] * 8)


class Serving(LinePlace):
    def test_no_byte_is_lost_or_doubled(self):
        """Many at once both ways, in pieces of all sizes."""
        master = self.plain()
        self.serve()
        client = self.connect()
        chance = random.Random(7)
        down, up = chance.randbytes(1 << 20), chance.randbytes(1 << 20)
        # what a port marks is well among them
        down = down.replace(b"\x01", b"\xff").replace(b"\x02", b"\x00")

        def feed(send, data):
            at = 0
            while at < len(data):
                at += send(data[at:at + chance.randint(1, 9000)])

        def take(receive, held, count):
            while sum(map(len, held)) < count:
                held.append(receive(70000))

        came_down, came_up = [], []
        parts = [threading.Thread(target=act, args=how, daemon=True) for act, *how in (
            (feed, client.send, down), (feed, lambda data: os.write(master, data), up),
            (take, lambda most: os.read(master, most), came_down, len(down)), (take, client.recv, came_up, len(up)))]
        for part in parts:
            part.start()
        for part in parts:
            part.join(PATIENCE)
            self.assertFalse(part.is_alive(), "bytes are missing")
        self.assertTrue(b"".join(came_down) == down and b"".join(came_up) == up)


class Kills(LinePlace):
    """STMFLASH_LINE_KILLS says how many, 6 without it."""

    def test_what_was_killed_is_undone(self):
        """The companion, the program or both are killed at random moments of a write; `undo` gives the flash back."""
        seed, most = time.time_ns(), 3.0
        chance = random.Random(seed)
        board = self.board(flash=COUNTING)
        for turn in range(KILLS):
            with self.subTest(turn=turn, seed=seed):
                self.store("image", chance.randbytes(SIZE))
                started, child = self.start_known(*self.stmflash("write", "-f", "-S", "0x08000000", "image", wait="100"))
                time.sleep(chance.uniform(0.3, most))
                killed = chance.choice(("line", "client", "both"))
                most = max(0.5, most * (0.9 if self.kill_some(killed, started, child) == 0 else 1.02))
                started.stdout.close()
                started.stderr.close()
                board.renew()
                # where it was killed before the journal was made, there is none to undo by
                # and where it was before a page was kept, nothing had changed
                due = (b"", b"note: segment 1 had changed nothing; 0 more can be undone\n") if self.is_there("journal") else (b"note: journal journal isn't there\n",)
                said = self.line("ttyUSB0", "--", *self.stmflash("undo"))
                self.assertEqual(said.status, 0, killed)
                self.assertIn(said.err, due, killed)
                self.assertTrue(board.store() == COUNTING, f"the flash isn't what it was: {killed}, {said.out}")
        self.line("ttyUSB0", "--", "true")
