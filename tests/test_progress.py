"""What is shown while a session runs (tests/progress.rows and tests/terminal.rows), also of a board that answers late, or nothing."""

import concurrent.futures
import os
import pty
import re
import signal
import subprocess
import time

from holding import Held
from place import SILENT, Place, all_from, files, read_some
from rows import cases
from served import Peer, Served
from test_giving_up import be_silent

TABLE = b'[[chip]]\nid = 0x410\nbase = 0x08000000\npages = [[128, 1024]]\nerase = "page"\n'
# what keeps a terminal from wrapping a line of progress that is wider, and lets it wrap again
CUT, WRAP = b"\x1b[?7l", b"\x1b[?7h"
# what a line of a terminal says while pages are changed
STOPPED = "; if stopped: undo 1"


class Progress(Held):
    def set_nothing(self):
        super().set_nothing()
        self.is_terminal = False

    def does(self, sign, told, name, *more):
        if sign == "terminal":
            self.is_terminal = True
        else:
            super().does(sign, told, name, *more)

    def call(self, *words, **how):
        if not self.is_terminal:
            return super().call(*words, **how)
        here, there = pty.openpty()
        # it is read meanwhile, since a terminal that nobody reads holds a writer
        with concurrent.futures.ThreadPoolExecutor(1) as reading:
            all_shown = reading.submit(all_from, here)
            try:
                said = Place.call(self, *words, stderr=there, **how)
            finally:
                os.close(there)
            shown = all_shown.result()
        os.close(here)
        # each line of progress, and nothing else, was cut where it is wider than the terminal
        self.assertEqual(re.findall(rb"(?:\x1b\[\?7l)?\r[^\r\n]+\x1b\[K(?:\x1b\[\?7h)?", shown), re.findall(rb"\x1b\[\?7l\r[^\r\n]+\x1b\[K\x1b\[\?7h", shown))
        shown = re.sub(rb"\rsettling, \d+ bytes sent\x1b\[K", b"", shown.replace(CUT + b"\r", b"\r").replace(b"\x1b[K" + WRAP, b"\x1b[K"))
        self.assertNotRegex(shown, rb"\x1b\[\?7")
        return said._replace(err=re.sub(rb"\r([^\r\n]*)\x1b\[K", rb"<\1>\n", shown).replace(b"\r\n", b"\n"))

    def test_each_line(self):
        self.play_all(cases("progress.rows"))

    def test_on_a_terminal(self):
        self.play_all(cases("terminal.rows"))


class Waiting(Served):
    """What is shown of a board that answers late, or nothing."""

    begins = {"table": TABLE}

    def words(self, name, *words):
        return [name, *files("late"), *words]

    def test_a_silent_board_is_told_once(self):
        """Once nothing came for three seconds, with how many bytes were sent by then; on a terminal that they are sent before."""
        told = re.compile(rb"no answer yet: is the board in its bootloader\? (\d+) bytes sent")
        words = self.words("info", "--wait", "100", "--give-up", "5")
        for shown_where, more in (("file", ["--progress"]), ("terminal", [])):
            with self.subTest(shown_where):
                Peer(self, "late", be_silent)
                here, there = pty.openpty() if shown_where == "terminal" else os.pipe()
                began = time.monotonic()
                with self.start(*words, *more, stdout=subprocess.DEVNULL, stderr=there) as asking:
                    os.close(there)
                    shown, first = b"", None
                    while piece := read_some(here):
                        shown += piece
                        if first is None and told.search(shown):
                            first = time.monotonic() - began
                os.close(here)
                self.assertEqual(asking.returncode, 1)
                self.assertGreater(first or 0, 2.9, shown)
                # a byte goes out before each wait but the first
                self.assertIn(int(told.search(shown)[1]), range(1, 40))
                if shown_where == "file":
                    self.assertEqual(len(told.findall(shown)), 1, shown)
                    self.assertTrue(shown.endswith(f"\nstmflash: no answer from the device\nhint: {SILENT}\n".encode()), shown)
                else:
                    lines = re.findall(rb"\r(settling|no answer yet)[^\r]*? (\d+) bytes sent\x1b\[K", shown)
                    kinds = [kind for kind, _ in lines]
                    self.assertEqual(kinds, sorted(kinds, reverse=True), lines)
                    self.assertIn(b"settling", kinds)
                    # each line stays for a fifth of a second
                    self.assertLess(len(lines), 40, lines)
                self.remove("late")

    def test_how_long_is_left(self):
        """By what the pages before took: three are read, the first of which comes late. Behind the last nothing is left."""
        self.serve(1, number="0410")
        late = [True]

        def change(replies):
            # a block of 256 bytes comes behind its acknowledgement
            if len(replies) > 200 and late:
                late.clear()
                time.sleep(1.5)
            return replies

        began = time.monotonic()
        with self.between(change, "late"):
            said = self.call(*self.words("read", "--progress", "--wait", "1000", "-S", "0x08000400:3072", "out"))
        self.assertEqual((said.status, said.out), (0, b""))
        told = re.fullmatch(rb"page 1 read, 1 of 3 pages, (\d+) s left\npage 2 read, 2 of 3 pages, (\d+) s left\n"
                            rb"page 3 read, 3 of 3 pages\n", said.err)
        self.assertTrue(told, said.err)
        first, second = int(told[1]), int(told[2])
        # twice as long as the first page took, which is a part of all, and a second more at the most
        self.assertIn(first, range(4, int(2 * (time.monotonic() - began)) + 2))
        self.assertLess(second, first)

    def test_a_signal_leaves_what_to_do(self):
        """The last that a terminal shows of a write that Ctrl-C ended at a page's erase; and it is what undoes all."""
        flash = bytes(range(256)) * 512
        self.store_all({"flash": flash, "image": bytes(range(1, 251)) * 256})
        self.serve(2, number="0410")
        erases = []

        def delay(came):
            erases.append(came.count(b"\x43\xbc"))
            return 3600 if sum(erases) == 3 else 0

        # once the third page is to be erased nothing comes any more
        self.delayed(delay, "late")
        here, there = pty.openpty()
        # a shell's job in the background ignores SIGINT, and hands that on
        with self.start(*self.words("write", "-f", "-S", "0x08000000", "image"), stdout=subprocess.DEVNULL, stderr=there,
                        before=lambda: signal.signal(signal.SIGINT, signal.SIG_DFL)) as writing:
            os.close(there)
            shown = b""
            while b"erasing page 2," not in shown:
                shown += read_some(here)
            writing.send_signal(signal.SIGINT)
            shown += all_from(here)
        os.close(here)
        self.assertEqual(writing.returncode, -signal.SIGINT)
        shown = shown.replace(CUT, b"").replace(WRAP, b"")
        self.assertTrue(shown.endswith(STOPPED.encode() + b"\x1b[K"), shown[-80:])
        self.assertTold(self.use(*STOPPED.split(": ")[1].split(), "--wait", "200", device="board"), "undone 1\n")
        self.assertServed(flash=flash)
