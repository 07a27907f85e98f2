"""What the options of a device do, and which words can't be done (tests/options.rows)."""

import os
import signal
import socket

from holding import Held
from place import files
from rows import each_named

CANNOT = b"stmflash: cannot write standard output\n"


class Options(Held):
    def written(self, words, is_fault=False):
        """What a use writes on standard output, or on standard error: each writing apart."""
        ours, theirs = socket.socketpair(socket.AF_UNIX, socket.SOCK_SEQPACKET)
        with ours, theirs:
            self.call(*words, **{"stderr" if is_fault else "stdout": theirs})
            theirs.close()
            return list(iter(lambda: ours.recv(1 << 20), b""))

    def test_what_is_told_is_written_at_once(self):
        """Who takes a line of it and goes, as head does, finds no part missing, and no fault comes of it."""
        self.store("image", b"\xaa")
        for words in (("--help",), ("--version",), ("info", *files()), ("info", *files(), "--raw"), ("read", *files(), "-"),
                      ("erase", *files(), "5"), ("write", *files(), "-v", "image"), ("log", "--journal", "journal"),
                      ("undo", *files()), ("keep", "--journal", "journal")):
            with self.subTest(words=words):
                written = self.written(words)
                self.assertEqual(len(written), 1, written)
                self.assertTrue(written[0].endswith(b"\n") or "-" in words)
        self.assertEqual(self.written(("info", *files(), "--stop", "0"), True), [b"stmflash: stopped\n"])
        self.assertEqual(self.written(("keep", "--journal", "absent"), True), [b"stmflash: cannot read absent\n"])

    def test_a_standard_output_that_nobody_reads_is_told(self):
        """Of an answer of several lines, and of one; a use that tells nothing has nothing to fail."""
        ours, theirs = os.pipe()
        os.close(ours)
        self.addCleanup(os.close, theirs)
        for words, text in ((("info",), CANNOT), (("erase", "5"), CANNOT), (("read", "out"), b"")):
            with self.subTest(words=words):
                said = self.use(*words, stdout=theirs, before=lambda: signal.signal(signal.SIGPIPE, signal.SIG_IGN))
                self.assertEqual((said.status, said.err), (1 if text else 0, text))

    def test_a_serial_port_is_no_socket(self):
        """It is told how the line to one is joined, and nothing is opened or written."""
        ours, theirs = os.openpty()
        self.addCleanup(os.close, ours)
        self.addCleanup(os.close, theirs)
        os.symlink(os.ttyname(theirs), self.path("port"))
        for name in (os.ttyname(theirs), "port", "/dev/null"):
            with self.subTest(name=name):
                port = f"serial ports want stmflash-line {name} -- stmflash .. (no --device)"
                self.assertFault(self.use("erase", "5", device=name), f"cannot connect {name}", hint=port)
        self.each((".", "table", "absent"), lambda name: self.assertFault(self.use("erase", "5", device=name), f"cannot connect {name}"))
        self.assertEqual(sorted(os.listdir(self.folder)), ["port", "table"])


each_named(Options, "options.rows")
