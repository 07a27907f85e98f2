"""OUT that is a pipe or a terminal (tests/linux.rows and tests/held.rows have which names are one file, who may read new files, and how each
is written)."""

import os

from place import COUNTING, Place, all_from, files

NO_OUTPUT = "it is no file, terminal or pipe that is read"


class Files(Place):
    def test_out_may_be_a_pipe(self):
        self.store("flash", COUNTING)
        os.mkfifo(self.path("pipe"))
        # a pipe holds as many bytes as that
        reader = os.open(self.path("pipe"), os.O_RDONLY | os.O_NONBLOCK)
        self.assertSilent(self.use("read", "pipe"))
        self.assertEqual(all_from(reader), COUNTING)
        os.close(reader)

    def test_a_terminal_may_be_a_file_of_the_call(self):
        """It is what is read and where all is told; nothing is lost there."""
        ours, theirs = os.openpty()
        os.write(ours, b"\x04")
        self.assertEqual(self.use("verify", "/dev/stdin", stdin=theirs, stdout=theirs, stderr=theirs).status, 0)
        os.close(ours)
        os.close(theirs)

    def test_a_pipe_that_nobody_reads_is_refused_at_once(self):
        """Before anything is asked of a device that doesn't answer, also where its reader has gone; one that is full is none such."""
        os.mkfifo(self.path("pipe"))
        self.assertFault(self.use("read", "pipe", device="absent-board"), f"cannot write pipe: {NO_OUTPUT}")
        reader = os.open(self.path("pipe"), os.O_RDWR | os.O_NONBLOCK)
        os.write(reader, bytes(1 << 16))
        self.assertFault(self.use("read", "pipe", device="absent-board"), "cannot connect absent-board")
        os.close(reader)
        self.assertFault(self.use("read", "pipe", device="absent-board"), f"cannot write pipe: {NO_OUTPUT}")
        ours, theirs = os.pipe()
        os.close(ours)
        with os.fdopen(theirs, "wb") as out:
            said = self.call("read", *files(), "/dev/stdout", stdout=out)
        self.assertEqual((said.status, said.err), (1, f"stmflash: cannot write /dev/stdout: {NO_OUTPUT}\n".encode()))

    def test_out_may_be_a_terminal(self):
        self.store("flash", COUNTING)
        ours, theirs = os.openpty()
        os.set_blocking(ours, False)
        self.assertSilent(self.use("read", "-S", "0x08000020:64", os.ttyname(theirs)))
        self.assertEqual(os.read(ours, 4096), COUNTING[32:96])
        os.close(ours)
        os.close(theirs)
