"""A write with what follows it in the same call over a line that fails: the journal kept, Go, and the write done again
(tests/one_call.rows; tests/uses.rows has how far one goes that is stopped)."""

import contextlib
import fcntl
import os

from place import PATIENCE, WAIT, ZEROS, Place, Said
from rows import Rows, bytes_of, each_named
from served import relay


def full_pipe():
    """Both ends of a pipe that holds as much as it can: who writes to it waits until it is read."""
    told, into = os.pipe()
    os.set_blocking(into, False)
    with contextlib.suppress(BlockingIOError):
        while os.write(into, b"."):
            pass
    os.set_blocking(into, True)
    return told, into


def is_free(name):
    """Whether no program has a file for itself."""
    with open(name, "rb") as file, contextlib.suppress(BlockingIOError):
        fcntl.flock(file, fcntl.LOCK_SH | fcntl.LOCK_NB)
        return True
    return False


class Lines(Rows):
    def begin(self):
        super().begin()
        self.sent, self.more, self.simulator = [], None, None

    def tearDown(self):
        # the board's files are written once its client is gone
        if self.simulator is not None:
            self.simulator.kill()
            self.simulator.communicate()
        self.remove(*(name for name in os.listdir(self.folder) if name.endswith(".new")))
        super().tearDown()

    def lay(self, cuts):
        """A line to a served simulator that is cut after so many bytes of the host, a number for each connection, or none."""
        self.serve(len(cuts))
        listener = self.listen("line")

        def hear(came):
            self.sent[-1] += came

        def carry():
            for cut in cuts:
                host, _ = listener.accept()
                with host, self.connect("board") as board:
                    self.sent.append(b"")
                    relay(host, board, heard=hear, cut=cut)

        self.beside(listener, carry)

    def places(self):
        """Where the erase frame of a write that isn't cut has gone out but for its end, and the write itself."""
        self.lay([None])
        self.assertEqual(self.use("write", "-v", "--wait", WAIT, "image", device="line").status, 0)
        sent = self.sent.pop()
        self.remove("line", "journal")
        self.simulator.wait(PATIENCE)
        self.store_all({"flash": ZEROS, "flash.line": b"fresh\n"})
        return {"erase": sent.index(b"\x43\xbc") + 3, "verify": len(sent) - 3}

    def call(self, *words, **how):
        """Runs the program; where more comes into its journal meanwhile, what it tells has to wait until then, behind the second connection."""
        if self.more is None:
            return super().call(*words, **how)
        (told, into), more, self.more = full_pipe(), self.more, None
        with Place.start(self, *words, stderr=into) as writing, open(told, "rb") as told:
            os.close(into)
            self.until(lambda: len(self.sent) >= 2 and is_free(self.path("journal")), "the journal stays in use")
            self.add("journal", more)
            err = told.read().lstrip(b".")
            return Said(writing.wait(PATIENCE), writing.stdout.read(), err)

    def does(self, sign, told, name, *more):
        if sign == "lay":
            places = self.places() if {"erase", "verify"} & {name, *more} else {}
            self.lay([None if it == "whole" else places[it] if it in places else int(it) for it in (name, *more)])
        elif sign == "meanwhile":
            self.more = bytes_of(told)
        elif sign == "ended":
            self.simulator.wait(PATIENCE)
        elif sign == "connections":
            self.assertEqual(len(self.sent), int(told))
        elif sign == "sent":
            self.assertRegex(self.sent[0].hex().upper(), rf"\A{told}\Z")
        else:
            super().does(sign, told, name, *more)


each_named(Lines, "one_call.rows")
