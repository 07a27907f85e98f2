"""Devices that answer nothing, or something else, or late, and when they are given up (tests/giving.rows)."""

import itertools
import time

from hostile import be_noisy, be_silent, echo, repeating
from place import HEAD, PATIENCE, SILENT, with_page
from rows import Rows, in_parts
from served import Peer, Served


def be_deaf(_, ending):
    """Neither reads nor says anything."""
    ending.wait(PATIENCE)


# says something now and then, more often than a host waits for
hiss = repeating(0.01, lambda: b"\x55")


def fall_silent(line, ending):
    """Is a bootloader until it is asked for the first thing."""
    for reply in (b"\x79", b"", b"\x1f"):
        if line.recv(1) != b"\x7f":
            return
        line.sendall(reply)
    be_silent(line, ending)


def mutter(line, ending):
    """Says something five times, a second apart."""
    for _ in range(5):
        ending.wait(1)
        line.sendall(b"\x55")


KINDS = {"silent": be_silent, "mutters": mutter, "deaf": be_deaf, "echo": echo, "noisy": be_noisy, "hiss": hiss, "falls": fall_silent}


class Played(Rows):
    def late(self, last, seconds, *is_once):
        """How long is held back what follows a piece that came."""
        waits, last = itertools.count(), None if last == "any" else bytes.fromhex(last)
        return lambda came: float(seconds) if last in (None, came) and not (next(waits) and is_once) else 0

    def does(self, sign, told, name, *more):
        if sign == "peer":
            Peer(self, "peer", KINDS[name])
        elif sign == "late":
            self.delayed(self.late(name, *more))
        else:
            super().does(sign, told, name, *more)


in_parts(Played, "giving.rows", 6)


class GivingUp(Served):
    def test_a_silent_device_is_given_up_as_soon_by_an_undo(self):
        """The silence before its 7F counts: behind two batches and two bytes just the rest of `--give-up` is waited, which is
        counted from the first byte on. The first draining, before it, is one wait more."""
        self.store("journal", with_page(HEAD, b"0", b"\nerase 5\n"))
        Peer(self, "peer", be_silent)
        began = time.monotonic()
        self.assertFault(self.use("undo", "--wait", "400", "--give-up", "3", device="peer"), "no answer from the device", hint=SILENT)
        seconds = time.monotonic() - began
        self.assertGreater(seconds, 3.3)
        self.assertLess(seconds, 4.6)


class SilentClient(Served):
    def test_is_left_for_the_next_one(self):
        """A client of the simulator that says nothing for a minute has its line ended, and not before; the device stays as it stood."""
        self.serve(2)
        silent, client = self.connect(), self.connect()
        silent.sendall(b"\x7f\x43")
        self.assertEqual(silent.recv(2), b"\x79")
        begun = time.monotonic()
        # the byte that ends the other's command
        client.sendall(b"\xbc")
        self.assertEqual(client.recv(2), b"\x79")
        self.assertGreater(time.monotonic() - begun, 50)
        self.assertEqual(silent.recv(1), b"")
        self.assertServed(client)
        self.assertFile("flash.line", b"rest 43BC\n")
