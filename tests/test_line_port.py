"""stmflash-line on a port that behaves as a real one does (tests/real.rows), and what becomes of each call of one that is gone, was cut
short or can't be done; and low latency."""

import contextlib
import errno
import io
import os
import termios
import unittest
from unittest import mock

from boards import LinePlace
from rows import cases
from started import Started
from stmflash_line import opening, port
from stmflash_line.faults import Fault, Gone
from stmflash_line.sequences import Moves


class Played(Started):
    def test_each_case(self):
        self.play_all(cases("real.rows"))


class Calls(unittest.TestCase):
    """Each call of a port that is gone, was cut short, or can't be done."""

    def setUp(self):
        self.serial = mock.Mock(**{"fileno.return_value": 99})
        with mock.patch("fcntl.ioctl", side_effect=OSError(errno.ENOTTY, "")):
            self.port = port.Port(self.serial, "PORT", 9600)

    def test_a_port_that_is_gone(self):
        for number in (errno.EIO, errno.ENXIO, errno.ENODEV, errno.EBADF):
            plain, of_termios = OSError(number, ""), termios.error(number, "")
            for patched, fault, call in (("os.read", plain, self.port.read), ("os.write", plain, lambda: self.port.write(b"a")),
                                         ("termios.tcflush", of_termios, self.port.forget),
                                         ("termios.tcdrain", of_termios, lambda: self.port.drain(mock.Mock(number=None)))):
                with self.subTest(number=number, patched=patched), mock.patch(patched, side_effect=[fault]), self.assertRaises(Gone):
                    call()
            for fault in (plain, of_termios):
                with self.subTest(number=number, fault=fault), self.assertRaises(Gone):
                    self.play("rts", fault)
        with mock.patch("os.read", return_value=b""), self.assertRaises(Gone):
            self.port.read()

    def play(self, name, fault):
        """Plays a move that fails, and a wait behind it; which waits there were."""
        class Failing:
            def __setattr__(self, moved, _):
                if moved == name:
                    raise fault

            def send_break(self):
                raise fault

        self.port.serial, waited = Failing(), []
        Moves(self.port, None).play([(name, True), ("wait", 0.5)], waited.append)
        return waited

    def test_a_signal_that_is_not_there(self):
        for number in (errno.ENOTTY, errno.EINVAL):
            for fault in (OSError(number, ""), termios.error(number, "")):
                for name in ("rts", "dtr", "brk"):
                    with self.assertRaisesRegex(Fault, f"\\APORT: has no {name.upper()}; leave --wiring, --boot and --after out\\Z"):
                        self.play(name, fault)

    def test_what_is_forgotten(self):
        """Also the first half of a mark, whose other half is forgotten with it."""
        with mock.patch("os.read", return_value=b"a\xff"):
            self.assertEqual(self.port.read(), (b"a", 0))
        with mock.patch("termios.tcflush") as flush:
            self.port.forget()
        flush.assert_called_once_with(99, termios.TCIFLUSH)
        with mock.patch("os.read", return_value=b"\x00b"):
            self.assertEqual(self.port.read(), (b"\x00b", 0))

    def test_what_a_signal_cuts_short_goes_on(self):
        self.assertEqual(self.play("brk", termios.error(errno.EINTR, "")), [0.5])
        with mock.patch("termios.tcdrain", side_effect=[termios.error(errno.EINTR, ""), None]) as drain:
            self.port.drain(mock.Mock(number=None))
        self.assertEqual(drain.call_count, 2)

    def test_a_signal_that_ends_us_ends_the_wait_for_a_port_that_takes_nothing(self):
        wake = mock.Mock(number=None)

        def cut_short(_):
            self.assertIsNone(wake.number, "it waits again")
            wake.number = 15
            raise termios.error(errno.EINTR, "")

        with mock.patch("termios.tcdrain", cut_short):
            self.port.drain(wake)

    def test_a_port_that_is_full(self):
        with mock.patch("os.write", side_effect=BlockingIOError), mock.patch("os.read", side_effect=BlockingIOError):
            self.assertEqual((self.port.write(b"a"), self.port.read()), (0, (b"", 0)))

    def test_bytes_that_were_lost_before(self):
        """Before the port was opened they were another program's, and before its reset the board's own."""
        counts = [5, 5, 6, 8, 8]

        def count(_, __, counters):
            counters[10] = counts.pop(0)

        with mock.patch("fcntl.ioctl", side_effect=count), mock.patch("os.read", return_value=b"a"), mock.patch("termios.tcflush"):
            held = port.Port(self.serial, "PORT", 9600)
            self.assertEqual([held.read(), held.read(), held.forget(), held.read()], [(b"a", 0), (b"", 1), None, (b"a", 0)])

    def test_a_driver_that_counts_nothing_is_asked_once(self):
        with mock.patch("fcntl.ioctl", side_effect=OSError(errno.ENOTTY, "")) as ioctl, mock.patch("os.read", return_value=b"a"):
            self.assertEqual(self.port.read(), (b"a", 0))
            self.assertEqual(ioctl.call_count, 0)


class Latency(LinePlace):
    """An adapter with a timer of FTDI's."""

    def hasten(self, *numbers):
        """What is said, and the timer behind it; `numbers` are what it tells, where it keeps what it will."""
        os.makedirs(self.path("adapter/device"), exist_ok=True)
        self.store("adapter/device/latency_timer", b"16\n")
        asked, told = mock.Mock(), mock.Mock(side_effect=numbers or None, wraps=opening.read_number)
        with contextlib.redirect_stderr(io.StringIO()) as said, mock.patch.object(opening, "TTY", self.folder), \
                mock.patch.object(opening, "read_number", told), mock.patch.object(os.path, "realpath", {"PORT": "/dev/adapter"}.get):
            opening.hasten(asked, "PORT")
        asked.set_low_latency_mode.assert_called_once_with(True)
        return said.getvalue(), self.held("adapter/device/latency_timer")

    def test_a_timer_that_can_be_set_and_one_that_is_quick(self):
        self.assertEqual((self.hasten(), self.hasten(2)), (("", b"1"), ("", b"16\n")))

    def test_one_that_stays_is_told(self):
        self.assertEqual(self.hasten(16, 16, 16)[0], f"stmflash-line: PORT: holds bytes back for 16 ms, which makes it slow; "
                         f"as root: echo 1 > {self.path('adapter/device/latency_timer')}\n")

    def test_a_port_without_one(self):
        for fault in (OSError(errno.ENOTTY, ""), ValueError(), NotImplementedError(), termios.error(errno.EINVAL, "")):
            asked = mock.Mock(**{"set_low_latency_mode.side_effect": fault})
            with contextlib.redirect_stderr(io.StringIO()) as said, mock.patch.object(opening, "TTY", self.path("none")):
                opening.hasten(asked, "PORT")
            self.assertEqual(said.getvalue(), "")
