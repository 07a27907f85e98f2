"""The parts of stmflash-line that no pseudo-terminal shows: sequences on RTS, DTR and break, and bytes that came with an error.

Sequences are played on pyserial's own stand-in (tests/stand_ins), which notes each call with its time. Bytes with errors come from a
pair of sockets in place of a port, marked as the system marks them.
"""

import array
import ast
import contextlib
import errno
import fcntl
import functools
import importlib
import io
import itertools
import os
import shlex
import signal
import socket
import termios
import time
import tomllib
import types
import unittest
from unittest import mock

from boards import LinePlace
from place import PATIENCE, TOP, first_of, readable, text_in
from rows import Rows, each_named
from stmflash_line import command, far, faults, gpio_lines, opening, session, sockets, tables, wake
from stmflash_line.join import Join
from stmflash_line.port import Port, Unmark


class FarBytes(unittest.TestCase):
    def of(self, kind):
        """A port of this kind, what makes bytes come there, and what ends it."""
        ours, theirs = socket.socketpair()
        for end in (ours, theirs):
            self.addCleanup(end.close)
        ours.setblocking(False)
        if kind is not far.Rfc2217Port:
            return kind(ours if kind is far.SocketPort else types.SimpleNamespace(fileno=ours.fileno), "PORT", 9600), theirs.sendall, theirs.close
        inbox = far.Inbox()
        for descriptor in (inbox.reader, inbox.writer):
            self.addCleanup(os.close, descriptor)
        return kind(types.SimpleNamespace(_socket=ours), inbox, "PORT", 9600), inbox.put, lambda: inbox.put(None)

    def test_what_came_before_the_end_is_read(self):
        for kind in (Port, far.SocketPort, far.Rfc2217Port):
            for came, forgets in itertools.product((b"", b"last"), (False, kind is not Port)):
                with self.subTest(kind=kind, came=came, forgets=forgets):
                    port, put, end = self.of(kind)
                    put(came)
                    end()
                    if came and not forgets:
                        self.assertEqual(port.read(), (came, 0))
                    # also for whoever asks once more
                    for _ in range(2):
                        self.assertTrue(readable([port.descriptor], 0))
                        self.assertRaises(faults.Gone, port.forget if forgets else port.read)

    def test_an_error_takes_the_bytes_beside_it(self):
        """Those that a far end sent are taken with the error that it told of; over a line it is chance which come together. A signal that it refuses isn't there."""
        port, put, _ = self.of(far.Rfc2217Port)
        # None is an error
        for events, read in (((b"a", b"b"), (b"ab", 0)), ((b"c", None, b"d"), (b"", 1)), ((b"e",), (b"e", 0)), ((None,), (b"", 1))):
            for byte in events:
                put(byte) if byte else port.inbox.put_error()
            self.assertEqual((readable([port.descriptor], 0), port.read(), readable([port.descriptor], 0)), ([port.descriptor], read, []))
        port.client = mock.Mock(**{"send_break.side_effect": ValueError, "write.side_effect": OSError})
        self.assertRaisesRegex(faults.Fault, "^PORT: has no BRK; ", port.move, "brk", True)
        self.assertRaises(faults.Gone, port.write, b"a")
        port.inbox.put(None)
        self.assertRaises(faults.Gone, port.move, "brk", True)

    def test_a_connection_that_is_full_takes_nothing_nor_one_that_ended(self):
        port, _, end = self.of(far.SocketPort)
        self.assertEqual(min(port.write(bytes(65536)) for _ in range(99)), 0)
        end()
        self.assertRaises(faults.Gone, port.write, b"a")

    def test_a_signal_ends_the_wait_for_what_goes_out_there(self):
        port, wake = far.FarPort("a far port", 1), mock.Mock(number=None)
        # at 11 bits a byte, and what is written later goes out later
        port.sent(500), port.sent(500)
        port.drain(wake)
        wake.pause.assert_called_once()
        self.assertGreater(wake.pause.call_args.args[0], 10000)


class Beginning(unittest.TestCase):
    def test_what_a_reset_brings_is_forgotten_before_anybody_may_connect(self):
        """A board that comes out of its reset sends what its pins make of it."""
        calls, given = mock.Mock(), types.SimpleNamespace(boot=[("rts", True)], resets=False, socket="board", command=[], idle=0, heard=None)
        served = contextlib.nullcontext(("board", None))
        with mock.patch.object(session, "served", calls.served), mock.patch.object(session, "serve", calls.serve):
            calls.served.return_value = served
            session.use_board(calls.port, calls.moves, given, mock.Mock(number=None), None)
        self.assertEqual([name for name, _, _ in calls.mock_calls], ["moves.play", "port.forget", "served", "serve"])

    def test_a_socket_that_answers_late_is_somebodys(self):
        with mock.patch.object(sockets.socket, "socket") as made:
            for error, is_left in ((ConnectionRefusedError, True), (TimeoutError, False), (None, False)):
                made.return_value.__enter__.return_value.connect.side_effect = error
                self.assertEqual((error, sockets.is_left("board"), made.return_value.__enter__.return_value.settimeout.called), (error, is_left, True))
        with socket.socket(socket.AF_UNIX) as listener, socket.socket(socket.AF_UNIX) as first:
            listener.bind(place := f"\0stmflash-{os.getpid()}")
            listener.listen(0)
            first.connect(place)
            self.assertFalse(sockets.is_left(place), "one more would wait")

    def test_a_folder_that_cant_be_made(self):
        with mock.patch.object(sockets.os, "mkdir", side_effect=OSError(errno.ENOSPC, "No space left on device", "/tmp/it")):
            self.assertRaisesRegex(faults.Fault, "^/tmp/it: No space left on device; TMPDIR names another folder$", sockets.served_privately().__enter__)


class Mode(LinePlace):
    def test_mode(self):
        """What comes is marked where it is bad, and not changed; RTS and DTR stay when the port is closed."""
        master, marks = self.plain(), termios.INPCK | termios.PARMRK
        changes = termios.IGNPAR | termios.IGNBRK | termios.BRKINT | termios.ISTRIP | termios.INLCR | termios.IGNCR | termios.ICRNL | termios.IXON | termios.IXOFF
        for start, words, speed in ((self.start, (), termios.B115200), (self.start_wired, ("--baud", "9600"), termios.B9600)):
            # another program has left it so
            mode = termios.tcgetattr(master)
            mode[0] |= changes
            mode[2] |= termios.HUPCL
            termios.tcsetattr(master, termios.TCSANOW, mode)
            started, _ = self.start_known("sleep", "1000", words=("ttyUSB0", *words), start=start)
            mode = termios.tcgetattr(master)
            started.terminate()
            self.ended(started)
            self.assertEqual(termios.tcgetattr(master), mode)
            self.assertEqual(mode[0] & (marks | changes), marks)
            self.assertEqual(mode[1] & termios.OPOST, 0)
            form = termios.CSIZE | termios.CSTOPB | termios.HUPCL | termios.CREAD | termios.CLOCAL
            self.assertEqual(mode[2] & form, termios.CS8 | termios.CREAD | termios.CLOCAL)
            self.assertEqual(mode[3] & (termios.ECHO | termios.ICANON | termios.ISIG | termios.IEXTEN), 0)
            self.assertEqual(mode[5], speed)


class Ending(unittest.TestCase):
    def killed_at(self, talks_until):
        """How many seconds behind a signal a COMMAND is killed that sends a byte each second up to a time."""
        join = mock.Mock(heard=0.0, **{"wake.number": signal.SIGTERM})
        child = mock.Mock(returncode=0, **{"poll.return_value": None})
        child.kill.side_effect = lambda: setattr(child.poll, "return_value", 0)
        clock = iter(range(1000, 2000))

        def turn(_):
            self.now = next(clock)
            join.heard = self.now if self.now <= 1000 + talks_until else join.heard

        turn(None)
        join.turn, join.heard = turn, 0.0
        with mock.patch.object(command.time, "monotonic", lambda: self.now):
            self.assertEqual(command.run(lambda _: child, "", None, None, join), 128 + signal.SIGTERM)
        child.send_signal.assert_called_once_with(signal.SIGTERM)
        child.kill.assert_called_once_with()
        return self.now - 1000

    def test_the_status(self):
        """A signal's, or else COMMAND's own, also where --watch has ended the line for it; that is told where COMMAND says that all is well."""
        for code, otherwise, number in itertools.product((0, 1, 7, -signal.SIGKILL), (False, True), (None, *wake.ENDING)):
            with self.subTest(code=code, otherwise=otherwise, number=number):
                child = mock.Mock(returncode=code, **{"poll.return_value": code})
                join = mock.Mock(heard=0.0, is_otherwise=otherwise, **{"wake.number": number})
                due = 128 + number if number else 128 - code if code < 0 else code or int(otherwise)
                self.assertEqual(command.run(lambda _: child, "", None, None, join), due)

    def test_what_was_had_is_let_go_of(self):
        """Lines and port, whatever ended the call; and COMMAND is waited for, told to end, and killed in the end."""
        had, call = mock.Mock(), mock.call
        with mock.patch.multiple(session, make_lines=lambda _: had.lines, open_port=lambda *_: had.port, use_board=mock.Mock(side_effect=[0, faults.Fault])):
            for chip, ended in ((None, contextlib.nullcontext()), ("chip", self.assertRaises(faults.Fault))):
                with ended:
                    session.use_port(mock.Mock(watch=False, after=(), gpio_chip=chip), None)
        self.assertEqual(had.mock_calls, [call.port.close(), call.lines.close(), call.port.close()])
        for times in range(3):
            child = mock.Mock(**{"wait.side_effect": [*times * [command.subprocess.TimeoutExpired("it", 5)], 0]})
            command.end(child)
            self.assertEqual(child.mock_calls, [call.wait(5), call.terminate(), call.wait(5), call.kill(), call.wait()][:2 * times + 1])

    def test_a_gpioset_that_does_not_end_is_killed(self):
        holder = mock.MagicMock(**{"wait.side_effect": command.subprocess.TimeoutExpired("gpioset", 5)})
        gpio_lines.end([holder])
        self.assertEqual([name for name, _, _ in holder.mock_calls], ["terminate", "__enter__", "wait", "kill", "__exit__"])

    def test_one_that_talks_to_the_board_isnt_killed(self):
        """It may be putting back what it changed."""
        self.assertEqual(self.killed_at(0), 7)
        self.assertEqual(self.killed_at(30), 47)


class Opening(unittest.TestCase):
    def openpty(self):
        ends = os.openpty()
        for end in ends:
            self.addCleanup(os.close, end)
        return ends

    def test_a_driver_that_keeps_another_mode(self):
        """A pseudo-terminal knows no parity: as a port it would be refused."""
        _, slave = self.openpty()
        with mock.patch.object(opening.termios, "tcsetattr"):
            self.assertRaises(ValueError, opening.set_mode, slave, is_pty=True)
        self.assertRaises(ValueError, opening.set_mode, slave, is_pty=False)
        opening.set_mode(slave, is_pty=True)

    def test_a_port_that_another_has_is_left_to_it(self):
        """Who is refused leaves it open for others; one that is had for a moment alone is waited for, and then ours."""
        _, slave = self.openpty()
        for times in range(5):
            is_ours = array.array("i", [0])
            with mock.patch.object(opening, "holders", side_effect=[[(1, "x")]] * times + [[]]), mock.patch.object(opening.time, "sleep"):
                with self.assertRaises(OSError) if times > 2 else contextlib.nullcontext():
                    opening.refuse_sharing(None, slave)
            # Linux: TIOCGEXCL
            fcntl.ioctl(slave, 0x80045440, is_ours)
            fcntl.ioctl(slave, termios.TIOCNXCL)
            self.assertEqual(is_ours[0], int(times < 3))

    def test_why_a_port_cant_be_opened(self):
        """Also where the system's number stands behind a fault of pyserial's."""
        place = os.stat("/dev/null")
        for number, text in ((errno.ENXIO, "no hardware answers there; this machine has "), (errno.EIO, "no hardware answers there; "),
                             (errno.ENODEV, "no hardware answers there; "), (errno.ENOTTY, "is not a serial port"),
                             (errno.EINVAL, "doesn't take 9600 baud with 8 data bits and even parity")):
            nested = ValueError("of pyserial")
            nested.__context__ = termios.error(number, "")
            with mock.patch.object(opening, "ports_here", lambda: "this machine has none"):
                for error in (OSError(number, ""), nested):
                    self.assertTrue(opening.why_closed("PORT", place, 9600, error).startswith(text), (number, error))

    def test_who_has_a_port_stands_behind_one_that_may_not_be_looked_at_and_one_that_goes(self):
        listed = [["2", "99999999", "1"], PermissionError, ["0"], ["0"]]
        with mock.patch.object(os, "listdir", side_effect=listed), mock.patch.object(opening, "is_device", return_value=True):
            self.assertEqual([process for process, _ in opening.holders(mock.Mock())], [1])

    def test_who_undoes_is_told_to_a_command(self):
        """A program that uses these modules says it itself."""
        port = types.SimpleNamespace(gone=Port.gone, name="ttyUSB0", close=lambda: None)
        for given_command, text in ((["stmflash"], f"ttyUSB0: {Port.gone}"), (lambda _: None, "ttyUSB0: unplugged")):
            given = mock.Mock(command=given_command, watch=False, gpio_chip=None)
            with mock.patch.object(session, "open_port", lambda *_: port), mock.patch.object(session, "use_board", side_effect=session.Gone):
                self.assertRaisesRegex(session.Fault, f"^{text}$", session.use_port, given, None)


def unmarked(marked):
    """What is read of marked bytes up to the first bad one, and how many are bad: all that this is, however they are parted between reads."""
    found = set()
    for count in range(max(1, len(marked))):
        for cuts in itertools.combinations(range(1, len(marked)), count):
            unmark, came, bad = Unmark(), b"", 0
            for begin, end in zip((0, *cuts), (*cuts, len(marked))):
                data, more = unmark.take(marked[begin:end])
                came, bad = came if bad else came + data, bad + more
            found.add((came, bad))
    return found


def handed_on():
    """The ids of the chips of the table that COMMAND is told of; nothing where it is told of none."""
    name = tables.handed_on()
    return name and [chip["id"] for chip in tables.entries(name)]


def watched_for():
    """The ids of the chips that a line knows which watches."""
    return [chip["id"] for chip in session.make_watch().chips]


def values_of(told):
    """Values as Python has them; of names with their values an object."""
    return [types.SimpleNamespace(**value) if isinstance(value, dict) else value for value in ast.literal_eval(f"[{told}]")]


class Called(Rows):
    """Functions that are called one by one: a test for each title of parts.rows."""

    def play(self, lines):
        self.mocks = {}
        with contextlib.ExitStack() as self.patches, contextlib.chdir(self.folder), mock.patch.dict(os.environ, {"PATH": os.environ["PATH"]}, clear=True):
            super().play(lines)

    def call_of(self, name, given, due):
        """Calls a function, of which this has to come."""
        module, _, function = name.rpartition(".")
        act = functools.partial(getattr(importlib.import_module(module), function), *values_of(given))
        if due.startswith("! "):
            kind, text = due.removeprefix("! ").split(" ", 1)
            with contextlib.redirect_stderr(io.StringIO()), self.assertRaisesRegex(BaseException, text) as raised:
                act()
            self.assertEqual(type(raised.exception).__name__, kind)
        else:
            [due], found = values_of(due), act()
            if isinstance(due, types.SimpleNamespace):
                found = types.SimpleNamespace(**{it: getattr(found, it) for it in vars(due)})
            self.assertEqual((name, given, found), (name, given, due))

    def does(self, sign, told, name, *more):
        rest = told.removeprefix(name)
        if sign == "set":
            os.environ.update(word.split("=", 1) for word in shlex.split(told))
        elif sign == "patch":
            self.patches.enter_context(mock.patch(name, *values_of(rest)))
        elif sign == "answers":
            self.mocks[name] = self.patches.enter_context(mock.patch(name, return_value=values_of(rest)[0]))
        elif sign == "asked":
            self.assertEqual(self.mocks[name].call_count, int(*more))
        elif sign == "calls":
            self.call_of(name, *rest.rsplit(" -> ", 1))
        elif sign == "starts":
            words = ["sh", "-c", 'printf %s "$STMFLASH_WAIT $STMFLASH_BAUD" > said']
            self.assertEqual(command.start(words, "socket", *values_of(told)).wait(PATIENCE), 0)
        else:
            super().does(sign, told, name, *more)

    def test_the_manual_page_names_the_tables(self):
        self.assertEqual([it for it in (tables.MACHINES, *tables.TABLES) if it not in text_in("stmflash.1")], [])

    def test_a_table_that_is_handed_on_is_the_same(self):
        entries = tables.entries(os.path.join(TOP, "chips.toml"))
        entries[0]["tried"] = [{"who": "a \"b\" \\ c\n", "date": "b", "simulated": True}, {}]
        made = tomllib.loads(tables.table_text(entries).decode())["chip"]
        self.assertEqual(made, [{key: entry[key] for key in tables.KEYS if key in entry} for entry in entries])


each_named(Called, "parts.rows")


class BadBytes(unittest.TestCase):
    """A pair of sockets in place of a port, and one in place of that which a client has."""

    def setUp(self):
        pairs = [socket.socketpair() for _ in range(2)]
        for end in itertools.chain(*pairs):
            end.settimeout(PATIENCE)
            self.addCleanup(end.close)
        (self.device, port), (self.client, ours) = pairs
        port.setblocking(False)
        ours.setblocking(False)
        # of pyserial's port it needs no more
        self.port = Port(types.SimpleNamespace(fileno=port.fileno), "PORT", 9600)
        reader, writer = os.pipe()
        self.addCleanup(os.close, reader)
        self.addCleanup(os.close, writer)
        self.join = Join(self.port, None, types.SimpleNamespace(reader=reader, number=None))
        self.join.client = ours

    def take(self, marked):
        """What the companion says when these bytes come."""
        self.device.sendall(marked)
        with contextlib.redirect_stderr(io.StringIO()) as said:
            self.join.from_port()
        return said.getvalue()

    def assertLeft(self, said, clean, bad):
        """The client has these bytes and then the end of the line, and one line tells how many were bad and at which speed."""
        told = f"stmflash-line: PORT: {bad} bytes came with an error at 9600 baud: look at speed, wiring and ground\n"
        self.assertEqual((said, first_of(self.client, 100)), (told, clean))
        self.assertIsNone(self.join.client)

    def test_a_bad_byte_ends_the_line(self):
        self.assertLeft(self.take(b"ab\xff\x00cd\xff\x00ef"), b"ab", 2)

    def test_a_bad_byte_in_pieces_behind_good_ones(self):
        self.assertEqual(self.take(b"a\xff\xff\x00"), "")
        self.assertEqual(self.client.recv(100), b"a\xff\x00")
        for piece in (b"ab\xff", b"\x00"):
            self.assertEqual(self.take(piece), "")
        self.assertLeft(self.take(b"cd"), b"ab", 1)

    def test_what_goes_to_the_board_behind_an_end(self):
        """What a COMMAND has sent that has ended goes out; what a client of a socket has, once a signal ends it, doesn't, nor to a port that has gone."""
        child = mock.Mock(returncode=0, **{"poll.return_value": 0, "wait.return_value": 0})
        for number, gone, out in ((None, False, b"late"), (signal.SIGTERM, False, b""), (None, True, b"")):
            with self.subTest(number=number, gone=gone):
                self.setUp()
                self.client.sendall(b"late")
                self.join.wake.number, self.join.listener = number, mock.Mock(**{"accept.side_effect": BlockingIOError})
                self.port.drain = lambda _: None
                if gone:
                    child.poll.return_value, self.join.turn = None, mock.Mock(side_effect=faults.Gone)
                    self.assertRaises(faults.Gone, command.run, lambda _: child, "", None, None, self.join)
                    self.join.listener.close.assert_called_once_with()
                else:
                    self.assertEqual(session.serve(self.join) if number else command.run(lambda _: child, "", None, None, self.join), 0)
                self.assertIsNone(self.join.client)
                self.assertEqual(self.device.recv(9) if readable([self.device], 0) else b"", out)

    def test_a_reset_for_a_client(self):
        """Behind what went out before, and then all is dropped that came until its end; it is for the first byte alone."""
        port = mock.Mock(**{"write.side_effect": len})
        join = Join(port, None, mock.Mock(number=None), port.enter)
        join.client, join.is_first = self.join.client, True
        join.out, join.into = bytearray(b"before"), bytearray(b"old")
        join.send_rest = mock.Mock(side_effect=join.out.clear)
        port.attach_mock(join.send_rest, "send_rest")
        for _ in range(2):
            self.client.sendall(b"?")
            self.assertTrue(join.from_client())
        self.assertEqual([name for name, _, _ in port.mock_calls], ["send_rest", "enter", "forget", "write", "write"])
        self.assertEqual((join.out, join.into), (b"", b""))
        # where a signal ends that, nothing goes out
        port.enter.side_effect, join.is_first = lambda: setattr(join.wake, "number", signal.SIGTERM), True
        self.client.sendall(b"?")
        self.assertEqual((join.from_client(), join.client, port.write.call_count), (False, None, 2))

    def test_how_long_each_answer_took(self):
        """From the last byte that went out on, for the first that comes: what comes unasked is told of nobody."""
        told = []
        self.join.tell = told.append
        self.take(b"unasked")
        for pause in (0.03, 0.0):
            self.client.sendall(b"?")
            self.assertTrue(self.join.from_client())
            time.sleep(pause)
            self.take(b"first")
            self.take(b"second")
        self.assertEqual(len(told), 2)
        self.assertTrue(0.03 <= told[0] < PATIENCE and told[1] < told[0], told)

    def test_the_next_client_gets_none_of_the_former_ones(self):
        """A client that took nothing is gone, with bytes for it that its socket had no room for; its own still go out."""
        while not self.join.into:
            self.assertEqual(self.take(60000 * b"a"), "")
        self.client.close()
        self.join.from_client()
        self.assertIsNone(self.join.client)
        self.assertEqual(self.take(b"nobody's"), "")
        self.client, ours = socket.socketpair()
        self.client.settimeout(PATIENCE)
        self.addCleanup(self.client.close)
        self.join.listener, self.join.out = mock.Mock(**{"accept.return_value": (ours, None)}), bytearray(b"sent")
        self.join.watch = mock.Mock(has_sent=False, **{"due_of.side_effect": lambda data: (data, None)})
        self.assertEqual((self.join.accept(), self.join.out), (True, b"sent"))
        self.join.watch.begin.assert_called_once_with()
        self.assertEqual(self.take(b"new"), "")
        self.assertEqual(self.client.recv(100), b"new")

    def test_nobody_is_told_while_nobody_is_there(self):
        ours, self.join.client = self.join.client, None
        self.assertEqual(self.take(b"a\xff\x00b\xff"), "")
        # the second half of a byte's mark comes to one who is there since
        self.join.client = ours
        self.assertEqual(self.take(b"\xffc"), "")
        self.assertEqual(self.client.recv(100), b"\xffc")
