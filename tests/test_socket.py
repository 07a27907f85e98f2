"""Both ends of a socket: a served simulator and a plain client, the program and a plain device, and the two together
(tests/socket.rows; tests/served.rows has each byte)."""

import contextlib
import errno
import os
import shlex
import signal
import socket
import threading
import time

import syncs
from holding import Held
from place import HEAD, PATIENCE, WAIT, ZEROS, files, first_of, readable, served, with_page
from rows import cases, each_named
from served import relay

ID = bytes([0x79, 0x01, 0x04, 0x12, 0x79])


class Peers(Held):
    """Either end, which is told as text."""

    changed = None

    def call(self, *words, **how):
        """Runs the program; where that is said its board's replies have other bytes on their way."""
        if self.changed is None:
            return super().call(*words, **how)
        (old, new), self.changed = self.changed, None
        with self.between(lambda replies: replies.replace(old, new)):
            return super().call(*words, **how)

    def hang_up(self, words, turns, end):
        """Starts a call, at a device that ends the line behind so many turns; what it said."""
        listener = self.listen("device")
        host = self.start(*shlex.split(words))
        device, _ = listener.accept()
        with device:
            device.settimeout(PATIENCE)
            if turns > 0:
                self.assertEqual(device.recv(1), b"\x7f")
            if turns > 1:
                device.sendall(b"\x79")
            device.shutdown(end)
            return self.ended(host)

    def does(self, sign, told, name, *more):
        if sign == "quiet":
            self.assertEqual(readable([self.joined], 0.2), [])
        elif sign == "changes":
            self.changed = [bytes.fromhex(it) for it in (name, *more)]
        elif sign == "clients":
            for _ in range(int(name)):
                self.leave(self.connect())
        elif sign == "killed":
            self.simulator.kill()
            self.simulator.communicate()
            self.assertTrue(self.is_there("board"))
        elif sign == "joins":
            self.joined = self.reach("board")
        elif sign == "ended":
            self.joined.close()
            self.joined = None
            self.assertFault(self.ended(self.simulator), told)
            self.assertFalse(self.is_there("board"))
        elif sign == "quietly":
            self.leave(self.joined)
            self.joined = None
            self.assertSilent(self.ended(self.simulator))
        elif sign == "datagrams":
            self.enterContext(socket.socket(socket.AF_UNIX, socket.SOCK_DGRAM)).bind(self.path(name))
        elif sign == "hangs":
            self.assertFault(self.hang_up(" ".join(more[1:]), int(name), getattr(socket, f"SHUT_{more[0]}")), "line failed")
        else:
            super().does(sign, told, name, *more)


class Answers(Peers):
    def test_each_case(self):
        self.play_all(cases("served.rows"))


class Socket(Peers):
    def test_a_page_that_is_lost_under_the_program_ends_it(self):
        """Behind the first byte of an undo, which has read the journal by then, blanks stand in place of a page's digits: nothing
        is erased or written, and the undo succeeds once the digits are there again."""
        self.store("flash", ZEROS)
        self.serve(3)
        self.assertTold(self.use("erase", "5", "--wait", WAIT, device="board"), "segment 1: 1 pages erased\n")
        journal = self.held("journal")
        lost = with_page(HEAD, b" ", b"\nerase 5\nend 1\n")
        listener = self.listen("device")
        host = self.start("undo", *files("device"), "--wait", WAIT)
        line, _ = listener.accept()
        with line, self.connect() as board:
            first = line.recv(1)
            with open(self.path("journal"), "r+b") as file:
                file.write(lost)
            board.sendall(first)
            sent = first + relay(line, board)
        self.assertFault(self.ended(host), "bad journal line 3")
        self.assertNotIn(b"\x31\xce", sent)
        self.assertFile("journal", lost)
        self.store("journal", journal)
        self.assertTold(self.use("undo", "--wait", WAIT, device="board"), "undone 1\n")
        self.assertServed(holds=(ZEROS, b"idle\n"))

    def test_serves_a_client_however_long(self):
        """120,000 bytes, sent without waiting for an answer, and 300,000 that are taken late, beside stops by signals: none is
        lost, and none comes twice."""
        count = 60000
        self.serve(1)
        client = self.connect()
        self.assertReplies(client, b"\x7f", b"\x79")
        sender = threading.Thread(target=client.sendall, args=(b"\x02\xfd" * count,))
        sender.start()
        self.until_it_waits(self.simulator)
        self.hold(self.simulator)
        self.assertTrue(first_of(client, len(ID) * count) == ID * count)
        sender.join(PATIENCE)
        self.assertEqual(readable([client], 0.2), [])
        self.assertServed(client)

    def test_a_signal_while_a_client_is_waited_for_is_no_end(self):
        """The first call that waits for a client ends by a signal, and the client comes while the second does."""
        self.store("flash", ZEROS)
        clients = []

        def come(number, process):
            if number == 1:
                clients.append(self.connect())
                clients[0].sendall(b"\x7f")
                clients[0].shutdown(socket.SHUT_WR)

        said, waits = syncs.call(self.folder, served(), 0, come, syncs.ACCEPT, errno.EINTR)
        self.assertEqual((said.status, said.out, said.err, len(waits), clients[0].recv(2)), (0, b"", b"", 2, b"\x79"))
        self.assertFiles({"flash": ZEROS, "flash.line": b"idle\n"})

    def test_serving_takes_no_more_and_more_memory(self):
        """What the first bytes of a client have taken is enough for the megabyte behind them."""
        self.serve(1)
        client = self.connect()
        self.assertReplies(client, b"\x7f", b"\x79")
        taken = []
        for _ in range(10):
            for _ in range(200):
                self.assertReplies(client, b"\x02\xfd" * 256, ID * 256)
            # in KiB, counted page by page
            with open(f"/proc/{self.simulator.pid}/smaps_rollup") as told:
                taken.append(next(int(line.split()[1]) for line in told if line.startswith("Rss:")))
        self.assertServed(client)
        self.assertLess(taken[-1] - taken[1], 512, taken)

    def test_a_client_that_takes_nothing_is_left(self):
        """It sends and sends, and never reads: the next one has its turn."""
        self.serve(2)
        deaf, client = self.connect(), self.connect()

        def send():
            with contextlib.suppress(OSError):
                deaf.sendall(b"\x7f" + b"\x02\xfd" * 200000)

        sender = threading.Thread(target=send)
        sender.start()
        client.sendall(b"\x7f" * 2)
        self.assertEqual(len(client.recv(1)), 1)
        sender.join(PATIENCE)
        self.assertFalse(sender.is_alive())
        self.assertServed(client)

    def test_a_stop_by_a_signal_is_no_end(self):
        """SIGSTOP and SIGCONT while a client is waited for, while a byte of one is, and while the program waits for a reply."""
        self.store("flash", ZEROS)
        self.serve(2)
        self.hold(self.simulator)
        client = self.connect()
        self.assertReplies(client, b"\x7f", b"\x79")
        self.hold(self.simulator)
        self.assertReplies(client, b"\x02\xfd", ID)
        self.leave(client)
        os.kill(self.simulator.pid, signal.SIGSTOP)
        host = self.start("erase", *files("board"), "--wait", "20000", "5")
        time.sleep(0.3)
        self.hold(host)
        os.kill(self.simulator.pid, signal.SIGCONT)
        self.assertTold(self.ended(host), "segment 1: 1 pages erased\n")
        self.assertServed()

    def hold(self, process):
        """Stops a process for a moment, and lets it go on."""
        time.sleep(0.1)
        for number in (signal.SIGSTOP, signal.SIGCONT) * 3:
            os.kill(process.pid, number)
            time.sleep(0.03)


each_named(Socket, "socket.rows")
