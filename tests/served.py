"""A test that serves a simulator on a socket, and reaches it as a plain client."""

import contextlib
import socket
import threading
import time

from place import PATIENCE, Place, first_of, readable, served


def relay(line, board, change=lambda replies: replies, heard=lambda came: None, cut=None):
    """Hands on what comes on either, the board's replies as `change` makes them, until the line ends, or behind `cut` bytes to the board.
    What goes there `heard` is told before. Answers what was sent to the board."""
    sent = b""
    while cut is None or len(sent) < cut:
        ready = readable([line, board], PATIENCE)
        if not ready:
            break
        if board in ready:
            came = board.recv(4096)
            if not came:
                break
            line.sendall(change(came))
        if line in ready:
            came = line.recv(4096)[:None if cut is None else cut - len(sent)]
            if not came:
                break
            heard(came)
            sent += came
            board.sendall(came)
    return sent


class Peer:
    """A listener that hands each of its lines to a function, in a thread of its own."""

    def __init__(self, test, name, serve):
        self.serve, self.ending, self.listener = serve, threading.Event(), test.listen(name)
        self.thread = test.beside(self.listener, self.run)
        test.addCleanup(self.ending.set)

    def run(self):
        line, _ = self.listener.accept()
        with line:
            self.serve(line, self.ending)

    def end(self):
        self.ending.set()
        self.listener.shutdown(socket.SHUT_RDWR)
        self.thread.join(PATIENCE)


class Served(Place):
    def serve(self, clients, table="table", number="0412", more=()):
        """Serves the simulator to so many clients, and answers once it listens: a client of its own has come and gone."""
        self.simulator = self.start(*served(number, table=table), "--clients", str(clients + 1), *more)
        self.leave(self.reach("board", self.simulator))

    def reach(self, name, simulator=None):
        """Connects to a socket of this name once somebody listens there."""
        end = time.monotonic() + PATIENCE
        while True:
            try:
                return self.connect(name)
            except (FileNotFoundError, ConnectionRefusedError):
                if simulator is not None:
                    self.assertIsNone(simulator.poll(), "the simulator doesn't start")
                self.assertLess(time.monotonic(), end, "the simulator doesn't listen")
                time.sleep(0.01)

    @contextlib.contextmanager
    def between(self, change, name="stand", heard=lambda came: None):
        """Somebody between one client at a socket of this name and the simulator, who changes its replies so, and is told what is sent.
        `self.line` is the client's line."""
        listener = self.listen(name)

        def hand_on():
            self.line, _ = listener.accept()
            with self.line, self.connect() as board:
                relay(self.line, board, change, heard)

        serving = self.beside(listener, hand_on)
        yield
        serving.join(PATIENCE)
        listener.close()
        self.remove(name)
        self.assertServed()

    def delayed(self, delay, name="slow"):
        """A peer that hands all on between the program and a simulator that is served. `delay` is asked of each piece that the
        program sent and answers for how many seconds what follows is held back."""

        def serve(line, ending):
            board = self.connect()
            due, held = 0.0, b""
            while not ending.is_set():
                heard = readable([line, board], 0.02)
                if line in heard:
                    came = line.recv(4096)
                    if not came:
                        break
                    seconds = delay(came)
                    if seconds:
                        due = time.monotonic() + seconds
                    board.sendall(came)
                if board in heard:
                    held += board.recv(4096)
                if held and time.monotonic() >= due:
                    line.sendall(held)
                    held = b""
            self.leave(board)

        Peer(self, name, serve)

    def assertReplies(self, client, sent, replies):
        client.sendall(sent)
        self.assertEqual(first_of(client, len(replies)), replies, sent.hex())

    def assertServed(self, last=None, **left):
        """The simulator ends well once its last client, or this one, has gone, and says nothing; its socket is no more, its files hold this."""
        if last is not None:
            self.leave(last)
        self.assertSilent(self.ended(self.simulator), **left)
        self.assertFalse(self.is_there("board"))

    def connect(self, name="board"):
        client = socket.socket(socket.AF_UNIX, socket.SOCK_STREAM)
        self.addCleanup(client.close)
        client.settimeout(PATIENCE)
        client.connect(self.path(name))
        return client

    def leave(self, client):
        """Goes, once the simulator has stored what was left."""
        client.shutdown(socket.SHUT_WR)
        try:
            self.assertEqual(client.recv(1), b"")
        except ConnectionResetError:
            # it went while a byte for it was still on its way
            pass
        client.close()
