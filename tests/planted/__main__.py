#!/usr/bin/env python3
"""Serves a planted board on a Unix socket, one client after another.

    tests/planted [SOCKET] [--plant NAME] [--id ID] [--pages N] [--size N] [--erase CODE] [--flash FILE] [--clients N] [--list]

SIGUSR1 is a reset, SIGUSR2 a loss of power. The flash is read from FILE where that is there, and written to it behind each client.
The status is 3 where Go, a protection or an erase of everything came. --list prints the names of all deviations.
"""

import contextlib
import os
import pathlib
import select
import signal
import socket
import sys
import time

sys.path.append(os.path.join(os.path.dirname(os.path.abspath(__file__)), "..", "..", "tools"))
from deviations import DEVIATIONS  # noqa: E402
from planted_board import PlantedBoard  # noqa: E402
from simulator import words_of  # noqa: E402


class Host:
    """Whoever is connected to a board: bytes that come while the board is at work wait, or but the first are lost."""

    def __init__(self, board, client):
        self.board, self.client = board, client
        self.waiting, self.sent, self.heard = bytearray(), 0, 0
        self.last = self.said = time.monotonic()

    def serve(self):
        self.send(self.board.sets["garbage"] or b"")
        while True:
            if not self.waiting and not self.hear(0.05):
                return
            while self.waiting:
                self.feed(self.waiting.pop(0))

    def hear(self, patience):
        """Takes what came within a time. False where the host has gone."""
        chatter = self.board.sets["chatter"]
        if chatter and time.monotonic() - self.said > chatter:
            self.said = time.monotonic()
            self.send(b".")
        if not select.select([self.client], [], [], patience)[0]:
            return True
        try:
            came = self.client.recv(65536)
        except OSError:
            return False
        self.waiting += without_each(self.board.sets["drop_up"], came, self.heard)
        self.heard += len(came)
        return bool(came)

    def feed(self, byte):
        board, now = self.board, time.monotonic()
        if board.sets["forget"] and now - self.last > board.sets["forget"]:
            board.rest.clear()
        self.last = now
        replies = board.feed(byte)
        self.be_busy(board.work)
        self.send(replies)
        self.be_busy(board.behind)

    def be_busy(self, seconds):
        until = time.monotonic() + seconds
        while seconds and (left := until - time.monotonic()) > 0 and self.hear(left):
            time.sleep(0.001)
        if seconds and self.board.sets["loses"]:
            del self.waiting[1:]

    def send(self, replies):
        kept = without_each(self.board.sets["drop_down"], replies, self.sent)
        self.sent += len(replies)
        with contextlib.suppress(OSError):
            self.client.sendall(kept)


def without_each(step, data, before):
    """These bytes behind so many others, without one in so many; all of them where there is no such step."""
    return bytes(byte for number, byte in enumerate(data, before + 1) if not step or number % step)


def main():
    words = words_of(__doc__, plant=[*DEVIATIONS], id="0440", pages=64, size=1024, erase="44", flash="", clients=1)
    if words.list:
        print("\n".join(DEVIATIONS))
        return 0
    flash = pathlib.Path(words.flash).read_bytes() if os.path.exists(words.flash) else None
    board = PlantedBoard(int(words.id, 16), [words.size] * words.pages, int(words.erase, 16), DEVIATIONS[words.plant or "none"].sets, flash=flash)
    signal.signal(signal.SIGUSR1, lambda *_: board.reset())
    signal.signal(signal.SIGUSR2, lambda *_: board.lose_power())
    if words.flash and flash is None:
        store(words.flash, board)
    with socket.socket(socket.AF_UNIX, socket.SOCK_STREAM) as listener:
        # whoever sees the name can connect
        listener.bind(words.socket + ".unready")
        listener.listen()
        os.rename(words.socket + ".unready", words.socket)
        for _ in range(words.clients):
            client, _ = listener.accept()
            with client:
                Host(board, client).serve()
                if words.flash:
                    store(words.flash, board)
    return 3 if board.danger else 0


def store(path, board):
    pathlib.Path(path + ".unready").write_bytes(board.flash)
    os.replace(path + ".unready", path)


if __name__ == "__main__":
    sys.exit(main())
