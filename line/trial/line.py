"""The way to the board: a socket, or a port that stmflash-line joins to one."""

import os
import select
import shutil
import socket
import subprocess
import sys
import tempfile
import time

from faults import Ended, Refused
from stmflash_line.tied import tied

# how long stmflash-line may take to play a sequence and to listen, in seconds
PATIENCE = 30


class Line:
    """Bytes both ways over a socket, how many there were, and how the board is reset."""

    def __init__(self, words):
        self.words = words
        self.buffer, self.sent, self.taken = bytearray(), 0, 0
        self.socket = self.companion = self.folder = None
        if words.port:
            self.folder = tempfile.mkdtemp(prefix="stmflash-trial-")
        try:
            self.open()
        except BaseException:
            self.close()
            raise

    def open(self):
        path = self.words.device
        if self.words.port:
            path = os.path.join(self.folder, "socket")
            self.companion = start_companion(self.words, path)
        self.socket = connect(path, self.companion)
        self.buffer.clear()

    def close(self):
        """Gives the board up; stmflash-line leaves it as --wiring says."""
        self.leave()
        if self.folder:
            shutil.rmtree(self.folder, ignore_errors=True)

    def leave(self):
        if self.socket:
            # where none comes after it, whoever uses it sees that it has ended
            self.socket.shutdown(socket.SHUT_RDWR)
        if self.companion:
            self.companion.terminate()
            self.companion.wait()
            self.companion = None

    def can_reset(self):
        return bool(self.words.reset or self.words.port and self.words.wiring or self.words.by_hand)

    def reset(self):
        """Resets the board into its bootloader. can_reset is true."""
        if self.words.reset:
            if subprocess.run(self.words.reset, shell=True, stdin=subprocess.DEVNULL).returncode:
                raise Ended("the command of --reset failed")
        elif self.words.port and self.words.wiring:
            # what --wiring does is done anew
            self.leave()
            try:
                self.open()
            except Refused as refused:
                raise Ended(str(refused)) from None
        else:
            ask("Press the board's reset, with BOOT0 as it is, and then Enter.")
        time.sleep(0.1)
        self.drop()

    def drop(self):
        """Forgets what came."""
        self.buffer.clear()
        while select.select([self.socket], [], [], 0)[0] and self.take():
            self.buffer.clear()

    def take(self):
        try:
            came = self.socket.recv(65536)
        except OSError as error:
            raise Ended(f"the line ended: {error.strerror}") from None
        if not came:
            raise Ended("the line was closed")
        self.buffer += came
        return len(came)

    def write(self, data):
        try:
            self.socket.sendall(data)
        except OSError as error:
            raise Ended(f"the line ended: {error.strerror}") from None
        self.sent += len(data)

    def read(self, count, first, later):
        """So many bytes, or fewer where the first doesn't come within `first` seconds, or one within `later` behind another."""
        wait = first
        while len(self.buffer) < count and select.select([self.socket], [], [], wait)[0]:
            self.take()
            wait = later
        found = bytes(self.buffer[:count])
        del self.buffer[:count]
        self.taken += len(found)
        return found


def start_companion(words, path):
    beside = os.path.join(words.folder, "stmflash-line")
    call = [sys.executable, beside] if os.path.exists(beside) else ["stmflash-line"]
    # a hand takes its time, and so may an answer
    call += [words.port, "--baud", str(words.baud), "--idle", "0", "--socket", path]
    call += [f"--wiring={words.wiring}"] if words.wiring else []
    try:
        # a Ctrl-C is ours alone: what was changed is put back over this line. Where we are killed the port is given back
        return subprocess.Popen(call, stdin=subprocess.DEVNULL, start_new_session=True, preexec_fn=tied())
    except OSError as error:
        raise Refused(f"stmflash-line: {error.strerror}; it has to be beside stmflash-trial, or in PATH") from None


def connect(path, companion):
    until = time.monotonic() + (PATIENCE if companion else 0)
    while True:
        client = socket.socket(socket.AF_UNIX, socket.SOCK_STREAM)
        try:
            client.connect(path)
            return client
        except OSError as error:
            client.close()
            if companion and companion.poll() is not None:
                raise Refused("stmflash-line didn't open the port; it tells why and what to do above") from None
            if time.monotonic() > until:
                raise Refused(f"{path}: {error.strerror or error}; --device names a socket that is served") from None
        time.sleep(0.02)


def ask(text):
    """Asks for something that a hand has to do."""
    try:
        input("\n" + text + " ")
    except (EOFError, OSError):
        raise Ended("nobody was there to do it") from None
