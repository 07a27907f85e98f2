"""Boards that do a session harm: each has what a host's line to it is served by."""

import os
import socket
import time

from place import COUNTING as FLASH
from rows import bytes_of

from planted_board import ERASE, FRESH, NACK, PlantedBoard


class Line:
    """A host's line, and the moments at which it was reached, brought its first byte, and was sent the last one."""

    def __init__(self, line):
        self.line, self.reached, self.first, self.last = line, time.monotonic(), None, None

    def recv(self, count):
        came = self.line.recv(count)
        if came and self.first is None:
            self.first = time.monotonic()
        return came

    def look(self):
        """Waits for the first byte, and takes none."""
        if self.line.recv(1, socket.MSG_PEEK):
            self.first = time.monotonic()

    def sendall(self, replies):
        if replies:
            self.last = time.monotonic()
            self.line.sendall(replies)

    def settimeout(self, seconds):
        self.line.settimeout(seconds)


class Board(PlantedBoard):
    """A board of the model; `more` is what else it has."""

    def __init__(self, **more):
        super().__init__(0x412, [1024] * 32, ERASE, {}, flash=FLASH)
        vars(self).update(more)


class Cut(Board):
    """Falls silent behind so many bytes, `kept`, of its replies to the command `cut`."""

    code = None

    def feed(self, byte):
        if self.phase != FRESH and not self.rest:
            self.code, self.left = byte, self.kept
        out = super().feed(byte)
        if self.code != self.cut or out[:1] == bytes([NACK]):
            return out
        said, self.left = out[:self.left], max(self.left - len(out), 0)
        self.is_dead = not self.left
        return said


class FirstReply(Board):
    """Answers 7F, and nothing behind that."""

    def feed(self, byte):
        out = super().feed(byte)
        self.is_dead = bool(out)
        return out


class Slowly(Board):
    """Takes one byte a second."""

    def serve(self, line, ending):
        while not ending.wait(1):
            came = line.recv(1)
            if not came:
                return
            self.hear(line, came, ending)


class Saying(Board):
    """Says the same `byte` to each; or it echoes each before its replies, or says these so many `times`."""

    byte, echoes, times = None, 0, 1

    def feed(self, byte):
        replies = super().feed(byte)
        return bytes([byte]) * self.echoes + replies * self.times if self.byte is None else bytes([self.byte])


class Closing(Board):
    """Closes the line behind so many bytes, `kept`, of its replies."""

    def serve(self, line, ending):
        if self.kept:
            super().serve(line, ending)

    def say(self, line, replies, ending):
        line.sendall(replies[:self.kept])
        self.kept -= len(replies)
        if self.kept <= 0:
            raise ConnectionError


class Resetting(Board):
    """Resets itself now and then, and prints then."""

    def serve(self, line, ending):
        self.due = time.monotonic() + 0.3
        line.settimeout(0.05)
        while not ending.is_set():
            try:
                came = line.recv(4096)
                if not came:
                    return
                self.hear(line, came, ending)
            except TimeoutError:
                pass
            if time.monotonic() > self.due:
                self.due = time.monotonic() + 0.3
                self.reset()
                line.settimeout(None)
                line.sendall(b"\r\nboot 1.7 ok\r\n")
                line.settimeout(0.05)


class Late(Board):
    """Each reply comes so many `seconds` later."""

    def hear(self, line, came, ending):
        for byte in came:
            out = self.feed(byte)
            if out:
                ending.wait(self.seconds)
                line.sendall(out)


class Trickling(Board):
    """Says its replies one byte a second."""

    def say(self, line, replies, ending):
        for byte in replies:
            if ending.wait(1):
                return
            line.sendall(bytes([byte]))


class Answering(Board):
    """Answers the command `code` by `told`, and may go on for ever then."""

    is_endless = has_answered = False

    def answer(self, code):
        self.has_answered |= code == self.code
        self.owed.extend(bytes_of(self.told)) if code == self.code else super().answer(code)

    def say(self, line, replies, ending):
        line.sendall(replies)
        while self.is_endless and self.has_answered and not ending.is_set():
            line.sendall(64 * bytes([0x31]))


class Garbling(Board):
    """A bit of each third byte is another."""

    said = 0

    def feed(self, byte):
        out = bytearray()
        for reply in super().feed(byte):
            self.said += 1
            out.append(reply ^ 4 if self.said % 3 == 0 else reply)
        return out


def be_deaf(line, ending):
    """Neither takes nor says anything."""
    line.look()
    ending.wait(300)


def answering(says):
    """Says to what it hears what this makes of it."""
    def serve(line, ending):
        while not ending.is_set() and (came := line.recv(4096)):
            line.sendall(says(came))
    return serve


def repeating(seconds, says):
    """Says this each so many seconds, without an end."""
    def serve(line, ending):
        while not ending.wait(seconds):
            line.sendall(says())
    return serve


be_silent, echo = answering(lambda came: b""), answering(lambda came: came)
be_noisy, hiss = repeating(0, lambda: os.urandom(256)), repeating(0.1, lambda: b"\x55")
