"""A host program joined to a device's socket, with what went over the line counted.

The tools here that start a host, be it stm32flash over a pty or stmflash over a socket, share this, and those that serve one.
"""

import contextlib
import json
import os
import select
import socket
import threading
import time


class Hearer:
    """Somebody who hears what goes over a line, before it is handed on."""

    def to_device(self, data):
        pass

    def to_host(self, data):
        pass


class Figures(Hearer):
    """What went over the line: bytes out (host to device), bytes in, and turns, which are how often the host, having sent
    something, was answered. The processor time is the host's own, as the system counts it; the time by the clock is since here."""

    def __init__(self):
        self.began, self.asked = time.monotonic(), False
        self.out = self.into = self.turns = 0

    def to_device(self, data):
        self.out += len(data)
        self.asked = True

    def to_host(self, data):
        self.into += len(data)
        self.turns += self.asked
        self.asked = False

    def store(self, path, used):
        figures = {"out": self.out, "in": self.into, "turns": self.turns, "processor": used.ru_utime + used.ru_stime,
                   "clock": time.monotonic() - self.began}
        with open(path, "w", encoding="ascii") as told:
            json.dump(figures, told)


class Paced(Hearer):
    """Takes as long as a line of this speed does, with 11 bits a byte, and holds what the device sends back so many seconds more, as adapters do."""

    def __init__(self, baud, hold=0):
        self.each, self.hold = 11 / baud, hold

    def to_device(self, data):
        time.sleep(len(data) * self.each)

    def to_host(self, data):
        time.sleep(len(data) * self.each + self.hold)


def connect(path):
    device = socket.socket(socket.AF_UNIX, socket.SOCK_STREAM)
    device.connect(path)
    return device


def listen(path):
    """A listener on a socket of this name."""
    listener = socket.socket(socket.AF_UNIX, socket.SOCK_STREAM)
    listener.bind(path)
    listener.listen()
    return listener


def serve_each(path, serve):
    """Serves one client after another on a socket of this name, in a thread of its own, and answers the listener."""
    listener = listen(path)

    def run():
        with contextlib.suppress(OSError):
            while True:
                with listener.accept()[0] as client:
                    serve(client)

    threading.Thread(target=run, daemon=True).start()
    return listener


def receive(descriptor):
    """What came; nothing where the other end is gone."""
    try:
        return os.read(descriptor, 65536)
    except OSError:
        return b""


def send(descriptor, data):
    """Whether all of it went out."""
    try:
        while data:
            data = data[os.write(descriptor, data):]
    except OSError:
        return False
    return True


def carry(host, device, *hearers, ended=None, cut=None):
    """Carries bytes between the descriptors of a host and a device, until one of them is gone, or `ended` (a descriptor)
    has something to read, or `cut` bytes of the host were handed on."""
    while cut != 0:
        ready, _, _ = select.select([it for it in (host, device, ended) if it is not None], [], [])
        # the device first, so that its bytes are counted for what they answer
        came = receive(device) if device in ready else receive(host)[:cut] if host in ready else b""
        if not came:
            return
        for it in hearers:
            (it.to_host if device in ready else it.to_device)(came)
        if not send(host if device in ready else device, came):
            return
        if cut is not None and device not in ready:
            cut -= len(came)
