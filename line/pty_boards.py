#!/usr/bin/python3
"""Stand-in boards: `stmflash sim` behind pseudo-terminals, for trying what needs a serial port.

    line/pty_boards.py PROGRAM FOLDER [COUNT] [--id ID] [--table FILE] [--baud N] [--hold MS]

Makes FOLDER/ttyUSB0, ttyUSB1.. (COUNT of them, 1 without it), each a name of a pseudo-terminal with a simulator of PROGRAM
behind it, whose flash is FOLDER/ttyUSB0.flash and so on, and serves them until it is ended. A pseudo-terminal hands bytes on
as they are, and has neither speed nor parity nor RTS and DTR.

--baud N    bytes take as long as on a line of this speed: 11 bits each, a start, a parity and a stop bit among them
--hold MS   what the board sends is held back so long, as adapters do
"""

import argparse
import contextlib
import os
import select
import signal
import socket
import subprocess
import sys
import threading
import time
import tty

TOP = os.path.dirname(os.path.dirname(os.path.abspath(__file__)))
# how long a simulator may take to start or to store its files, in seconds
PATIENCE = 120


class PtyBoard:
    """One board: a pseudo-terminal at `name`, joined to a simulator whose flash is `name`.flash."""

    def __init__(self, program, name, chip="0412", table=None, baud=None, hold=0.0, more=()):
        self.name = name
        self.byte_time, self.hold = 11 / baud if baud else 0.0, hold
        self.behind = name + ".board"
        files = ["--table", table or os.path.join(TOP, "chips.toml"), "--id", chip, "--flash", name + ".flash"]
        words = [program, "sim", *files, "--socket", self.behind, "--clients", "1000000", *more]
        self.simulator = subprocess.Popen(words, stdin=subprocess.DEVNULL)
        self.device = self.master = self.left = None
        self.busy, self.storing = threading.Lock(), False
        self.ended, self.end = os.pipe()
        self.renew()
        self.thread = threading.Thread(target=self.carry, daemon=True)
        self.thread.start()

    def renew(self):
        """A new pseudo-terminal under the old name, and of the old one's number, which the thread may be about to read. One that an
        exclusive program had when it was killed can't be opened anew by others than root, as a port could."""
        master, slave = os.openpty()
        tty.setraw(slave)
        unready = self.name + ".unready"
        os.symlink(os.ttyname(slave), unready)
        os.rename(unready, self.name)
        os.close(slave)
        if self.master is not None:
            os.dup2(master, self.master, inheritable=False)
            os.close(master)
        self.master = master if self.master is None else self.master

    def hear(self, count):
        """From now on the board gets so many bytes of its host and no more, as of one that has stopped there; None: all of them."""
        self.left = count

    def connect(self):
        """The simulator, once it listens."""
        until = time.monotonic() + PATIENCE
        while True:
            device = socket.socket(socket.AF_UNIX, socket.SOCK_STREAM)
            try:
                device.connect(self.behind)
                return device
            except OSError:
                device.close()
                if time.monotonic() > until or self.simulator.poll() is not None:
                    raise
                time.sleep(0.01)

    def store(self):
        """Waits until the simulator has stored its flash, and answers it: it does so when its client has gone. What a host sends
        meanwhile waits: as a client it would come before the one that is awaited here."""
        with self.busy:
            self.storing = True
            device, self.device = self.device, None
        try:
            if device is not None:
                device.shutdown(socket.SHUT_RDWR)
                device.close()
            with self.connect() as waiting:
                waiting.settimeout(PATIENCE)
                waiting.shutdown(socket.SHUT_WR)
                waiting.recv(1)
            with open(self.name + ".flash", "rb") as flash:
                return flash.read()
        finally:
            self.storing = False

    def carry(self):
        """Hands bytes on both ways. The simulator's client is one that lasts, as the wires of a board last."""
        while True:
            master, device = self.master, self.device
            waited = [self.ended] + [master] * (not self.storing) + [device] * (device is not None)
            try:
                ready, _, _ = select.select(waited, [], [], 0.05)
            except (OSError, ValueError):
                continue
            if self.ended in ready:
                return
            if master in ready:
                with self.busy:
                    if not self.storing:
                        self.from_host(master)
            if device is not None and device in ready:
                self.from_device(device, master)

    def from_host(self, master):
        try:
            data = os.read(master, 65536)
        except OSError:
            # nobody has the port open
            time.sleep(0.002)
            return
        if self.left is not None:
            data = data[:self.left]
            self.left -= len(data)
        if self.device is None:
            self.device = self.connect()
        time.sleep(len(data) * self.byte_time)
        with contextlib.suppress(OSError):
            self.device.sendall(data)

    def from_device(self, device, master):
        try:
            data = device.recv(65536)
        except OSError:
            data = b""
        if not data:
            if self.device is device:
                self.device = None
            device.close()
            return
        time.sleep(len(data) * self.byte_time + self.hold)
        with contextlib.suppress(OSError):
            while data:
                data = data[os.write(master, data):]

    def pull(self):
        """The board goes, as an adapter that is pulled."""
        os.write(self.end, b".")
        self.thread.join()
        os.close(self.master)
        os.unlink(self.name)

    def stop(self):
        if self.thread.is_alive():
            self.pull()
        if self.device is not None:
            self.device.close()
        self.simulator.terminate()
        self.simulator.wait()
        for name in (self.behind, self.name):
            with contextlib.suppress(FileNotFoundError):
                os.unlink(name)


def main():
    words = argparse.ArgumentParser(description=__doc__, formatter_class=argparse.RawDescriptionHelpFormatter)
    for word, how in {"program": {"type": os.path.abspath}, "folder": {}, "count": {"nargs": "?", "type": int, "default": 1}, "--id": {"default": "0412"},
                      "--table": {}, "--baud": {"type": int}, "--hold": {"type": float, "default": 0, "metavar": "MS"}}.items():
        words.add_argument(word, **how)
    given = words.parse_args()
    signal.signal(signal.SIGTERM, lambda *_: sys.exit(0))
    os.makedirs(given.folder, exist_ok=True)
    with contextlib.ExitStack() as boards, contextlib.suppress(KeyboardInterrupt):
        for number in range(given.count):
            name = os.path.join(given.folder, f"ttyUSB{number}")
            boards.callback(PtyBoard(given.program, name, given.id, given.table, given.baud, given.hold / 1000).stop)
        print(f"{given.count} boards in {given.folder}", flush=True)
        while True:
            signal.pause()


if __name__ == "__main__":
    main()
