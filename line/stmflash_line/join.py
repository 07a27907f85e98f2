"""Bytes both ways between a port and the client of a socket."""

import select
import time

from .faults import say

# bytes that a client may leave unread before the line is closed to it
MOST_UNREAD = 1 << 20


class Join:
    """A port and whoever is connected to the socket, one client after another. What comes while nobody is connected is
    dropped, as on a line that nobody listens at. What a client has sent goes out whole, also where it was killed since.

    `entry` is called before the first byte of each client but the one that an `entered` board is for; None: nothing is. A client that has sent nothing for
    `idle` seconds is let go of; 0: none is. `watch` ends the line at the first reply that isn't due; None: each is handed on. `heard` is told how many
    seconds each first byte took that came for what was sent last; None: nobody is."""

    def __init__(self, port, listener, wake, entry=None, entered=False, idle=0, watch=None, heard=None):
        self.port, self.listener, self.wake = port, listener, wake
        # whether a reply wasn't due
        self.watch, self.is_otherwise = watch, False
        self.client = None
        # when something was sent last that wasn't answered yet
        self.tell, self.asked = heard, None
        self.idle, self.heard = idle, 0.0
        self.entry, self.entered = entry, entered
        self.is_first = False
        self.out, self.into = bytearray(), bytearray()

    def turn(self, until=None):
        """Waits for bytes, a client or a signal, until a time at most, and hands on what there is."""
        wake = self.wake
        readers, writers = [wake.reader, self.port.descriptor], []
        readers.append(self.listener if self.client is None else self.client)
        if self.out:
            writers.append(self.port.way_out)
            # no more is taken than the port takes
            if self.client is not None:
                readers.remove(self.client)
        if self.into:
            writers.append(self.client)
        ends = [end for end in (until, self.end_of_patience()) if end is not None]
        patience = max(0, min(ends) - time.monotonic()) if ends else None
        readable, writable, _ = select.select(readers, writers, [], patience)
        if wake.reader in readable:
            wake.clear()
        if self.port.descriptor in readable:
            self.from_port()
        if self.port.way_out in writable:
            self.to_port()
        if self.client is None:
            if self.listener in readable:
                self.accept()
        elif self.client in readable:
            self.from_client()
        if self.client in writable:
            self.to_client()
        self.let_go()

    def end_of_patience(self):
        """When a client that has the line has said nothing for too long; None: never. One whose bytes still wait for the port isn't listened to."""
        if not self.idle or self.client is None:
            return None
        if self.out:
            self.heard = time.monotonic()
        return self.heard + self.idle

    def let_go(self):
        """Closes the line to a client that said nothing for too long."""
        end = self.end_of_patience()
        if end is not None and time.monotonic() >= end:
            say(f"{self.port.name}: let go of a client that sent nothing for {self.idle} s")
            self.leave()

    def accept(self):
        """Whether there was a client to take."""
        try:
            self.client, _ = self.listener.accept()
        except OSError:
            return False
        self.client.setblocking(False)
        self.is_first, self.heard = True, time.monotonic()
        if self.watch:
            self.watch.begin()
        return True

    def enter(self):
        """Brings the board to where a client's first byte is to find it, behind all that earlier clients have sent. False where a
        signal ends us meanwhile."""
        if self.entry is None or self.entered:
            self.entered = False
            return True
        self.send_rest()
        if not self.wake.number:
            self.entry()
        if self.wake.number:
            return False
        self.port.forget()
        self.into.clear()
        return True

    def from_port(self):
        data, bad = self.port.read()
        if self.tell and self.asked is not None and data:
            self.tell(time.monotonic() - self.asked)
            self.asked = None
        if self.client is None:
            return
        text = None
        if self.watch:
            data, text = self.watch.due_of(data)
        self.into += data
        self.to_client()
        if text:
            # the byte itself isn't handed on, so that nothing is sent because of it
            self.is_otherwise = True
            say(f"{self.port.name}: the board does otherwise than the model: {text}; stmflash-trial tells more")
            self.leave()
        elif bad:
            at = f"{bad} bytes came with an error at {self.port.baud} baud"
            say(f"{self.port.name}: {at}: look at speed, wiring and ground")
            self.leave()
        elif len(self.into) > MOST_UNREAD:
            say(f"{self.port.name}: {len(self.into)} bytes came that nobody took")
            self.leave()

    def to_port(self):
        if self.out:
            del self.out[:self.port.write(self.out)]
            self.asked = time.monotonic()

    def from_client(self):
        """Whether the client had sent something."""
        try:
            data = self.client.recv(65536)
        except BlockingIOError:
            return False
        except OSError:
            data = b""
        if not data or self.is_first and not self.enter():
            self.leave()
            return False
        self.is_first, self.heard = False, time.monotonic()
        if self.watch:
            self.watch.put(data)
        self.out += data
        self.to_port()
        return True

    def to_client(self):
        if self.client is None or not self.into:
            return
        try:
            del self.into[:self.client.send(self.into)]
        except BlockingIOError:
            pass
        except OSError:
            # what it has sent is still taken; it is seen to have gone where that ends
            self.into.clear()

    def leave(self):
        """Closes the line to the client."""
        if self.client is not None:
            self.client.close()
            self.client = None
            if self.watch and self.watch.has_sent and not self.watch.is_otherwise:
                say(f"{self.port.name}: watched: {self.watch.told()}")
        self.into.clear()

    def finish(self):
        """Hands on what clients have sent that are gone now, also one that was never taken."""
        while self.client is not None or self.accept():
            while self.client is not None and self.from_client():
                pass
            self.leave()
        self.send_rest()

    def send_rest(self):
        """Waits until what was taken of clients has gone out, or a signal ends us."""
        while self.out and not self.wake.number:
            select.select([self.wake.reader], [self.port.way_out], [], None)
            self.to_port()
        self.port.drain(self.wake)
