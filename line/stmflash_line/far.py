"""Ports that another machine has: rfc2217://HOST:PORT, and socket://HOST:PORT, which is a port's bytes and nothing else."""

import contextlib
import os
import re
import socket
import threading
import time

from .faults import HAS_NONE, UNDO, Fault, Gone, refused, say

# what to do where nobody is there
THERE = "ser2net, or what else serves the port, has to run there"
# how long the far end may take to be there, in seconds
PATIENCE = 5
# how long one that can tell of errors may take to say so
ANSWER = 2
# how many bits a byte takes on a line: a start, eight, parity, a stop
BITS = 11
# RFC 2217, NOTIFY-LINESTATE: overrun, parity error, framing error, break
ERRORS = 0x02 | 0x04 | 0x08 | 0x10


def open_far(word, baud):
    """The port that this word names. What it can't promise of parity is said."""
    found = re.fullmatch(r"(rfc2217|socket)://([^/?#@:\[\]]+|\[[0-9a-fA-F:.]+\]):([0-9]{1,5})", word)
    if found is None or not 0 < int(found[3]) < 65536:
        raise Fault(f"{word}: is no far port; give {word.partition(':')[0]}://HOST:PORT")
    if found[1] == "rfc2217":
        return open_rfc2217(word, baud)
    try:
        connection = socket.create_connection((found[2].strip("[]"), int(found[3])), PATIENCE)
    except OSError as error:
        raise refused(word, error, THERE) from None
    connection.setsockopt(socket.IPPROTO_TCP, socket.TCP_NODELAY, 1)
    say(f"{word}: parity, speed and errors are the far end's: a byte that came with an error may be handed on")
    return SocketPort(connection, word, baud)


class FarPort:
    """What both have: nobody tells when a byte has gone out there, and so that is reckoned."""

    gone = f"the far end closed the line; {UNDO}"

    def __init__(self, name, baud):
        self.name, self.baud = name, baud
        self.free = 0.0

    def sent(self, count):
        """So many bytes go out there from now on."""
        self.free = max(self.free, time.monotonic()) + count * BITS / self.baud
        return count

    def drain(self, wake):
        """Waits as long as all that was written takes on a line of this speed, or until a signal ends us."""
        wake.pause(self.free - time.monotonic())


class SocketPort(FarPort):
    def __init__(self, connection, name, baud):
        super().__init__(name, baud)
        self.connection = connection
        connection.setblocking(False)
        self.descriptor = self.way_out = connection.fileno()

    def forget(self):
        while self.read()[0]:
            pass

    def read(self):
        try:
            data = self.connection.recv(65536)
        except BlockingIOError:
            return b"", 0
        except OSError as error:
            raise Gone from error
        if not data:
            raise Gone
        return data, 0

    def write(self, data):
        try:
            return self.sent(self.connection.send(data))
        except BlockingIOError:
            return 0
        except OSError as error:
            raise Gone from error

    def move(self, name, value):
        raise Fault(f"{self.name}: {HAS_NONE.format(name.upper())}")

    def close(self):
        self.connection.close()


class Inbox:
    """What pyserial's reading thread hands on, and a descriptor that is readable while there is some."""

    def __init__(self):
        self.reader, self.writer = os.pipe2(os.O_NONBLOCK | os.O_CLOEXEC)
        self.lock = threading.Lock()
        self.data, self.errors, self.is_closed = bytearray(), 0, False

    def put(self, byte):
        """A byte, or None where the connection has ended."""
        with self.lock:
            if byte is None:
                self.is_closed = True
            else:
                self.data += byte
        self.wake()

    def put_error(self):
        with self.lock:
            self.errors += 1
        self.wake()

    def wake(self):
        # one that is full is readable
        with contextlib.suppress(BlockingIOError):
            os.write(self.writer, b".")

    def take(self):
        """What came, how many errors were told of, and whether it is the last."""
        with contextlib.suppress(BlockingIOError):
            os.read(self.reader, 65536)
        with self.lock:
            taken = bytes(self.data), self.errors, self.is_closed
            self.data, self.errors = bytearray(), 0
        if taken[2]:
            self.wake()
        return taken


class Rfc2217Port(FarPort):
    def __init__(self, client, inbox, name, baud):
        super().__init__(name, baud)
        self.client, self.inbox = client, inbox
        self.descriptor, self.way_out = inbox.reader, client._socket.fileno()

    def forget(self):
        if self.inbox.take()[2]:
            raise Gone

    def read(self):
        data, bad, is_last = self.inbox.take()
        if is_last and not data and not bad:
            raise Gone
        # which byte it was isn't told
        return (b"" if bad else data), bad

    def write(self, data):
        data = bytes(data[:4096])
        try:
            self.client.write(data)
        except OSError as error:
            raise Gone from error
        return self.sent(len(data))

    def move(self, name, value):
        try:
            if name == "brk":
                self.client.send_break()
            else:
                setattr(self.client, name, value)
        except (OSError, ValueError) as error:
            if self.inbox.is_closed:
                raise Gone from error
            raise Fault(f"{self.name}: {HAS_NONE.format(name.upper())}") from None

    def close(self):
        with contextlib.suppress(OSError):
            self.client.close()


def open_rfc2217(word, baud):
    """The port there, with even parity, asked to tell of errors."""
    try:
        import serial
        from serial import rfc2217
    except ImportError:
        raise Fault("python3-serial isn't there: apt install python3-serial") from None
    inbox = Inbox()

    class Client(rfc2217.Serial):
        # RTS and DTR are where the far end's system has them: one that hasn't these answers nothing when they are moved
        is_whole = False

        def _update_rts_state(self):
            if self.is_whole:
                super()._update_rts_state()

        def _update_dtr_state(self):
            if self.is_whole:
                super()._update_dtr_state()

        def _telnet_read_loop(self):
            try:
                super()._telnet_read_loop()
            except OSError:
                # an answer that nobody takes, as where the far end floods us with questions
                self._read_buffer.put(None)

        def _telnet_process_subnegotiation(self, suboption):
            super()._telnet_process_subnegotiation(suboption)
            is_state = suboption[:2] == rfc2217.COM_PORT_OPTION + rfc2217.SERVER_NOTIFY_LINESTATE
            if is_state and suboption[2:] and suboption[2] & ERRORS:
                inbox.put_error()

    client = Client(baudrate=baud, parity=serial.PARITY_EVEN, timeout=0)
    client.port = word
    try:
        client.open()
    except ValueError:
        raise Fault(f"{word}: doesn't take {baud} baud with 8 data bits and even parity; --baud names another speed") from None
    except OSError as error:
        # pyserial's own fault stands before the system's, and has no such text
        why = getattr(error.__context__, "strerror", None)
        raise Fault(f"{word}: {f'{why}; {THERE}' if why else 'speaks no RFC 2217; the bytes of a port alone are socket://HOST:PORT'}") from None
    client.is_whole, client._read_buffer = True, inbox
    mask = rfc2217.TelnetSubnegotiation(client, "linestate", rfc2217.SET_LINESTATE_MASK, rfc2217.SERVER_SET_LINESTATE_MASK)
    client._rfc2217_options["linestate"] = mask
    try:
        mask.set(bytes([ERRORS]))
        mask.wait(ANSWER)
    except (OSError, ValueError):
        say(f"{word}: the far end doesn't tell of bytes that came with an error, and may hand them on")
    else:
        say(f"{word}: the far end tells of bytes that came with an error, but may hand them on before")
    return Rfc2217Port(client, inbox, word, baud)
