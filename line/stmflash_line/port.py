"""An open port: its bytes, with the marks of those that came with an error, RTS, DTR and break."""

import array
import contextlib
import errno
import fcntl
import os
import re
import termios
import time

from .faults import HAS_NONE, UNDO, Fault, Gone, number_of

# Linux: the counters of a port's errors (serial_icounter_struct), and which of them are bytes lost for want of room
TIOCGICOUNT, COUNTERS, LOST = 0x545D, 20, (7, 10)


class Port:
    """An open port: bytes as they come, and how many of them were lost or came with an error."""

    gone = f"unplugged; plug it in; {UNDO}"

    def __init__(self, serial, name, baud):
        self.serial, self.name, self.baud = serial, name, baud
        # what is readable while there is something to read, and writable while something can be written
        self.descriptor = self.way_out = serial.fileno()
        self.unmark = Unmark()
        self.counters = array.array("i", [0] * COUNTERS)
        self.lost = self.count_lost()

    def count_lost(self):
        """How many bytes the port had no room for, since the machine began; 0 where its driver doesn't count."""
        if self.counters is None:
            return 0
        try:
            fcntl.ioctl(self.descriptor, TIOCGICOUNT, self.counters)
        except OSError:
            # asked once, since this is asked at every read
            self.counters = None
            return 0
        return sum(self.counters[i] for i in LOST)

    def forget(self):
        """Drops what waits to be read."""
        try:
            termios.tcflush(self.descriptor, termios.TCIFLUSH)
        except termios.error as error:
            raise Gone from error
        self.unmark, self.lost = Unmark(), self.count_lost()

    def read(self):
        """What came, up to the first byte that was lost or came with an error, and how many were or did."""
        try:
            data = os.read(self.descriptor, 65536)
        except BlockingIOError:
            return b"", 0
        except OSError as error:
            raise Gone from error
        if not data:
            raise Gone
        lost = self.count_lost()
        clean, bad = self.unmark.take(data)
        lost, self.lost = lost - self.lost, lost
        # which place a lost byte had among these isn't known
        return (clean if lost <= 0 else b""), bad + max(lost, 0)

    def write(self, data):
        """How many of these bytes the port took."""
        try:
            return os.write(self.descriptor, data)
        except BlockingIOError:
            # a full pseudo-terminal says all the same that it can be written to
            time.sleep(0.005)
            return 0
        except OSError as error:
            raise Gone from error

    def drain(self, wake):
        """Waits until all that was written has gone out, or a signal ends us: a wedged adapter never takes it."""
        while not wake.number:
            try:
                return termios.tcdrain(self.descriptor)
            except termios.error as error:
                if error.args[0] != errno.EINTR:
                    raise Gone from error

    def move(self, name, value):
        """Moves RTS or DTR, or sends a break."""
        try:
            if name == "brk":
                self.serial.send_break()
            else:
                setattr(self.serial, name, value)
        except (OSError, termios.error) as error:
            # a signal has cut a break short
            if number_of(error) == errno.EINTR:
                return
            if number_of(error) in (errno.ENOTTY, errno.EINVAL):
                raise Fault(f"{self.name}: {HAS_NONE.format(name.upper())}") from None
            raise Gone from None

    def close(self):
        """Lets others have the port. HUPCL is off, so that RTS and DTR stay as they are."""
        with contextlib.suppress(OSError, termios.error):
            fcntl.ioctl(self.descriptor, termios.TIOCNXCL)
        with contextlib.suppress(OSError, termios.error):
            self.serial.close()


class Unmark:
    """Takes the marks off what a port with PARMRK hands on: FF FF is the byte FF; FF 00 X is a byte X that came with an
    error, or a break where X is 00. A mark may be parted anywhere between two reads."""

    GOOD = re.compile(rb"(?:[^\xff]+|\xff\xff)*")
    PART = re.compile(rb"\xff\x00?\Z")

    def __init__(self):
        self.rest = b""

    def take(self, data):
        """The bytes before the first that came with an error, and how many did."""
        data = self.rest + data
        at = self.GOOD.match(data).end()
        clean, bad = data[:at].replace(b"\xff\xff", b"\xff"), 0
        # here stands an FF that is not one of two
        while at < len(data) and not self.PART.match(data, at):
            bad += 1
            # a driver that marks otherwise hands on no data either: what follows is looked at again
            at = self.GOOD.match(data, at + 3 if data[at + 1] == 0 else at + 1).end()
        self.rest = data[at:]
        return clean, bad
