"""pyserial's port `real://PATH?file=LOG`: a pseudo-terminal that behaves as a serial port with its driver.

It keeps parity, has RTS, DTR, a flag of low latency and counters of bytes that were lost, and can be unplugged. What the test
writes to the other end is pairs: what happens, and a byte.

    GOOD b         the byte b comes
    PARITY b       it comes with a wrong parity
    FRAMING b      it comes without its stop bit
    BREAK b        a break comes
    OVERRUN b      the port loses b: its receiver was full
    FULL b         the driver loses b: its buffer was full
    UNPLUGGED b    the port is gone: every call of it fails, and a read as well
    HUNG_UP b      the same, and a read is at its end

Moves of RTS and DTR, drains and the flag are noted in LOG, line by line. What the bytes become is Linux's: Documentation of
termios(3), for INPCK, IGNPAR, PARMRK, IGNBRK and ISTRIP.
"""

import array
import errno
import fcntl
import os
import struct
import termios
import tty
import urllib.parse

import serial

GOOD, PARITY, FRAMING, BREAK, OVERRUN, FULL, UNPLUGGED, HUNG_UP = range(8)
# a major number of ports (Linux: Documentation/admin-guide/devices.txt, USB serial converters)
USB_MAJOR = 188
# the places of counters in serial_icounter_struct, and its number
TIOCGICOUNT, COUNTER = 0x545D, {OVERRUN: 7, FULL: 10}
SIGNALS = {termios.TIOCM_RTS: "rts", termios.TIOCM_DTR: "dtr"}
# the flags of serial_struct, and the one of low latency
FLAGS, LOW_LATENCY = 4, 0x2000


class Driver:
    """What stands behind the descriptor of the one port of this process."""

    def __init__(self):
        self.descriptor = self.device = self.log = None

    def take(self, descriptor, log):
        self.descriptor, self.log = descriptor, log
        self.mode = real["tcgetattr"](descriptor)
        # the pseudo-terminal itself hands on what comes
        tty.setraw(descriptor)
        self.raised = termios.TIOCM_RTS | termios.TIOCM_DTR
        self.counters = array.array("i", [0] * 20)
        self.flags = array.array("i", [0] * 32)
        self.rest, self.gone = b"", None

    def note(self, text):
        with open(self.log, "a", encoding="ascii") as log:
            log.write(text + "\n")

    def move_to(self, raised):
        changed, self.raised = self.raised ^ raised, raised
        for signal, name in SIGNALS.items():
            if changed & signal:
                self.note(("" if raised & signal else "-") + name)

    def ioctl(self, request, argument=0, mutate=True):
        if request == termios.TIOCMBIS:
            self.move_to(self.raised | struct.unpack("I", argument)[0])
        elif request == termios.TIOCMBIC:
            self.move_to(self.raised & ~struct.unpack("I", argument)[0])
        elif request == termios.TIOCMGET:
            return struct.pack("I", self.raised)
        elif request == TIOCGICOUNT:
            argument[:len(self.counters)] = self.counters
        elif request == termios.TIOCGSERIAL:
            argument[:len(self.flags)] = self.flags
        elif request == termios.TIOCSSERIAL:
            self.flags[:] = argument
            self.note("low latency" if argument[FLAGS] & LOW_LATENCY else "as it was")
        else:
            return real["ioctl"](self.descriptor, request, argument, mutate)
        return 0

    def read(self, count):
        if not self.gone:
            data = self.rest + real["read"](self.descriptor, count)
            self.rest = data[len(data) // 2 * 2:]
            came = b"".join(self.become(what, byte) for what, byte in zip(data[::2], data[1::2]))
            if came or not self.gone:
                if not came:
                    raise BlockingIOError
                return came
        if self.gone == HUNG_UP:
            return b""
        raise OSError(errno.EIO, os.strerror(errno.EIO))

    def write(self, data):
        return real["write"](self.descriptor, data)

    def tcgetattr(self):
        return [*self.mode[:6], list(self.mode[6])]

    def tcsetattr(self, when, mode):
        self.mode = [*mode[:6], list(mode[6])]
        even = mode[2] & (termios.PARENB | termios.PARODD) == termios.PARENB
        self.note(f"parity {'even' if even else 'odd' if mode[2] & termios.PARODD else 'none'}")

    def tcflush(self, queue):
        if queue != termios.TCOFLUSH:
            self.rest = b""
        return real["tcflush"](self.descriptor, queue)

    def tcdrain(self):
        self.note("drain")
        return real["tcdrain"](self.descriptor)

    def become(self, what, byte):
        """What a program reads of what came."""
        flags, control = self.mode[0], self.mode[2]
        if what in COUNTER:
            self.counters[COUNTER[what]] += 1
            return b""
        if what in (UNPLUGGED, HUNG_UP):
            self.unplug(what)
            return b""
        if what == BREAK:
            byte = 0
            if flags & termios.IGNBRK:
                return b""
        # without parity the receiver doesn't look at it
        is_bad = what in (FRAMING, BREAK) or what == PARITY and control & termios.PARENB and flags & termios.INPCK
        if is_bad and what != BREAK and flags & termios.IGNPAR:
            return b""
        if is_bad:
            return bytes([0xFF, 0, byte]) if flags & termios.PARMRK else b"\0"
        if flags & termios.ISTRIP:
            byte &= 0x7F
        return b"\xff\xff" if byte == 0xFF and flags & termios.PARMRK else bytes([byte])

    def unplug(self, how):
        self.gone = how
        # whoever waits for the port wakes up
        reader, writer = os.pipe()
        os.close(writer)
        os.dup2(reader, self.descriptor)
        os.close(reader)


driver = Driver()
NAMES = {os: ("read", "write"), fcntl: ("ioctl",), termios: ("tcgetattr", "tcsetattr", "tcflush", "tcdrain")}
real = {"major": os.major, **{name: getattr(module, name) for module, names in NAMES.items() for name in names}}


def replacing(module, name):
    """What stands for a call of the system: the driver's own where the port is meant, and a fault of that module where it is gone."""
    def call(descriptor, *words):
        if descriptor != driver.descriptor:
            return real[name](descriptor, *words)
        if driver.gone and name != "read":
            raise (termios.error if module is termios else OSError)(errno.EIO, os.strerror(errno.EIO))
        return getattr(driver, name)(*words)

    return call


class Serial(serial.Serial):
    def from_url(self, url):
        parts = urllib.parse.urlsplit(url)
        self.log = urllib.parse.parse_qs(parts.query)["file"][0]
        driver.device = os.stat(parts.path).st_rdev
        os.major = lambda device: USB_MAJOR if device == driver.device else real["major"](device)
        for module, names in NAMES.items():
            for name in names:
                setattr(module, name, replacing(module, name))
        return parts.path

    @serial.Serial.port.setter
    def port(self, name):
        serial.Serial.port.fset(self, self.from_url(name) if name is not None and name.startswith("real:") else name)

    def _reconfigure_port(self, force_update=False):
        if driver.descriptor != self.fd:
            driver.take(self.fd, self.log)
        super()._reconfigure_port(force_update)
