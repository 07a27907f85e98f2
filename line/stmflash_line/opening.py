"""How a port is opened: for us alone, with even parity, and quick; and who has one open, and who may."""

import contextlib
import errno
import fcntl
import grp
import os
import pwd
import stat
import termios
import time

from .faults import Fault, number_of, refused, say
from .patience import PTY_MAJORS, TIMER, TTY
from .port import Port

MISSING = "python3-serial isn't there: apt install python3-serial"
# how the name of a port begins that another machine has
FAR = ("rfc2217://", "socket://")


def open_port(word, baud):
    """The port that this word names: ours alone, 8 data bits, even parity, one stop bit, and quick; or one that another machine has."""
    if word.startswith(FAR):
        # needed by few, and so not loaded by all
        from .far import open_far
        return open_far(word, baud)
    try:
        import serial
    except ImportError:
        raise Fault(MISSING) from None
    try:
        port = serial.serial_for_url(word, do_not_open=True, baudrate=baud, timeout=0, exclusive=True)
    except (ValueError, serial.SerialException):
        port = None
    if not isinstance(port, serial.Serial):
        raise Fault(f"{word}: is not a serial port of this machine; {ports_here()}")
    name = port.port
    place = find_place(name)
    is_pty = os.major(place.st_rdev) in PTY_MAJORS
    port.parity = serial.PARITY_NONE if is_pty else serial.PARITY_EVEN
    try:
        port.open()
        refuse_sharing(place, port.fileno())
        set_mode(port.fileno(), is_pty)
    except (OSError, ValueError, OverflowError, termios.error) as error:
        port.close()
        raise Fault(f"{name}: {why_closed(name, place, baud, error)}") from None
    hasten(port, name)
    return Port(port, name, baud)


def find_place(name):
    """What stands at this name, which has to look like a port."""
    try:
        place = os.stat(name)
    except (FileNotFoundError, NotADirectoryError):
        raise Fault(f"{name}: no such port; {ports_here()}") from None
    except OSError as error:
        raise refused(name, error, ports_here()) from None
    if stat.S_ISSOCK(place.st_mode):
        raise Fault(f"{name}: is not a serial port but a socket: hand it to stmflash itself, as --device")
    if not stat.S_ISCHR(place.st_mode):
        kind = "folder" if stat.S_ISDIR(place.st_mode) else "file"
        raise Fault(f"{name}: is not a serial port but a {kind}; {ports_here()}")
    return place


def only_port():
    """The one port of this machine: of several the one that hangs on USB."""
    try:
        from serial.tools import list_ports
    except ImportError:
        raise Fault(MISSING) from None
    ports = sorted(list_ports.comports())
    ports = [port for port in ports if port.vid is not None] or ports
    if len(ports) != 1:
        several = ", ".join(f"{port.device} ({port.description})" for port in ports)
        raise Fault(f"which port? {several}" if ports else f"no port: {ports_here()}")
    say(f"{ports[0].device}: {ports[0].description}")
    return ports[0].device


def ports_here():
    """The ports of this machine, for a text."""
    from serial.tools import list_ports
    names = sorted(port.device for port in list_ports.comports())
    if not names:
        return "this machine has none: is the adapter plugged in?"
    return f"this machine has {', '.join(names)}"


def refuse_sharing(place, descriptor):
    """Takes the port for us alone. Who opened it without a lock would take bytes away from us, so it is busy then too."""
    for _ in range(3):
        if not holders(place):
            fcntl.ioctl(descriptor, termios.TIOCEXCL)
            return
        # another stmflash-line that is being refused has it for a moment
        time.sleep(0.1)
    raise OSError(errno.EBUSY, "busy")


def set_mode(descriptor, is_pty):
    """What pyserial leaves off: bytes that come with an error are marked, and RTS and DTR stay as they are when the port is
    closed. A read that finds nothing says so, so that an end can be told from it."""
    mode = termios.tcgetattr(descriptor)
    mode[0] |= termios.INPCK | termios.PARMRK
    mode[0] &= ~(termios.IGNPAR | termios.IGNBRK | termios.BRKINT | termios.ISTRIP)
    mode[2] &= ~termios.HUPCL
    mode[6][termios.VMIN], mode[6][termios.VTIME] = 1, 0
    termios.tcsetattr(descriptor, termios.TCSANOW, mode)
    held = termios.tcgetattr(descriptor)
    marks = termios.INPCK | termios.PARMRK
    form = termios.CSIZE | termios.PARENB | termios.PARODD | termios.CSTOPB
    wanted = termios.CS8 if is_pty else termios.CS8 | termios.PARENB
    if held[0] & marks != marks or held[2] & form != wanted:
        raise ValueError("the driver keeps another mode")


def hasten(port, name):
    """Asks the driver to hand bytes on at once. One that holds them back all the same is told, since it takes long."""
    with contextlib.suppress(OSError, ValueError, NotImplementedError, termios.error):
        port.set_low_latency_mode(True)
    timer = os.path.join(TTY, os.path.basename(os.path.realpath(name)), "device", TIMER)
    with contextlib.suppress(OSError, ValueError):
        if read_number(timer) > 2:
            with contextlib.suppress(OSError), open(timer, "w", encoding="ascii") as held:
                held.write("1")
            if read_number(timer) > 2:
                say(f"{name}: holds bytes back for {read_number(timer)} ms, which makes it slow; as root: echo 1 > {timer}")


def read_number(path):
    with open(path, encoding="ascii") as held:
        return int(held.read())


def why_closed(name, place, baud, error):
    """Why a port could not be opened, and what to do."""
    number = number_of(error)
    if number in (errno.EBUSY, errno.EAGAIN):
        told = [f"{program} (process {process})" for process, program in holders(place)]
        return f"busy: {' and '.join(told)} has it" if told else f"busy: another program has it; sudo fuser {name} names it"
    if number in (errno.EACCES, errno.EPERM):
        return "no permission; " + who_may(place)
    if number in (errno.ENOENT, errno.ENXIO, errno.ENODEV, errno.EIO):
        return f"no hardware answers there; {ports_here()}"
    if number == errno.ENOTTY:
        return f"is not a serial port; {ports_here()}"
    return f"doesn't take {baud} baud with 8 data bits and even parity; --baud names another speed"


def holders(place):
    """The processes but this one that have a device open, with their programs: our own, and for root everyone's."""
    found = []
    for process in filter(str.isdigit, os.listdir("/proc")):
        if int(process) == os.getpid():
            continue
        with contextlib.suppress(OSError):
            folder = f"/proc/{process}/fd"
            if any(is_device(os.path.join(folder, number), place.st_rdev) for number in os.listdir(folder)):
                with open(f"/proc/{process}/comm", encoding="utf-8", errors="replace") as comm:
                    found.append((int(process), comm.read().strip()))
    return found


def is_device(link, device):
    with contextlib.suppress(OSError):
        # only what lies in /dev is asked about: an open file elsewhere may be slow to answer
        if os.readlink(link).startswith("/dev/"):
            place = os.stat(link)
            return stat.S_ISCHR(place.st_mode) and place.st_rdev == device
    return False


def who_may(place):
    """Who may use a port that we may not, and what to do."""
    with contextlib.suppress(KeyError):
        if place.st_mode & 0o060 == 0o060:
            group = grp.getgrgid(place.st_gid).gr_name
            return f"group {group} has it: sudo adduser {our_name()} {group}, and log in again"
        return f"only {pwd.getpwuid(place.st_uid).pw_name} has it"
    return "ls -l says who has it"


def our_name():
    try:
        return pwd.getpwuid(os.geteuid()).pw_name
    except KeyError:
        return "YOU"
