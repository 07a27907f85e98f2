"""How long a reply may take at a port, which a session of stmflash waits in full before its first answer, and behind each batch of bytes."""

import math
import os
import stat

# the most bytes that are on their way in one such wait: a batch of 256, and as many again to be sure; 11 bits each. Behind a larger
# batch stmflash waits longer
BYTES, BITS = 512, 11
# what an adapter holds bytes back for where its driver doesn't say, and what the machine and the chip may take besides, in ms
HOLD, REST = 16, 50
# the least, and the most, in ms: a board may take half of stmflash's own wait (stmflash-trial's reply-time)
LEAST, MOST = 250, 60000
# what stmflash itself waits, in ms
OWN = 400
# Linux: how long an adapter of FTDI holds bytes back, in ms
TTY, TIMER = "/sys/class/tty", "latency_timer"
# the numbers of pseudo-terminals (Linux: Documentation/admin-guide/devices.txt): they have neither parity nor speed
PTY_MAJORS = range(136, 144)


def wait(name, baud, pause):
    """The wait for a port at this speed, in ms, where a client's first byte may be kept for `pause` seconds. Where it isn't known how
    late a reply may come it is stmflash's own with that time, and None where no byte is kept."""
    held = hold(name)
    if held is None:
        return min(OWN + round(1000 * pause), MOST) if pause else None
    taken = math.ceil(BYTES * BITS * 1000 / baud) + 4 * held + REST
    return min(max(LEAST, taken) + round(1000 * pause), MOST)


def hold(name):
    """How long the adapter of a port holds bytes back at most, in ms; None where it isn't known where the port leads."""
    device = os.path.join(TTY, os.path.basename(os.path.realpath(name)), "device")
    if not os.path.exists(device) or "vhci_hcd" in os.path.realpath(device):
        # a pseudo-terminal, or a port of another machine that USB/IP brings here
        return None
    try:
        with open(os.path.join(device, TIMER), encoding="ascii") as timer:
            return int(timer.read())
    except (OSError, ValueError):
        return HOLD


def is_pty(name):
    """Whether a port is a pseudo-terminal."""
    try:
        place = os.stat(name)
    except OSError:
        return False
    return stat.S_ISCHR(place.st_mode) and os.major(place.st_rdev) in PTY_MAJORS
