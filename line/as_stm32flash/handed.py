"""Names of files that were opened for this process, as /dev/stdin and /dev/fd/3: behind one of them any other process has a file of its own, or none."""

import os
import stat
import sys

from .fault import Fault

# so many links lead to a file at most
LINKS = 40


def is_handed(name):
    """Whether a name leads to an open file of this process."""
    for _ in range(LINKS):
        folder = os.path.realpath(os.path.dirname(name))
        if folder.startswith("/proc/"):
            return True
        path = os.path.join(folder, os.path.basename(name))
        if not os.path.islink(path):
            return False
        name = os.path.join(folder, os.readlink(path))
    return False


def take_output(asked):
    """A file of this process that -r is to write is standard output, as `-` is, or takes the place of standard input, which such a call doesn't read."""
    name = asked.file
    if asked.action == "r" and name == "-" and sys.stdout is None:
        raise Fault("Raw BINARY ERROR: System Error\nstandard output is closed")
    if asked.action != "r" or name == "-" or not is_handed(name):
        return
    try:
        opened = os.open(name, os.O_WRONLY)
    except OSError as error:
        raise Fault(f"Raw BINARY ERROR: System Error\n{name}: {error.strerror}") from None
    if os.path.sameopenfile(opened, 1):
        asked.file = "-"
    else:
        os.dup2(opened, 0)
        asked.out = 0
    os.close(opened)


def empty(opened):
    """Takes away what a file held, before what is read goes there; a call that is refused leaves it."""
    if stat.S_ISREG(os.fstat(opened).st_mode):
        os.ftruncate(opened, 0)
