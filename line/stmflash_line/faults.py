"""How the line ends in place of an answer, and what is said then."""

import contextlib
import os
import sys

# what is told where a line ended that a COMMAND may have been changing the flash over
UNDO = "where the same call with log says unfinished, with undo 1 it undoes what was begun"
# a port without the signal of this name
HAS_NONE = "has no {}; leave --wiring, --boot and --after out"
# what to do where what is called isn't a program
NO_COMMAND = "COMMAND is the name of a program in PATH, or its path"


class Fault(Exception):
    """Why the line can't be had, or ended: one line for a user."""


def refused(name, error, then):
    """A fault of what the system refused at this name, with what to do."""
    return Fault(f"{name}: {getattr(error, 'strerror', None) or error}; {then}")


class Gone(Exception):
    """The port isn't there any more."""


def plain(text):
    """A text for a terminal: what isn't printable, as in the name of a port or a program, is told by its number."""
    return "".join(it if it.isprintable() else it.encode("unicode_escape").decode() for it in text)


def as_text(name):
    """A name as stmflash takes one, whose words are text: what isn't UTF-8 is replaced."""
    return os.fsencode(name).decode(errors="replace")


def say(text):
    # where standard error is closed nothing is told: standard output may have the flash of a read
    if sys.stderr is not None:
        with contextlib.suppress(OSError):
            print("stmflash-line: " + plain(text), file=sys.stderr, flush=True)


def put(stream, text):
    """Tells something, and answers whether it was told. Where it can't be, since whoever reads it has gone or a disk is full, the work
    goes on all the same."""
    if stream is None:
        return False
    try:
        try:
            stream.write(text)
        except UnicodeEncodeError:
            # of names that have no form in an encoding numbers are told
            stream.write(text.encode(stream.encoding, "backslashreplace").decode(stream.encoding))
        stream.flush()
        return True
    except OSError:
        os.dup2(os.open(os.devnull, os.O_WRONLY), stream.fileno())
        return False


def number_of(error):
    """The system's number of a fault, which pyserial's own may have, or the one before it."""
    while error is not None and not isinstance(next(iter(error.args), None), int):
        error = error.__context__
    return error and error.args[0]
