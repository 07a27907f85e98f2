"""One call from beginning to end: the port, the board on it, and who uses it."""

import time

from .command import run
from .faults import Fault, Gone
from .join import Join
from .opening import only_port, open_port
from .patience import hold, wait
from .sequences import Moves
from .sockets import served, served_privately


def use_port(given, wake):
    """Opens the port, uses the board on it, and leaves it as --after says."""
    watch = make_watch() if given.watch else None
    lines = make_lines(given.gpio_chip) if given.gpio_chip else None
    port = open_port(given.port or only_port(), given.baud)
    moves = Moves(port, lines)
    try:
        status = use_board(port, moves, given, wake, watch)
        moves.play(given.after, time.sleep)
        return status
    except Gone:
        # a program that begins a session of its own says itself how that is undone
        raise Fault(f"{port.name}: {port.gone.partition(';')[0] if callable(given.command) else port.gone}") from None
    finally:
        if lines:
            lines.close()
        port.close()


def use_board(port, moves, given, wake, watch):
    """Brings the board into its bootloader, and serves it. One that a sequence resets is reset for each client: COMMAND's first
    finds it so, and a socket's may come at any time."""
    def enter():
        moves.play(given.boot, wake.pause)

    enter()
    if wake.number:
        return 128 + wake.number if given.command else 0
    port.forget()
    with (served(given.socket) if given.socket else served_privately()) as (path, listener):
        join = Join(port, listener, wake, enter if given.resets else None, bool(given.command), given.idle, watch, given.heard)
        if not given.command:
            return serve(join)

        def use(command, settled):
            return run(command, path, wait_of(port, given, settled), baud_of(port), join)

        return name_journal(port, given, use) or use(given.command, given.command)


def serve(join):
    """Serves until a signal comes."""
    while not join.wake.number:
        join.turn()
    join.leave()
    return 0


def name_journal(port, given, use):
    """Names the journal of a COMMAND that names none. The status that ends the call, or 0."""
    if callable(given.command):
        return 0
    from . import asking
    if not asking.names_no_journal(given.command):
        return 0
    return asking.name_journal(port.name, given.command, lambda begin: use(begin, ("info",)))


def wait_of(port, given, command):
    """How long a reply may take, in ms: also that of a client whose first byte waits until the board is reset. None where that
    isn't known, and for a program that has a wait of its own; and for an undo, also that of `write --again`, since an erase that was
    stopped may still run, and all that settling sends is lost meanwhile."""
    if callable(command) or any(word == "undo" or word.startswith("--again") for word in command):
        return None
    pause = sum(value for name, value in given.boot if name == "wait") if given.resets else 0
    return wait(port.name, port.baud, pause)


def baud_of(port):
    """How many bits a second the line has. None where the port may not be the line: a pseudo-terminal has no speed, and a far port's is the far end's."""
    return None if hold(port.name) is None else port.baud


# what few calls need is loaded for those alone: each start of Python counts

def make_watch():
    from .tables import read_chips
    from .watch import Watch
    return Watch(read_chips(None, "STMFLASH_TABLE")[0])


def make_lines(chip):
    from .gpio_lines import GpioLines
    return GpioLines(chip)
