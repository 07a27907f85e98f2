"""COMMAND: started with the way to the board, and ended with it."""

import os
import shutil
import subprocess
import sys
import time

from .faults import NO_COMMAND, UNDO, Gone, refused, say
from .sockets import FOLDER, named
from .tables import handed_on
from .tied import tied

# how long COMMAND has to end by itself once it was told to, in seconds; and behind the last byte that it sent to the board, since it
# may be putting back what it changed, and an erase takes its time
GRACE, QUIET = 5, 15
# the words of a COMMAND that changes the flash, and what is said where a signal ended one that had the line
CHANGES = ("write", "erase", "undo")
NEXT = f"ended by a signal: {UNDO}"


def run(command, path, wait, baud, join):
    """Runs COMMAND on the socket at this path, and answers its status. Where a signal ends us, or the port goes, it is ended too."""
    child, wake = start(command, path, wait, baud), join.wake
    try:
        until = None
        while child.poll() is None:
            if wake.number and until is None:
                child.send_signal(wake.number)
                until = time.monotonic() + GRACE
            if until is not None:
                until = max(until, join.heard + QUIET)
                if time.monotonic() > until:
                    child.kill()
            join.turn(until)
        join.finish()
    except Gone:
        # it sees the line closed and ends by itself, if it is stmflash
        join.leave()
        join.listener.close()
        raise
    finally:
        end(child)
    if wake.number:
        if not callable(command) and join.heard and any(word in CHANGES for word in command):
            say(NEXT)
        return 128 + wake.number
    status = child.returncode if child.returncode >= 0 else 128 - child.returncode
    return status or int(join.is_otherwise)


def start(command, path, wait, baud):
    """COMMAND, with the socket's path for every {}, and how long a reply may take, in ms, and how many bits a second the line has,
    each where that is known and its user says nothing. It is told to end where we are killed. Where it is a function, that begins it."""
    settings = {**os.environ, "STMFLASH_DEVICE": path}
    if os.path.basename(os.path.dirname(os.environ.get("STMFLASH_DEVICE", ""))).startswith(FOLDER):
        # we are, or stand below, the COMMAND of another line, which has said these of its own board
        for name in ("STMFLASH_WAIT", "STMFLASH_BAUD"):
            settings.pop(name, None)
    if wait is not None and not settings.get("STMFLASH_WAIT"):
        settings["STMFLASH_WAIT"] = str(wait)
    if baud is not None and not settings.get("STMFLASH_BAUD"):
        settings["STMFLASH_BAUD"] = str(baud)
    if table := handed_on():
        settings["STMFLASH_TABLE"] = table
    if callable(command):
        return command(settings)
    try:
        words = [named(word, word.told, path) if hasattr(word, "told") else word.replace("{}", path) for word in command]
        return subprocess.Popen(words, env=settings, preexec_fn=tied())
    except OSError as error:
        raise refused(command[0], error, NO_COMMAND) from None


def end(child):
    """Waits until COMMAND has ended, and in the end sees to it."""
    for insist in (child.terminate, child.kill):
        try:
            child.wait(GRACE)
            return
        except subprocess.TimeoutExpired:
            insist()
    child.wait()


def find_program(command):
    """A command that isn't there is told before the board is touched, with the status that env and xargs have for it."""
    if shutil.which(command[0]) is None:
        say(f"{command[0]}: no such command")
        sys.exit(127)
