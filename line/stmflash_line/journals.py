"""The journals that nobody has named: each board's by its unique id, and for boards that tell none one of each port. stm32flash's words have the same."""

import contextlib
import fcntl
import os
import re
import stat

from .faults import Fault, as_text, refused
from .opening import FAR
from .patience import is_pty

BY_PATH = "/dev/serial/by-path"
KEPT_THERE = "journals are kept there; XDG_STATE_HOME names another folder"
# behind another last line that isn't void a command didn't end, or a crash left that one; and how many bytes the longest has at most
ENDED, LONGEST = (b"stmjournal ", b"end ", b"undone "), 1 << 23
# the name of a board's journal, and of what a session saved of one that was taken away; a copy, or what an undo cut off, is none
OF_BOARD = re.compile(r"[^.]+\.journal(\.rescued.*)?")


class Journals:
    """The journals of the boards at a port: `live` is the one in use, `none` a name that no journal has. They are their owner's
    alone, unless others are trusted: a journal holds what a flash held."""

    def __init__(self, port, trusts_others=False):
        state, self.trusts_others = state_folder(), trusts_others
        self.boards, self.folder = os.path.join(state, "journals"), os.path.join(state, "ports", name_of(port))
        self.nameless, self.none, self.last = (os.path.join(self.folder, name) for name in ("journal", "none", "last"))
        try:
            self.live = os.readlink(self.last)
        except OSError:
            self.live = self.nameless

    def make(self):
        for folder in (self.boards, self.folder):
            try:
                os.makedirs(folder, mode=0o700, exist_ok=True)
            except OSError as error:
                raise refused(error.filename, error, KEPT_THERE) from None
        self.refuse_others()

    def refuse_others(self):
        """A fault where another has put a journal here, or may."""
        for path in (self.boards, self.folder, self.live):
            self.refuse_other(path)

    def refuse_other(self, path):
        if not self.trusts_others:
            refuse_others(path)

    def take_board(self, board):
        """Takes the journal of the board with this unique id, None: of one that tells none. The port is known to have it from now on,
        also where the machine loses its power in the midst of a write."""
        self.live = os.path.join(self.boards, f"{board}.journal") if board else self.nameless
        self.refuse_other(self.live)
        unready = f"{self.last}.{os.getpid()}"
        try:
            if board is None:
                with contextlib.suppress(FileNotFoundError):
                    os.unlink(self.last)
            elif not os.path.islink(self.last) or os.readlink(self.last) != self.live:
                os.symlink(self.live, unready)
                os.replace(unready, self.last)
                held = os.open(self.folder, os.O_RDONLY)
                os.fsync(held)
                os.close(held)
        except OSError as error:
            raise refused(self.last, error, KEPT_THERE) from None

    def stopped(self):
        """The journals in which a command was stopped: of boards at any port, and of this port's that tell no unique id."""
        paths = [os.path.join(self.boards, name) for name in sorted(filter(OF_BOARD.fullmatch, os.listdir(self.boards)))]
        return [path for path in (*paths, self.nameless) if is_stopped(path)]


def is_stopped(path):
    """Whether a command of this journal may not have ended, and no program that runs has it."""
    try:
        with open(path, "rb") as file:
            file.seek(max(0, os.fstat(file.fileno()).st_size - LONGEST))
            lines = file.read().split(b"\n")[:-1]
            if next((line for line in reversed(lines) if not line.endswith(b"!")), ENDED[0]).startswith(ENDED):
                # not locked: its board's next call would be refused meanwhile
                return False
            fcntl.flock(file, fcntl.LOCK_SH | fcntl.LOCK_NB)
            return os.fstat(file.fileno()).st_size == file.tell()
    except OSError:
        return False


def state_folder():
    home = os.environ.get("XDG_STATE_HOME", "")
    # a relative one is to be taken for none
    if not os.path.isabs(home):
        home = os.path.join(os.path.expanduser("~"), ".local", "state")
    if not home.startswith("/"):
        # in each folder there would be others
        raise Fault(f"HOME names no folder; {KEPT_THERE}")
    if as_text(home) != home:
        raise Fault(f"{home}: isn't UTF-8, as stmflash's words are; {KEPT_THERE}")
    return os.path.join(home, "stmflash")


def name_of(port):
    """A name that a port has for good: where its adapter is plugged in, as udev says it, or that of its device. A pseudo-terminal is known by the name that
    it is called by, since its own is another one each time, and a port of another machine by its word, which is no path."""
    if is_pty(port):
        path = os.path.abspath(port)
        return named_by(os.path.basename(path), path)
    if port.startswith(FAR):
        return named_by(re.sub("[^0-9A-Za-z]+", "-", port).strip("-"), port)
    device = os.path.realpath(port)
    try:
        links = sorted(link for link in os.listdir(BY_PATH) if os.path.realpath(os.path.join(BY_PATH, link)) == device)
    except OSError:
        links = []
    return links[0] if links else device.removeprefix("/dev/").replace("/", "-").lstrip(".-") or "port"


def named_by(name, whole):
    """A name, with what tells it from others that are like it."""
    # loaded for few
    import hashlib
    return f"{as_text(name)}-{hashlib.sha256(os.fsencode(whole)).hexdigest()[:12]}"


def refuse_others(path):
    """A fault where what stands at a path is another's, or others may write it: what they put into a journal is what an undo would flash. Whoever
    reads it says that it isn't there."""
    try:
        held = os.stat(path)
    except OSError:
        return
    if held.st_uid not in own_users():
        raise Fault(f"{path} is another user's, and isn't taken for a journal of yours: chown it, or remove it")
    # in a sticky folder nobody replaces another's file
    is_sticky = stat.S_ISDIR(held.st_mode) and held.st_mode & stat.S_ISVTX
    if held.st_mode & (stat.S_IWGRP | stat.S_IWOTH) and not is_sticky:
        raise Fault(f"others may write {path}, and it isn't taken for a journal of yours: chmod go-w it, or remove it")


def own_users():
    """Who we are; for root, who has called sudo too."""
    own = {os.geteuid()}
    if own == {0}:
        own |= {int(user) for user in [os.environ.get("SUDO_UID", "")] if user.isdecimal()}
    return own
