"""Sessions of stmflash with the board at a port, and its journal."""

import contextlib
import os
import re
import subprocess
import time

from stmflash_line.journals import is_stopped
from stmflash_line.tied import tied

from .fault import Failed, Fault
from .journal_text import Owner, kept_pages, owner_of
from .journals import KEPT, rename
from .patience import UNKNOWN, wait_at_rest
from .told import note

# how long a program that was told to end may take to let its journal go, in seconds
RELEASED = 5
NO_PROTOCOL = "device does not follow the protocol"
# the sessions that can be done again as long as they have begun nothing; a program that a Go did start doesn't answer the next
AGAIN = ("info", "read", "write", "erase", "go", "undo")
# those behind which, where they ended well, the board waits for a command; and those that need no longer wait then: where it
# proves too short, they are done again
LEAVE_AT_REST, AT_REST = ("info", "read", "write", "erase"), ("read", "write", "erase", "go")


class Board:
    """The board behind a socket that STMFLASH_DEVICE names, and the journal of its port."""

    def __init__(self, tools, journals, wait, slowest=lambda: 0):
        self.tools, self.journals, self.wait = tools, journals, wait
        # how many seconds the slowest answer of this call took; and whether the last session has left the board at rest
        self.slowest, self.is_at_rest = slowest, False
        # which board it is, once it was asked; and whether the journal in use is one that this port had last
        self.own, self.is_of_port = Owner(), True
        # what stmflash made of the last session that failed, if it did
        self.hint = ""
        # that a reset was claimed isn't believed: a sequence may move signals that no reset hangs on
        self.settings = {name: value for name, value in os.environ.items()
                         if name not in ("STMFLASH_FRESH", "STMFLASH_JOURNAL", "STMFLASH_JSON", "STMFLASH_TABLE", "STMFLASH_WAIT")}

    def use(self, name, *words, wait=None, **more):
        """One session; what it printed. Where a wait that is shorter than stmflash's own has proved too short, and nothing was
        begun, it is done once more with that."""
        before, wait_now = self.journals.size(), wait or self.wait
        if wait is None and self.is_at_rest and name in AT_REST:
            wait_now = wait_at_rest(self.wait, self.slowest())
        try:
            return self.session(name, words, wait_now, **more)
        except Failed as fault:
            is_short = wait is None and wait_now < max(self.wait, UNKNOWN) and name in AGAIN
            # an undo goes on where it was stopped; a write whose journal was kept has left none
            begun = name != "undo" and (self.journals.size() != before or fault.printed)
            if str(fault) != NO_PROTOCOL or not is_short or begun:
                raise
            self.wait, self.hint = max(self.wait, UNKNOWN), ""
            return self.session(name, words, self.wait, **more)

    def session(self, name, words, wait, show=None, out=None, files=(), journal=None):
        """One session; what it printed, unless that goes to the file `out`. `show` is called with each line of its
        progress; `files` are descriptors that it may read; `journal` is another one than that in use."""
        common = ["--table", self.tools.table, "--journal", journal or self.journals.live, "--wait", str(wait), "--progress" if show else "--quiet"]
        self.is_at_rest = False
        printed = self.run([name, *common, *words], show, out, (*files, *self.tools.files))
        # a program that was started isn't the bootloader
        self.is_at_rest = name in LEAVE_AT_REST and "--go" not in words
        return printed

    def run(self, words, *more):
        """A call of stmflash, also one that needs no device. One that was killed just now may still have the journal for a moment."""
        until = time.monotonic() + RELEASED
        while True:
            try:
                return self.run_once(words, *more)
            except Failed as fault:
                if str(fault) != "journal is in use" or time.monotonic() > until:
                    raise
                time.sleep(0.05)

    def run_once(self, words, show=None, out=None, files=()):
        # a pipe that nobody reads meanwhile has no room for a long log
        with open(os.memfd_create("printed"), "rb") as held:
            with subprocess.Popen([self.tools.stmflash, *words], env=self.settings, stdin=subprocess.DEVNULL, pass_fds=files,
                                  stdout=held if out is None else out, stderr=subprocess.PIPE, preexec_fn=tied()) as started:
                try:
                    told, hints = follow(started.stderr, show)
                except BaseException:
                    started.terminate()
                    raise
            held.seek(0)
            printed = held.read().decode(errors="replace")
        if started.returncode:
            text = told[-1] if told else f"stmflash ended with status {started.returncode}"
            # nobody has named it
            self.hint = "; ".join([*hints[-1:], *[f"the journal is {words[words.index('--journal') + 1]}"] * text.startswith("journal ")])
            raise Failed(text, printed)
        return printed

    # ---- the journal

    def log(self):
        """What the journal in use says, whose last line is one of two; nothing where there is none. Any other text is refused: it would
        be taken for that of a journal in which nothing stands."""
        if not os.path.exists(self.journals.live):
            return ""
        text = self.run(["log", "--journal", self.journals.live])
        if not re.search("^([0-9]+ can be undone|unfinished, undo first)$", text, re.M):
            raise Fault(f"ERROR: what stmflash says of {self.journals.live} isn't understood; stmflash and stm32flash have to be of one version")
        return text

    def is_unfinished(self):
        # an image may have that name
        return self.log().endswith("unfinished, undo first\n")

    def undoable(self):
        """How many writes and erases the journal in use has that can be undone."""
        found = re.search("^([0-9]+) can be undone$", self.log(), re.M)
        return int(found[1]) if found else 0

    def put_aside(self, journal=None):
        """Ends the journal in use, or another one, and keeps it as the newest that was put aside, unless it has changed nothing; whether it is kept."""
        journal = journal or self.journals.live
        if not os.path.exists(journal):
            return False
        path = self.journals.next_kept()
        self.run(["keep", "--journal", journal, path])
        self.drop_old()
        return os.path.exists(path)

    def drop_old(self):
        """Drops those that have changed nothing, so that none of them counts, and then those that are too old. What nobody else
        uses any more is looked at, and removed under its lock, by stmflash, which leaves one that is unfinished or can't be read."""
        # those that may be the newest ones of one board
        for path in self.journals.kept()[-1 - KEPT:]:
            if not any(kept_pages(path)):
                with contextlib.suppress(Failed):
                    self.run(["keep", "--journal", path])
        self.journals.drop_old()

    def take_newest(self):
        """Makes the newest that was put aside, and changed something, of the board that is there the one in use; whether there was
        one. The device isn't asked where none was put aside, nor believed where it doesn't answer: then it is the newest of all."""
        kept = {path: owner_of(path) for path in self.journals.kept()}
        own = self.ask_owner() if kept else None
        for path in reversed([path for path, owner in kept.items() if own is None or own.takes(owner)]):
            self.refuse_bad(path)
            if any(kept_pages(path)):
                self.put_aside()
                rename(path, self.journals.live)
                return True
        return False

    def take_own(self):
        """Makes the journal of the board that was asked the one in use; whether it is another one than before. What the port has for
        boards that tell no unique id is put aside where it isn't this one's, unless a command was stopped in it."""
        before, nameless = self.journals.live, self.journals.nameless
        is_others = self.own.board or not self.own.takes(owner_of(nameless))
        if is_others and os.path.exists(nameless) and not is_stopped(nameless):
            kept = "is put aside" if self.put_aside(nameless) else "has changed nothing, and is removed"
            note(f"another board was at this port before: its journal {kept}")
        self.journals.take_board(self.own.board)
        return self.journals.live != before

    def take_stopped(self):
        """Takes the journal in which a command was stopped at another port: this board may wait for the rest of it. Of several none is taken."""
        stopped = [] if self.own.chip or self.is_unfinished() else self.journals.stopped()
        if len(stopped) == 1 and stopped[0] != self.journals.nameless:
            self.journals.live, self.is_of_port = stopped[0], False
            self.journals.refuse_other(stopped[0])

    def take_from_other(self):
        """The same while a command was stopped in the one in use, if that is sure to be another board's; whether it is."""
        other, own = owner_of(self.journals.live), self.ask_owner()
        if own is None or self.is_of_port and own.may_be(other):
            return False
        self.hint = ""
        self.take_own()
        return True

    def refuse_bad(self, path):
        """What is older can't be undone before the newest."""
        try:
            self.run(["log", "--journal", path])
        except Failed as fault:
            raise Fault(f"{fault}\nERROR: {path} is the newest and can't be read: move it away to undo older ones without it") from None

    def ask_owner(self):
        """Which board is there; None where it doesn't answer."""
        try:
            self.information()
        except Failed:
            return None
        return self.own

    def kept(self, act):
        """Does a write that keeps its journal in the same session, as the newest that was put aside."""
        done = act("--keep-to", self.journals.next_kept())
        self.drop_old()
        return done

    # ---- sessions

    def information(self):
        """What the device says of itself, beside a journal that isn't there: the one in use may be another board's."""
        said = self.use("info", journal=self.journals.none)
        told = dict(line.split(" ", 1) for line in said.splitlines() if " " in line)
        self.own = Owner(told.get("id"), told.get("board"))
        return told

    def undo(self, fresh=False, count=1):
        """Undoes so many of the newest writes and erases. What was stopped may leave the board busy: it is waited for as stmflash
        does. So is it for more than one, which can't be done again: some may be undone then."""
        has_patience = count > 1 or self.is_unfinished()
        self.use("undo", *["--fresh"] * fresh, str(count), wait=max(self.wait, UNKNOWN) if has_patience else None)


def follow(pipe, show):
    """The faults that come from a pipe, and the hints behind them, without the words before each; `show` is handed each other line as it comes."""
    found = {"stmflash: ": [], "hint: ": []}
    for line in pipe:
        text = line.decode(errors="replace").strip()
        word = next(filter(text.startswith, found), None)
        if word:
            found[word].append(text.removeprefix(word))
        elif show:
            show(text)
    return found.values()
