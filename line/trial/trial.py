"""A trial: each row on one board, one after another, and what is told in the end."""

import contextlib
import os
import shlex
import signal
import sys
import time

import told
from board import Board, pages_told
from faults import Differs, Ended, NotTried, Odd, Refused
from line import Line
from progress import Progress, put
from row import NOTE
from rows import BACK, CONTACT, ERASED_BYTE, QUIET, ROWS, SAVE, TOLD
from settling import recover

# an erase that takes longer ends what changes something, without --patient, in seconds
SLOW = 10
ENDING = (signal.SIGINT, signal.SIGTERM, signal.SIGHUP)
# a Ctrl-C comes from the terminal, and once more from stmflash-line: within so many seconds it is one
ONE_SIGNAL = 1


class Trial:
    def __init__(self, words):
        self.words = words
        self.progress = Progress(words, len(ROWS))
        self.board = Board(Line(words), words, self.progress)
        self.found = []
        # why no further row is tried; why this trial isn't whole, and in which row that came
        self.dead, self.ended, self.broken = None, None, None
        # whether a signal may end what is done now; what a row differs by whose board is being got back
        self.may_end, self.differs = False, None
        self.begun = time.monotonic()
        # when the first signal came
        self.signalled = None

    def run(self):
        """Tries all rows, and answers the exit status."""
        try:
            with signals(self.stop):
                for row in ROWS:
                    self.progress.begin(row.name)
                    if row is SAVE:
                        self.ask()
                    self.take(row)
        finally:
            self.progress.clear()
            self.board.line.close()
        return self.tell()

    def ask(self):
        """Asks once, where somebody can answer, before anything is kept or changed."""
        if self.words.yes or self.words.only_read or self.board.model is None:
            return
        self.progress.clear()
        question = f"The flash is saved to {self.words.save}; page {pages_told(self.words.pages)} is erased, written and put back.\n" \
                   "Go on? yes or no:"
        try:
            answer = input(question + " ")
        except (EOFError, OSError):
            answer = ""
        if answer.strip().lower() not in ("y", "yes"):
            raise Refused("nothing was changed")

    def stop(self, number, _):
        """A signal ends the row that is tried, and no other one is tried then; what was changed is still put back. A later one ends everything."""
        now = time.monotonic()
        if self.signalled is not None:
            if now - self.signalled < ONE_SIGNAL:
                return
            signal.signal(number, signal.SIG_DFL)
            os.kill(os.getpid(), number)
        self.signalled = now
        self.ended = f"signal {signal.Signals(number).name}"
        if self.may_end:
            raise Ended(self.ended)

    def take(self, row):
        """Tries a row, and keeps what came of it."""
        self.add(self.tried(row))
        if row is SAVE and self.board.saved is not None:
            self.say(f"saved in {self.words.save}: whatever comes, reset the board, and "
                     f"`stmflash write -v -f {shlex.quote(self.words.save)}` puts its flash back")

    def tried(self, row):
        """What came of a row. A signal ends it, but for the one that puts back."""
        self.differs = None
        try:
            self.may_end = row is not BACK
            self.dead = self.dead or self.ended
            return self.outcome(row)
        except Ended as error:
            self.ended, self.dead, self.broken = self.ended or str(error), self.dead or str(error), self.broken or row
            return self.differs or told.Found(row, told.NOT_TRIED, str(error), row.means)
        finally:
            self.may_end = False

    def outcome(self, row):
        """What came of a row that nothing ended."""
        try:
            try:
                self.need(row)
                text = row.act(self.board) or ""
                if self.board.model and row not in TOLD:
                    self.board.hush()
            except Differs as error:
                self.differs = told.Found(row, told.DIFFERS, str(error), NOTE if isinstance(error, Odd) else row.means)
                self.regain(row)
                return self.differs
        except NotTried as reason:
            return told.Found(row, told.NOT_TRIED, str(reason), row.means)
        return told.Found(row, told.HOLDS, text, row.means)

    def regain(self, row):
        """Gets the board back behind a row that differs."""
        if self.board.model:
            recover(self.board, row.intent)
        elif row is not QUIET and not (row is CONTACT and self.board.was_contacted):
            self.dead = "no device of the model"

    def need(self, row):
        """NotTried where a row can't be tried here, or isn't to be."""
        board = self.board
        if row.name in self.words.skip:
            raise NotTried("left out")
        if row in TOLD:
            return
        if row is BACK:
            if board.saved is None or not board.is_touched:
                raise NotTried("nothing was changed")
            # it is tried whatever came, as long as there is a board
            if self.broken:
                recover(board, self.broken.intent)
            return
        if self.dead:
            raise NotTried(self.dead)
        if row.changes == "nothing" or row is ERASED_BYTE:
            return
        if self.words.only_read or board.saved is None:
            raise NotTried("only reads" if self.words.only_read else "the flash wasn't saved")
        if board.harm:
            raise NotTried(board.harm)
        if board.usual_time("erase") > SLOW and not self.words.patient:
            board.refusal = "its erases are slow: --patient tries the rest"
            raise NotTried(board.refusal)

    def add(self, found):
        self.found.append(found)
        self.say(found.line())

    def say(self, text):
        self.progress.clear()
        put(sys.stdout, text + "\n")

    def tell(self):
        """Writes the file, says the verdict, and answers the exit status."""
        seconds = time.monotonic() - self.begun
        verdict, reason = told.judge(self.board, self.found, self.ended)
        text = told.file_text(self.board, self.found, verdict, reason, seconds)
        counts = [sum(one.result == result for one in self.found) for result in (told.HOLDS, told.DIFFERS, told.NOT_TRIED)]
        self.say(f"{counts[0]} hold, {counts[1]} differ, {counts[2]} not tried, in {seconds:.1f} s")
        status = 0 if verdict == told.FOLLOWS else 1
        try:
            write_anew(self.words.out, text)
        except OSError as error:
            self.say(f"what was found couldn't be written to {self.words.out}: {error.strerror}")
            status = 1
        self.say(f"{verdict}{', because' if verdict == told.DONT_USE else ':'} {reason}")
        return status


@contextlib.contextmanager
def signals(handler):
    before = {number: signal.getsignal(number) for number in ENDING}
    for number, held in before.items():
        # one that was ignored when we began stays so
        if held is not signal.SIG_IGN:
            signal.signal(number, handler)
    try:
        yield
    finally:
        for number, held in before.items():
            signal.signal(number, held)


def write_anew(path, text):
    """The file is the old one or the new one, whatever comes; what is no file, as a pipe or a device, is written to as it is."""
    if os.path.exists(path) and not os.path.isfile(path):
        with open(path, "w", encoding="utf-8") as place:
            place.write(text)
        return
    path = os.path.realpath(path)
    unready = f"{path}.{os.getpid()}.new"
    # a file that has this name isn't ours
    with open(unready, "x", encoding="utf-8") as file:
        try:
            file.write(text)
            file.flush()
            os.fsync(file.fileno())
            os.replace(unready, path)
        except OSError:
            os.remove(unready)
            raise
