"""What is done with a board, one function an action."""

import contextlib
import os

from stmflash_line.faults import as_text
from stmflash_line.held import hold

from . import handed, sequence
from . import part as parts
from .fault import Failed, Fault
from .told import note

CHANGED_BACK = "the flash is as it was before this call"
NEXT_CALL = "what was begun is undone by the next call at this port"
STANDS = "what was written stands, and isn't verified; --undo undoes it"


class Actions:
    """A call at a board whose chip is known."""

    def __init__(self, words, board, told, chip):
        self.words, self.board, self.told, self.chip = words, board, told, chip
        # whether the session that wrote has started the program too
        self.has_started = False

    def do(self):
        """The action, if there is one."""
        action = {"": lambda: None, "r": self.read, "w": self.write, "o": self.erase, "C": self.sum}
        action |= dict.fromkeys("ujk", self.protect)
        action[self.words.action]()

    # ---- that change nothing

    def read(self):
        part = parts.of(self.words, self.chip)
        self.told.line("Memory read")
        name = self.words.file
        if name == "-":
            self.fetch(part, "-", out=1)
        elif self.words.out is not None:
            handed.empty(self.words.out)
            self.fetch(part, "-", out=self.words.out)
        else:
            # a link is followed, whatever its name
            path = os.path.realpath(name)
            if not os.path.isdir(os.path.dirname(path)):
                raise Fault(f"Raw BINARY ERROR: System Error\n{name}: No such file or directory")
            self.fetch_file(part, path)
        self.told.far("Read", part.end, 1, end="Done.\n")

    def fetch_file(self, part, path):
        """Reads raw bytes into a file, which keeps its mode, whatever its name: by `stmflash read` .hex would be a text, and what isn't UTF-8 no word."""
        if as_text(path) == path and not path.lower().endswith(".hex"):
            return self.fetch(part, path)
        unready = f"{path}.{os.getpid()}"
        try:
            if os.path.exists(path) and not os.path.isfile(path):
                with open(path, "wb") as file:
                    return self.fetch(part, "-", out=file)
            with open(unready, "xb") as file:
                os.chmod(unready, os.stat(path if os.path.exists(path) else unready).st_mode)
                self.fetch(part, "-", out=file)
                os.fsync(file)
            os.replace(unready, path)
        except OSError as error:
            raise Fault(f"Raw BINARY ERROR: System Error\n{path}: {error.strerror}") from None
        finally:
            with contextlib.suppress(FileNotFoundError):
                os.remove(unready)

    def fetch(self, part, *words, what="Read", stream=None, **more):
        """Reads a part of the flash, as `stmflash read` does."""
        show = self.told.progress((what,), part, self.chip, stream)
        try:
            self.board.use("read", "-S", part.word(), *words, show=show, **more)
        except Failed as fault:
            raise Fault(f"Failed to read memory at address 0x{part.start:08x}, target write-protected?\n{fault}") from None

    def sum(self):
        """The CRC, of what is read: the number that the chip's own unit has for it."""
        from .crc import crc
        part = parts.of(self.words, self.chip)
        self.told.line("CRC computation")
        if part.end % 4:
            raise Fault("Start and end addresses must be 4 byte aligned\nFailed to read CRC")
        with open(os.memfd_create("read"), "rb") as file:
            try:
                self.fetch(part, "-", what="CRC", stream=self.told.errors, out=file)
            except Fault as fault:
                raise Fault(f"{fault}\nFailed to read CRC") from None
            self.told.far("CRC", part.end, 1, self.told.errors, end="Done.\n")
            file.seek(0)
            value = crc(file.read())
        self.told.line(f"CRC(0x{part.start:08x}-0x{part.end:08x}) = 0x{value:08x}")

    # ---- that can be undone

    def write(self):
        from .image import Image
        image = Image(self.words)
        place = image.start or self.chip.base
        part = parts.Part(place, place + image.size)
        if not self.chip.holds(place) or part.end > self.chip.end:
            raise Fault(f"ERROR: the image, 0x{part.start:08x} to 0x{part.end:08x}, doesn't lie in the flash, 0x{self.chip.base:08x} to 0x{self.chip.end:08x}")
        for option, value in (("-s", self.words.page), ("-e", self.words.pages)):
            if value is not None:
                note(f"{option} says nothing here: just the pages that the image touches are erased, and the rest of them stays")
        self.told.line("Write to memory\nErasing memory")
        what = "Wrote and verified" if self.words.verify else "Wrote"
        self.change(lambda: self.write_and_start(image, part, what))
        if image.size:
            self.told.far(what, part.end, 1)
        self.told.line("Done.")

    def write_and_start(self, image, part, what):
        """Writes, and where a program is to be started then, does that in the same session. What fails behind the write is left to
        `start`, which does it alone."""
        address = self.start_address()
        if address is None:
            return self.write_once(image, part, what)
        try:
            self.board.kept(lambda *words: self.write_once(image, part, what, *words, "--go", f"0x{address:08X}"))
            self.has_started = True
        except Failed as fault:
            if not fault.printed:
                raise

    def start_address(self):
        """Where a program is started when all else is done; None where none is."""
        if self.words.start_at is not None:
            return self.words.start_at or self.chip.base
        return self.chip.base if self.words.reset and self.words.leave() is None else None

    def write_once(self, image, part, what, *sequel):
        options, data = image.at(part.start, self.words.force)
        options += [*["-v"] * self.words.verify, *sequel]
        show = self.told.progress(("Wrote", what), part, self.chip)
        if data is None:
            return self.board.use("write", *options, f"{image.path}@", show=show)
        from stmflash_line.sockets import named
        held = hold(data)
        with open(held, "rb"):
            word = named(f"/proc/self/fd/{held}", self.words.file, os.environ["STMFLASH_DEVICE"])
            return self.board.use("write", *options, word, show=show, files=(held,))

    def erase(self):
        part = parts.of(self.words, self.chip)
        self.told.line("Erasing flash")
        wanted = parts.pages(part, self.chip)
        if (part.start, part.end) == (self.chip.base, self.chip.end):
            wanted = ["--all"]
        if wanted:
            self.change(lambda: self.board.use("erase", *wanted))

    def change(self, act):
        """Writes or erases. A write that differs is undone and done again, as often as -n says, unless it differs at the
        same byte; another fault is undone, where the board can still be reached."""
        if self.board.journals.is_large():
            self.board.put_aside()
        left, before, depth = self.words.retries, None, self.board.undoable()
        while True:
            try:
                return act()
            except Failed as fault:
                at = fault.differs_at()
                stands = self.give_back(fault, depth)
                if at is None or not left or at == before or stands != CHANGED_BACK:
                    raise Fault(f"{self.failure(fault)}\nstm32flash: {stands}") from None
                left, before = left - 1, at
                note(f"{fault}: the flash is as before, and it is done again")

    def give_back(self, fault, depth):
        """Undoes what a failed command has done, where so many could be undone before it, and says what stands."""
        if not self.board.is_unfinished() and self.board.undoable() == depth:
            return CHANGED_BACK
        if not fault.is_of_the_line():
            try:
                self.board.undo()
                return CHANGED_BACK
            except Failed:
                pass
        return NEXT_CALL if self.board.is_unfinished() else STANDS

    def failure(self, fault):
        at = fault.differs_at()
        if at is not None:
            return f"Failed to verify at address 0x{at:08x}"
        return f"Failed to {'erase' if self.words.action == 'o' else 'write'} memory\n{fault}"

    # ---- behind which nothing of before is sure

    def protect(self):
        kind, doing, failed = {
            "u": ("write-unprotect", "Write-unprotecting", "write-unprotect"),
            "j": ("readout-protect", "Read-Protecting", "read-protect"),
            "k": ("readout-unprotect", "Read-UnProtecting", "read-unprotect")}[self.words.action]
        self.told.line(f"{doing} flash")
        self.board.put_aside()
        ended = self.end_ways_back() if self.words.action == "k" else {}
        try:
            self.board.use("protect", kind)
        except Failed as fault:
            kept = f"\nERROR: whether the chip is erased isn't known; what could be undone is kept as {', '.join(ended)}"
            raise Fault(f"Failed to {failed} flash\n{fault}" + kept * bool(ended)) from None
        self.told.line("Done.")

    def end_ways_back(self):
        """The whole chip is erased: no page is what a journal of it knows. Answers where they are."""
        ended = self.board.journals.set_apart(self.board.own)
        for path, owner in ended.items():
            if owner.board not in (None, self.board.own.board):
                note(f"this chip doesn't tell which board it is: {path} may be another's, but isn't looked at any more")
        return ended

    def start(self, address):
        """Starts a program. What was done stays, and its journal is put aside: as long as the program leaves the flash alone, that can still be undone."""
        if self.has_started:
            return True
        self.board.put_aside()
        try:
            self.board.use("go", f"0x{address:08X}")
        except Failed as fault:
            note(str(fault))
            return False
        return True

    # ---- in the end

    def leave(self):
        """How a call that went well leaves the board, by -g, -R and the exit sequence of -i, which stmflash-line plays when all else is done; and
        what is told of it."""
        words, told = self.words, self.told
        played = words.leave()
        if words.start_at is not None:
            address = self.start_address()
            told.line(f"\nStarting execution at address 0x{address:08x}... ", end="")
            told.line("done." if self.start(address) else "failed.")
        elif words.reset and words.action not in ("u", "j", "k"):
            told.line("\nResetting device... ")
            if played is None:
                note("without an exit sequence in -i no reset is sent: the program at the flash's start is started by Go")
                if not self.start(self.start_address()):
                    told.line("Reset failed.")
                    return 1
            else:
                told.lines(sequence.lines(played))
            told.line("Reset done.")
            return 0
        if played is not None:
            told.lines(sequence.lines(played))
        return 0
