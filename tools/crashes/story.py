"""Sessions that are recorded: what stands before each, what it does, and what has to come of an undo behind a crash of it."""

import contextlib
import copy
import os
import pathlib
import random
import time

from board import GET_VERSION, Board, Device, Folder, flash_of, stand
from disk import Disk
from record import Reader, run
from stops import BASE, CHIPS, board_of, call, table

# how long a recorded session waits until the line counts as quiet, in ms, and how often one is recorded anew that a busy machine was too late for
WAIT, TRIES = "300", 4
BOARD, FILE = "board", "file"


class Unrecorded(Exception):
    """A session ended otherwise than it has to, or its record isn't whole."""


class Story:
    """A session, or one that is killed and one behind it, over a served simulator (`board`) or one in the process (`file`)."""

    def __init__(self, name, way, number, uses, before=(), pad=None, tail=None, kill=None, is_new=False):
        self.name = "%s-%s-%04X" % (name, way, number)
        self.way, self.chip, self.uses, self.before = way, CHIPS[number], uses, before
        # where the journal ends in its last sector before the session, by a void line at its start; a tail without a journal;
        # which sync of the first use it is killed at; no flash was ever written, and a simulator has no FILE yet
        self.pad, self.tail, self.kill, self.is_new = pad, tail, kill, is_new
        # the flash before each segment of the journal
        self.flashes = [bytes([self.chip.erased]) * self.chip.size if is_new else flash_of(self.chip)]

    def words(self, use, device="sim"):
        """The words of a use of the program."""
        name, *more = use
        if name == "keep":
            return ["keep", "--journal", "journal", *more]
        if device == "sim":
            device = "sim:%04X:flash" % self.chip.number
        words = [name, "--table", "table", "--device", device, "--journal", "journal", "--wait", WAIT]
        if name == "write":
            # over the edge of two pages
            words += ["-f", "-S", "0x%08x" % (BASE + (1 + int(more[0] == "second")) * self.chip.sizes[0] - 40)]
        return words + more

    def files(self):
        """The files that every session has, whatever stood before it."""
        images = {name: random.Random("%s %s" % (name, self.chip.number)).randbytes(120) for name in ("first", "second")}
        return {"table": table(), "out": b"what was read before\n", **images}

    def prepare(self, program, folder):
        """What stands before the session: the files, with those of the device."""
        Folder(folder).store_all({**self.files(), **board_of(self.chip.unique), **({} if self.is_new else {"flash": self.flashes[0]})})
        for use in self.before:
            ran = call([program, *self.words(use)], folder)
            if ran.returncode != (3 if "--stop" in use else 0):
                raise Unrecorded("%s: before it, %s: %s" % (self.name, " ".join(use), ran.stderr.decode().strip()))
            self.flashes.append(held(folder)["flash"])
        files = held(folder)
        files |= {} if self.tail is None else {"journal": self.tail}
        if self.pad is not None:
            # a line that counts as nothing
            files["journal"] = b"\0" * ((self.pad - len(files["journal"]) - 2) % 512) + b"!\n" + files["journal"]
        return files

    def record(self, program, folder):
        """Records the session, anew where a reply came too late for it."""
        for left in reversed(range(TRIES)):
            try:
                self.flashes = self.flashes[:1]
                self.record_once(program, os.path.join(folder, "%s-%d" % (self.name, left)))
                return self
            except Unrecorded:
                if left == 0:
                    raise
                time.sleep(1)

    def record_once(self, program, folder):
        room, made = os.path.join(folder, "room"), os.path.join(folder, "before")
        os.makedirs(made)
        os.makedirs(os.path.join(room, "elsewhere"))
        files = self.prepare(program, made)
        self.device = Device(self.chip, files.get("flash", self.flashes[0]))
        # one that is served has Get Version too
        self.device.codes[1:1] = [GET_VERSION] * (self.way == BOARD)
        if not stand(self.device, files.get("flash.line", b"fresh\n")):
            raise Unrecorded("%s: no device stands so" % self.name)
        self.device.owed.clear()
        if self.way == BOARD:
            files = {name: held for name, held in files.items() if not name.startswith("flash")}
        self.start = files
        Folder(room).store_all(files)
        reader = Reader(room, Disk(files))
        with contextlib.ExitStack() as beside:
            board = beside.enter_context(Board(program, os.path.join(folder, "board"), self.device)) if self.way == BOARD else None
            for number, use in enumerate(self.uses):
                words, killed = self.words(use, board.socket if board else "sim"), self.kill is not None and number == 0
                reader.begin()
                ran = run([program, *words], room, os.path.join(folder, "record"), "fsync:signal=KILL:when=%d" % self.kill if killed else None)
                reader.read(pathlib.Path(folder, "record").read_text(encoding="ascii"))
                if ran.returncode not in ((-9, 137) if killed else (0,)):
                    raise Unrecorded("%s: %s: status %d: %s" % (self.name, " ".join(words), ran.returncode, ran.stderr.decode().strip()))
            self.events = reader.events
            self.after = held(room)
            self.flash_after = self.checked(reader, room, board)
            self.note()

    def checked(self, reader, room, board):
        """The flash behind the session, where its record has all that it did."""
        names = reader.disk.now()
        found = {name: reader.disk.files[number].versions[-1] for name, number in names.items()}
        if found != held(room):
            raise Unrecorded("%s: the record leaves other files than the session" % self.name)
        if board is None:
            return found["flash"]
        device, replies = self.device_at()
        if device.flash != board.stored() or not replies.startswith(reader.received):
            raise Unrecorded("%s: the device did otherwise than the record tells" % self.name)
        return bytes(device.flash)

    def note(self):
        """Notes how many bytes the device replied to each byte; behind how many events something isn't on the disk; and behind
        how many the journal was added to, and its bytes that aren't on the disk lie in more than one sector."""
        self.replies = list(map(len, replies(copy.deepcopy(self.device), self.sent())))
        disk, self.unsynced, self.crossed = Disk(self.start), [], []
        for moment, event in enumerate(self.events, 1):
            disk.do(event)
            if not disk.is_synced():
                self.unsynced.append(moment)
            if event.kind == "write" and event.words[0] == disk.now().get("journal") and len(disk.files[event.words[0]].sectors()) > 1:
                self.crossed.append(moment)

    def journals(self):
        """The names that the journal has or gets."""
        return ["journal"] + [use[1] for use in self.uses if use[0] == "keep" and len(use) > 1]

    def sent(self, moment=None):
        """The bytes of the line until a moment."""
        return b"".join(event.words[0] for event in self.events[:moment] if event.kind == "send")

    def device_at(self, count=None):
        """The device once it got so many bytes of the line, or all, and all that it replied until then."""
        device = copy.deepcopy(self.device)
        return device, b"".join(replies(device, self.sent()[:count]))


def replies(device, sent):
    """What a device replies to each of these bytes."""
    for byte in sent:
        device.feed(byte)
        yield bytes(device.owed)
        device.owed.clear()


def held(folder):
    """The files of a folder and of those in it, but for sockets."""
    return {str(it.relative_to(folder)): it.read_bytes() for it in pathlib.Path(folder).rglob("*") if it.is_file()}
