"""A state that a crash leaves, made anew in a folder, and the undo from there."""

import bisect
import contextlib
import itertools
import os
import pathlib
import random
import re
import tempfile
import typing

from board import Board
from disk import BYTES, DIGITS, LINES, NUL, SECTOR, SECTORS, Disk
from journal import Journal, is_no_journal
from stops import call, fault_of
from story import BOARD, FILE, Story

# how long an undo waits until the line counts as quiet, in ms: where a reply was later than that, the next time longer
WAITS = ("40", "300", "2000")
LATE = ("stmflash: device does not follow the protocol", "stmflash: no answer from the device")


class State(typing.NamedTuple):
    """A moment of a recorded session, how many bytes of the line the device got, and what a disk with sectors of so many bytes has kept by then."""

    story: Story
    moment: int
    count: int
    sector: int
    crash: str

    def key(self):
        return "%s:%d:%d:%d:%s" % (self.story.name, self.moment, self.count, self.sector, self.crash)

    @staticmethod
    def of(stories, key):
        name, moment, count, sector, crash = key.split(":")
        return State(stories[name], int(moment), int(count), int(sector), crash)

    def files(self):
        """The files by name, and which names are of one file."""
        held, names = self.disk().left(self.crash)
        return {name: held[number] for name, number in names.items()}, names

    def disk(self):
        return disk_at(self.story, self.moment, self.sector)


def disk_at(story, moment, sector=SECTOR):
    """The disk once so many events were done."""
    disk = Disk(story.start, sector)
    for event in story.events[:moment]:
        disk.do(event)
    return disk


def draw(story, seed, number):
    """A state of a story. The second is of its end. Every other one is of a moment at which bytes of the journal in several
    sectors aren't on the disk, each such moment in turn; the last of these sectors is there, and something before it isn't, or it alone isn't."""
    chance = random.Random("%s %s %d" % (seed, story.name, number))
    kinds = (NUL, NUL, DIGITS, BYTES, LINES)
    is_hole = number % 2 == 0 and bool(story.crossed)
    if is_hole:
        moment = story.crossed[number // 2 % len(story.crossed)]
    elif number == 1:
        moment = len(story.events)
    elif story.unsynced and chance.random() < 0.6:
        moment = chance.choice(story.unsynced)
    else:
        moment = chance.randrange(len(story.events) + 1)
    # how many bytes the device has got at the least, since it replied to them, and at the most
    received = story.events[moment - 1].received if moment else 0
    least, most = bisect.bisect_left([*itertools.accumulate(story.replies, initial=0)], received), len(story.sent(moment))
    count = chance.choice((most, most, least, chance.randint(least, most)))
    sector = SECTORS[number // 4 % len(SECTORS)]
    return State(story, moment, count, sector, disk_at(story, moment, sector).draw(chance, kinds, is_hole))


class Bad(Exception):
    """What the undo did isn't what it has to do."""


def judge(program, state):
    """What is wrong behind a state, if anything. What is wrong by short waits is tried once more by a long one, since a reply
    that comes later than a host waits is outside of the model."""
    try:
        Trial(program, state, WAITS).judge()
        return None
    except Bad as short:
        try:
            Trial(program, state, WAITS[-1:]).judge()
        except Bad as bad:
            return str(bad)
        print("tools/crashes: late: %s: %s; and not by a longer wait" % (state.key(), short), flush=True)
        return None


class Trial:
    """A state in a folder, with a board where the session had one."""

    def __init__(self, program, state, waits):
        self.program, self.state, self.story, self.waits = program, state, state.story, waits
        self.files, self.names = state.files()
        self.answered = state.moment == len(self.story.events) or any(event.kind == "say" for event in self.story.events[:state.moment])
        # whether lines of a former journal are left somewhere
        self.has_lines = re.search(r"\.%s\b" % LINES, state.crash) is not None

    def judge(self):
        with tempfile.TemporaryDirectory(dir=top(), prefix="crash-") as folder, contextlib.ExitStack() as beside:
            self.room, self.board, first = pathlib.Path(folder, "room"), None, {}
            (self.room / "elsewhere").mkdir(parents=True)
            for name, number in sorted(self.names.items()):
                if number in first:
                    (self.room / name).hardlink_to(self.room / first[number])
                else:
                    (self.room / name).write_bytes(self.files[name])
                first.setdefault(number, name)
            if self.story.way == BOARD:
                device, _ = self.story.device_at(self.state.count)
                self.board = beside.enter_context(Board(self.program, os.path.join(folder, "board"), device))
            self.flash = bytes(device.flash) if self.board else self.held()
            self.check()

    def use(self, name, journal, *more):
        """What the program said; where a reply came too late for it, it is used again."""
        device = self.board.socket if self.board else "sim:%04X:flash" % self.story.chip.number
        for wait in self.waits:
            ran = call([self.program, name, "--table", "table", "--device", device, "--journal", journal, *more, "--wait", wait], self.room)
            said = ran.stderr.decode(errors="replace").strip()
            if ran.returncode == 0:
                return ran.stdout.decode(errors="replace")
            if fault_of(said) not in LATE:
                break
        raise Bad("%s says: %s" % (" ".join((name, *more)), said or "nothing, with status %d" % ran.returncode))

    def held(self):
        """The flash."""
        if self.board:
            return self.board.stored()
        return self.read("flash") if (self.room / "flash").exists() else bytes([self.story.chip.erased]) * self.story.chip.size

    def same(self, flash, text):
        found = self.held()
        if found != flash:
            wrong = [at for at, (one, two) in enumerate(zip(found, flash)) if one != two]
            raise Bad("%s, in %d bytes from %s on" % (text, len(wrong), wrong[:1]))

    def check(self):
        journals = [name for name in self.story.journals() if name in self.files]
        self.check_answer(journals)
        if not journals:
            # nothing was begun that it would be needed for, or its way back was given up
            is_given_up = ("keep",) in self.story.uses and any(event.kind == "remove" for event in self.story.events[:self.state.moment])
            flash = self.story.flashes[-1 if is_given_up else 0]
            if self.flash != flash:
                raise Bad("there is no journal, and the flash isn't what it was")
            self.use("info", "journal")
            self.same(flash, "there is no journal, and info changed the flash")
        # by one name each file
        for name in {self.names[name]: name for name in reversed(journals)}.values():
            self.undo(name)

    def undo(self, name):
        """Reads the journal whole, undoes the newest segment, and then all that are left."""
        if is_no_journal(self.files[name]):
            # bytes of a former file stand in the place of its header
            self.refused(name)
            return
        journal = Journal(self.files[name]) if self.is_readable(name) else None
        # lines of a former journal may have cut a page short, so that it can be read, and is none of the chip
        kept = [it for segment in journal.stack for it in segment.kept] if journal and self.has_lines else []
        if journal and all(self.story.chip.sizes[it.page:it.page + 1] == [len(it.held)] for it in kept):
            depth = journal.depth()
            if depth > 1:
                self.undone(name, 1, "1")
            left = depth - 1 if depth > 1 else depth
        else:
            depth = self.recovered(name)
            left = max(depth - 1, 0)
        if depth > 1:
            self.same(self.story.flashes[depth - 1], "the flash isn't what it was before segment %d" % depth)
        self.undone(name, left)
        self.same(self.story.flashes[0], "the flash isn't what it was")

    def refused(self, name):
        """No line was on the disk yet, so that nothing was changed; what stands in the file can't be told from somebody's."""
        try:
            said = self.use("undo", name)
        except Bad as refused:
            said = str(refused)
        if f"{name} is no journal" not in said:
            raise Bad("undo takes other bytes for a journal: %s" % said)
        self.same(self.story.flashes[0], "there is no line in the journal, and the flash isn't what it was")

    def is_readable(self, name):
        """Whether an undo reads a journal, as it does unless lines of a former one are left in it. `log --check` refuses none that
        can be read line by line."""
        ran = call([self.program, "log", "--check", "--journal", name], self.room)
        is_read = ran.returncode == 0 and b" bytes behind them\n" in ran.stdout
        said = (ran.stderr or ran.stdout).decode(errors="replace").strip()
        if not is_read and not (self.has_lines and re.fullmatch(r"stmflash: bad journal line \d+", said)):
            raise Bad("log --check says: %s" % said)
        return is_read

    def recovered(self, name):
        """What a crash left at a journal's end is cut off by a word that the fault names, and kept beside: nothing that was on the disk for sure, but for the
        beginning of a line. Of several segments the newest is undone by that. Answers how many there are."""
        left = self.files[name]
        try:
            raise Bad("undo reads what it can't: %s" % self.use("undo", name))
        except Bad as refused:
            if not re.search(r"says: stmflash: bad journal line \d+\nhint: .* undo 1 --recover ", str(refused)):
                raise
        self.same(self.flash, "an undo that was refused changed the flash")
        if self.read(name) != left:
            raise Bad("an undo that was refused changed the journal")
        said = self.use("undo", name, "1", "--recover")
        cut = self.read(name + ".cut")
        kept = left[:len(left) - len(cut)]
        synced = self.state.disk().files[self.names[name]].versions[0]
        if kept + cut != left or not self.read(name).startswith(kept) or not kept.startswith(synced[:synced.rfind(b"\n") + 1]):
            raise Bad("undo --recover cuts off %d bytes of %d, where %d were synced" % (len(cut), len(left), len(synced)))
        depth = Journal(kept).depth()
        if said != "undone %d\n" % min(1, depth):
            raise Bad("undo 1 --recover says: %s, and not undone %d" % (said.strip(), min(1, depth)))
        print("tools/crashes: recovered", self.state.key(), flush=True)
        return depth

    def read(self, name):
        return (self.room / name).read_bytes()

    def undone(self, name, wanted, *more):
        said = self.use("undo", name, *more)
        found = re.fullmatch(r"undone (\d+)\n", said)
        if not found or wanted != int(found[1]):
            raise Bad("undo says: %s, and not undone %s" % (said.strip(), wanted))

    def check_answer(self, journals):
        """What the session has told to be done is on the disk; OUT may hold what it held, unless it has told that it is read, or that."""
        outs, is_read = (self.story.start["out"], self.story.after["out"]), any(use[0] == "read" for use in self.story.uses)
        if self.files.get("out") not in outs[is_read and self.answered:1 + is_read]:
            raise Bad("OUT has neither what it had nor what was read")
        if not self.answered:
            return
        if sorted(journals) != sorted(name for name in self.story.journals() if name in self.story.after):
            raise Bad("the session has ended, and there is %s" % (" and ".join(journals) or "no journal"))
        for name in journals:
            if self.files[name] != self.story.after[name]:
                raise Bad("the session has ended, and the journal lacks some of it")
        if self.story.way == FILE and self.flash != self.story.flash_after:
            raise Bad("the session has ended, and FILE isn't what it leaves")


def top():
    """A folder in memory, where there is one."""
    return "/dev/shm" if os.path.isdir("/dev/shm") else None
