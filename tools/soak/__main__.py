"""Random sessions of the built program over its simulator, beside a second model of them. See README.md.

    python3 tools/soak PROGRAM [--sessions N] [--seed TEXT] [--story N] [--only NAMES] [--jobs N]

It plays until there were so many uses of the program, 20,000 without --sessions, or one story alone, with these subcommands alone,
with commas. --jobs is how many stories are played at a time.
"""

import collections
import functools
import multiprocessing
import os
import pathlib
import random
import re
import shutil
import subprocess
import sys
import tempfile

HERE = os.path.dirname(os.path.abspath(__file__))
sys.path[:0] = [HERE, os.path.dirname(HERE)]

import beginnings
from journal import BadLine, Journal, untimed, untimed_line
import meddling
from program import World
from session import Fault
from simulator import words_of
import stories


COUNTED = ("sessions", "stopped", "refused", "undone", "reset", "without power", "pages lost", "kept", "gone", "again", "put back",
           "at another board", "of a board", "rotted", "damaged", "changed", "told of that")
# the flashes of two boards of one kind
BOARDS = ("F", "G")


class Difference(Exception):
    pass


class Story:
    """Two boards of a kind, each with a flash, one journal, and uses of the program one after another."""

    def __init__(self, program, seed, index, allowed, room):
        self.program, self.name, self.allowed, self.room = program, "%s/%d" % (seed, index), allowed, room
        self.told, self.counts = [], dict.fromkeys(COUNTED, 0)
        self.tell = self.told.append
        chance = self.chance = random.Random(self.name)
        number = chance.choice((0x0412, 0x0A01, chance.randrange(0x10000)))
        self.kind = beginnings.draw_chip(chance, number)
        chips = [beginnings.draw_chip(chance, (number + step) % 0x10000) for step in range(1, chance.randrange(1, 4))]
        chips.insert(chance.randrange(len(chips) + 1), self.kind)
        files = {"T": beginnings.table_text(chance, chips)}
        self.world, self.chips = World(chips, files), {}
        for name in BOARDS:
            self.begin_board(name)
        journal = beginnings.draw_journal(chance, self.chips["F"])
        files |= {} if journal is None else {"J": journal}
        # the board that the segments of the journal are of, and its flash before each, where all the premises of the headline hold
        self.home, self.aside = "F", None
        stand = [files.get(name + ".line", b"fresh\n") in (b"fresh\n", b"idle\n") for name in BOARDS]
        self.before = [] if journal is None and all(stand) else None
        for name, held in files.items():
            self.write(name, held)

    def begin_board(self, name):
        chance = self.chance
        files, board = self.world.files, beginnings.draw_board(chance, self.kind, self.chips["F"].unique if self.chips else b"")
        try:
            files |= {} if board is None else {name + ".board": board}
            chip = self.world.chip_of(self.kind.number, name)
        except Fault:
            chip = self.kind.without_places()
        self.chips[name] = chip
        kind = chance.randrange(6)
        sizes = [chip.size] if kind < 3 else chip.sizes
        flash = b"".join(stories.draw_content(chance, chip, size) for size in sizes) if kind else None
        if flash is not None and chance.random() < 0.005:
            flash += b"\0"
        # the other board is mostly as it was reset, so that the premises hold
        line = beginnings.draw_line(chance, chip) if name == "F" or chance.random() < 0.05 else None
        files |= {file: held for file, held in ((name, flash), (name + ".line", line)) if held is not None}

    def path(self, name):
        return os.path.join(self.room, name)

    def write(self, name, held):
        self.world.files[name] = held
        pathlib.Path(self.path(name)).write_bytes(held)

    def remove(self, name):
        if self.world.files.pop(name, None) is not None:
            os.remove(self.path(name))

    def flash(self, name):
        return self.world.files.get(name, bytes([self.kind.erased]) * self.chips[name].size)

    def journal(self):
        try:
            return Journal(self.world.files.get("J", b""))
        except BadLine:
            return None

    def is_gone(self, name):
        return self.world.files.get(name + ".line") == b"gone\n"

    def play(self):
        for _ in range(self.chance.randrange(3, 16)):
            self.use()
            meddling.meddle(self)
        # last, all is undone, however often that is stopped
        for _ in range(4):
            journal = self.journal()
            if journal is None or journal.depth() == 0 or (self.allowed is not None and "undo" not in self.allowed):
                return
            self.use("undo", self.home)

    def use(self, only=None, name=None):
        """A use that is drawn, or of this subcommand at this board."""
        chance, journal = self.chance, self.journal()
        unfinished = journal is not None and journal.is_unfinished()
        allowed = self.allowed if only is None else [only]
        if name is None and (journal is None or journal.number is None):
            name = chance.choice(("F", "F", "F", "G"))
        elif name is None:
            # mostly the board that the journal is of; else it is a swap
            name = self.home if chance.random() >= 0.22 else "G" if self.home == "F" else "F"
        chip, flash = self.chips[name], self.flash(name)
        if chip.size < self.kind.size and chance.random() < 0.15:
            # as if it had all pages of its kind
            chip, flash = self.kind, flash + bytes([chip.erased]) * (self.kind.size - len(flash))
        use, image = stories.draw_use(chance, chip, flash, unfinished, self.is_gone(name), allowed, name)
        use.number = ("%04x" if chance.random() < 0.05 else "%04X") % self.kind.number
        if chance.random() < 0.003:
            use.number = "%04X" % (self.kind.number ^ 0x8000)
        if use.again == 1000 and self.chips[name].size < self.kind.size:
            # one with all pages of its kind fails each time
            use.again = 3
        # which changes nothing at a simulator in the process
        use.is_fresh = chance.random() < 0.1
        for file, held in (("I", image), ("K", use.second and use.second[1])):
            if held is not None:
                self.write(file, held)
        if chance.random() < 0.4:
            use.stop = self.draw_stop(use)
        self.compare(use)

    def draw_stop(self, use):
        """A stop anywhere, or in a part of the session that is drawn first, or where one begins."""
        chance = self.chance
        _, rig = self.world.copy().run(use)
        if rig is None:
            return chance.randrange(10)
        kind = chance.random()
        if kind < 0.2 or not rig.parts:
            return chance.randrange(rig.done + 2)
        part, begins = chance.randrange(len(rig.parts)), [start for start, _ in rig.parts] + [rig.done]
        return max(0, begins[part] + chance.randrange(-3, 12)) if kind < 0.5 else chance.randrange(begins[part], begins[part + 1] + 1)

    def compare(self, use):
        """The program and the model do this use; all that is left has to be the same."""
        self.tell(" ".join(use.words()))
        flash, text, journal = self.flash(use.file), self.world.files.get("J", b""), self.journal()
        timed = pathlib.Path(self.path("J")).read_bytes() if text else b""
        (status, out, err), _ = self.world.run(use)
        done = subprocess.run([self.program, *use.words()], cwd=self.room, capture_output=True)
        self.same("exit status", status, done.returncode)
        self.same("standard output", out, done.stdout)
        # the second model has no words for what came, and no clock, of which a journal has lines
        said = re.sub(rb"(?m)^hint: .*\n", b"", done.stderr)
        self.same("standard error", err, re.sub(rb"(?<=bad journal line )\d+", lambda it: b"%d" % untimed_line(timed, int(it[0])), said))
        self.same("files", sorted(self.world.files), sorted(os.listdir(self.room)))
        for name in sorted(self.world.files):
            self.same(name, self.world.files[name], untimed(pathlib.Path(self.path(name)).read_bytes()))
        kept = b"kept" in out
        for name, is_so in (("sessions", True), ("stopped", status == 3), ("refused", status in (1, 2)), ("kept", kept),
                            ("undone", use.name == "undo" and status == 0), ("gone", use.go is not None and self.is_gone(use.file)),
                            ("again", b"again 1 of" in err), ("damaged", b"another CRC" in err), ("told of that", b" left it;" in err)):
            self.counts[name] += is_so
        # it isn't known what the settling of another board's journal does there; and bytes that rotted are given back, as the word says
        if use.name == "protect" and status == 3 or use.name == "undo" and use.trusts and journal is not None and journal.damaged(0):
            self.before = None
        self.look_elsewhere(use, status, flash, text, journal)
        # what leads back from here, where the journal was moved: as good as the flash is left alone
        self.aside = [*self.before, flash] if kept and use.to is not None and self.before is not None else None
        self.keep_promise(use, status, flash, journal)

    def same(self, name, wanted, found):
        if wanted != found:
            raise Difference("%s: the model has %s, the program %s" % (name, shown(wanted, found), shown(found, wanted)))

    def look_elsewhere(self, use, status, flash, text, journal):
        """A journal that names a board changes no other one, and isn't changed there. One that names none is of any: then who takes
        it to another board breaks a premise."""
        now = self.flash(use.file), self.world.files.get("J", b"")
        if use.name in ("go", "protect"):
            # a journal with a bad line is none, and names no board
            if not use.no_board and journal is not None and journal.is_of_other(self.told_by(use.file)):
                self.counts["at another board"] += 1
                if status == 0 or self.before is not None and now != (flash, text):
                    raise Difference("%s was sent to another board than that of the journal, %s" % (use.name, use.file))
            return
        if self.before is None:
            return
        told = b"" if use.no_board else self.told_by(use.file)
        self.counts["of a board"] += journal.unique is not None
        if journal.is_of_other(told):
            self.counts["at another board"] += 1
            if now != (flash, text) or status == 0 and journal.depth() > 0:
                raise Difference("a journal of another board was taken for that of %s" % use.file)
        elif use.file != self.home and journal.depth() == 0:
            self.home = use.file
        elif use.file != self.home and now != (flash, text):
            self.before = None

    def told_by(self, name):
        """The unique id that a board tells a host that asks as it should; none is no byte."""
        unique = self.chips[name].unique
        asked = self.kind.unique_at is not None and self.kind.unique_at[1] == len(unique)
        is_there = name + ".board" in self.world.files
        return unique if asked and is_there and set(unique) not in ({0x00}, {0xFF}) else b""

    def keep_promise(self, use, status, flash, journal):
        """The headline, of the flash alone: what an undo and a write that report success leave."""
        if self.before is None or use.name in ("go", "protect") or use.file != self.home:
            return
        depth = self.journal().depth()
        if use.name in ("write", "erase") and depth > len(self.before):
            self.before.append(flash)
        if use.name == "undo" and status == 0 and journal.depth() > 0 and self.flash(use.file) != self.before[depth]:
            raise Difference("the flash isn't as it was before segment %d" % (depth + 1))
        del self.before[depth:]


def shown(held, other):
    """The first place where two texts differ, with some of what stands there."""
    if not isinstance(held, bytes):
        return repr(held)
    at = next((place for place, (one, two) in enumerate(zip(held, other)) if one != two), min(len(held), len(other)))
    begin = max(0, at - 20)
    return "%d bytes, from %d on %r" % (len(held), begin, held[begin:at + 60])


def report(story, difference, room):
    """What differs and after which uses; the files that the program and the model left are kept."""
    kept = "soak-difference"
    shutil.rmtree(kept, ignore_errors=True)
    shutil.copytree(room, kept)
    for name, held in story.world.files.items():
        pathlib.Path(kept, name + ".model").write_bytes(held)
    return "\n".join([
        "tools/soak: a difference in the story %s, use %d" % (story.name, len(story.told)),
        *("    " + text for text in story.told), str(difference),
        "What the program left is in %s; the model's files are beside it, NAME.model" % kept])


def play(program, seed, allowed, index):
    """One story in a folder of its own, in memory where there is one: what it counted, and its difference or none."""
    top = "/dev/shm" if os.path.isdir("/dev/shm") else None
    with tempfile.TemporaryDirectory(dir=top) as room:
        story = Story(program, seed, index, allowed, room)
        try:
            story.play()
        except Difference as difference:
            return story.counts, report(story, difference, room)
        return story.counts, None


def play_all(stories, sessions):
    """Takes stories up to so many sessions, or a difference. The exit status."""
    totals = collections.Counter()
    for counts, difference in stories:
        if difference is not None:
            print(difference)
            return 1
        totals.update(stories=1, **counts)
        if totals["sessions"] >= sessions:
            break
    print("tools/soak: no difference: " + ", ".join("%d %s" % (count, name) for name, count in totals.items()))
    return 0


def main():
    given = words_of(__doc__, sessions=20000, jobs=1)
    one = functools.partial(play, given.program, given.seed, given.only and given.only.split(","))
    if given.story is not None:
        return play_all(map(one, [given.story]), 0)
    print("tools/soak: seed %s" % given.seed, flush=True)
    with multiprocessing.Pool(given.jobs) as pool:
        # more stories than are needed: each has 3 uses at least
        return play_all(pool.imap(one, range(given.sessions)), given.sessions)


if __name__ == "__main__":
    sys.exit(main())
