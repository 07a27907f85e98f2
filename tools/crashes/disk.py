"""What a crash of the PC leaves of files, by what a session did to them until then.

It is what POSIX lets a file system leave, as docs/GATE.md tells it. A sector that isn't there as it was written holds what it held on the disk: the synced
bytes and NUL, or what an earlier write left and NUL; one without a synced byte may hold bytes of a former file instead. The length is anything from the least
to the greatest that the file had since its sync: behind its data, or ahead of them. Names are changed or aren't, each by itself; a rename within a folder is
done whole or not at all. The sync of a file doesn't put its name on the disk. Not made are bytes that rot, and a folder that is lost.
"""

import os
import random

SECTOR = 512
SECTORS = (SECTOR, 4096)
# what a sector holds that wasn't written: NUL, digits of a former journal, other bytes without an LF, lines of a former journal
NUL, DIGITS, BYTES, LINES = "n", "h", "x", "l"


class Misunderstood(Exception):
    """The session did what isn't understood here, so that no state can be made."""


def stale(kind, name, count):
    """Bytes of a former file."""
    chance = random.Random("%s %s" % (kind, name))
    if kind == LINES:
        return (b"0123\nend 1\nerase 0\n" * count)[:count]
    return bytes(chance.choice(b"0123456789ABCDEF" if kind == DIGITS else range(11, 256)) for _ in range(count))


class File:
    """A file's bytes on the disk, and how they were behind each change since."""

    def __init__(self, held=b"", sector=SECTOR):
        self.versions = [held]
        self.first = None
        self.sector = sector

    def is_synced(self):
        return len(self.versions) == 1

    def sync(self):
        self.versions, self.first = self.versions[-1:], None

    def write(self, at, data):
        old = self.versions[-1]
        self.first = min(at, len(old)) if self.first is None else min(at, len(old), self.first)
        self.versions.append(old[:at].ljust(at, b"\0") + (b"" if data is None else data + old[at + len(data):]))

    def cut(self, length):
        self.write(length, None)

    def lengths(self):
        """The least and the greatest."""
        return min(map(len, self.versions)), max(map(len, self.versions))

    def sectors(self):
        """Those that aren't wholly synced."""
        return range(self.first // self.sector, -(-self.lengths()[1] // self.sector))

    def left(self, name, length, kinds):
        """The bytes behind a crash: a kind for each sector that isn't synced, or the number of the change that it holds."""
        held = bytearray(self.versions[0][:self.sectors().start * self.sector])
        for sector, kind in zip(self.sectors(), kinds, strict=True):
            known = self.versions[0 if kind in (NUL, DIGITS, BYTES, LINES) else int(kind)][sector * self.sector:(sector + 1) * self.sector]
            is_stale = kind in (DIGITS, BYTES, LINES) and not known
            held += stale(kind, "%s %d" % (name, sector), self.sector) if is_stale else known.ljust(self.sector, b"\0")
        return bytes(held[:length]).ljust(length, b"\0")

    def draw(self, chance, kinds, is_hole):
        """A length, and what each sector holds: of a hole the last as it was written, and one or all before it not, or the last alone not."""
        least, most = self.lengths()
        count, newest = len(self.sectors()), str(len(self.versions) - 1)
        lost = [chance.choice(kinds) for _ in range(count)]
        how = chance.randrange(4, 7) if is_hole and count > 1 else chance.randrange(5 if count > 1 else 4)
        if how == 0:
            return len(self.versions[0]), lost
        if how == 1:
            return chance.randint(least, most), [newest] * count
        if how == 2:
            return most, lost
        if how == 4:
            hole = chance.randrange(count - 1)
            return most, [newest] * hole + lost[:1] + [newest] * (count - hole - 1)
        if how == 5:
            return most, lost[:-1] + [newest]
        if how == 6:
            return chance.choice((most, most - 1, chance.randint(least, most))), [newest] * (count - 1) + lost[-1:]
        mixed = [chance.choice((old, newest, str(chance.randrange(1, len(self.versions))))) for old in lost]
        return chance.choice((most, chance.randint(least, most))), mixed


class Disk:
    """The files of a folder, by numbers, and their names, on the disk and as they were changed since."""

    def __init__(self, files, sector=SECTOR):
        self.sector, self.changes = sector, []
        self.names = {name: number for number, name in enumerate(sorted(files))}
        self.files = {number: File(files[name], sector) for name, number in self.names.items()}

    def now(self):
        """The names as a program sees them."""
        names = dict(self.names)
        for change in self.changes:
            self.rename(names, change)
        return names

    @staticmethod
    def rename(names, change):
        old, new, number = change
        if old is not None:
            names.pop(old, None)
        if new is not None:
            names[new] = number

    def do(self, event):
        """What an event of a session does to the files."""
        kind, words = event.kind, event.words
        if kind == "make":
            self.files[words[1]] = File(sector=self.sector)
            self.changes.append((None, words[0], words[1]))
        elif kind in ("write", "cut", "sync"):
            getattr(self.files[words[0]], kind)(*words[1:])
        elif kind in ("link", "rename"):
            self.changes.append((words[0] if kind == "rename" else None, words[1], self.now()[words[0]]))
        elif kind == "remove":
            self.changes.append((words[0], None, None))
        elif kind == "sync folder":
            synced = [change for change in self.changes if words[0] in [os.path.dirname(name) for name in change[:2] if name is not None]]
            for change in synced:
                self.rename(self.names, change)
            self.changes = [change for change in self.changes if change not in synced]

    def unsynced(self):
        """The numbers of the files that aren't synced."""
        return [number for number in sorted(self.files) if not self.files[number].is_synced()]

    def is_synced(self):
        return not self.changes and not self.unsynced()

    def draw(self, chance, kinds, is_hole=False):
        """A crash: which changes of names are done, and what is left of each file that isn't synced, as a text."""
        count = len(self.changes)
        most = chance.randint(0, count)
        any_of_them = "".join(chance.choice("01") for _ in range(count))
        all_of_them = "1" * count
        done = chance.choice(("0" * count, all_of_them, "1" * most + "0" * (count - most), any_of_them))
        parts = [all_of_them if is_hole else done] if count else []
        for number in self.unsynced():
            length, kinds_left = self.files[number].draw(chance, kinds, is_hole)
            parts.append("%d=%d.%s" % (number, length, ".".join(kinds_left)) if kinds_left else "%d=%d" % (number, length))
        return "+".join(parts) or "synced"

    def left(self, crash):
        """The files behind a crash that such a text tells: their bytes by number, and the numbers by name."""
        parts = [] if crash == "synced" else crash.split("+")
        names = dict(self.names)
        if self.changes:
            for is_done, change in zip(parts.pop(0), self.changes, strict=True):
                if is_done == "1":
                    self.rename(names, change)
        held = {number: file.versions[0] for number, file in self.files.items() if file.is_synced()}
        for number, part in zip(self.unsynced(), parts, strict=True):
            told, *kinds = part.partition("=")[2].split(".")
            held[number] = self.files[number].left(number, int(told), kinds)
        return held, names
