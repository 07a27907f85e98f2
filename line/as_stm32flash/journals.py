"""The journals of a port: the one in use, and those that were put aside when a program was started."""

import os
import re

from stmflash_line import journals

from .fault import Fault
from .journal_text import owner_of
from .told import note

# how many of each board are kept that were put aside; and how many of all boards at a port, and how many bytes of them
KEPT, MOST, ROOM = 8, 1000, 256 << 20
# from how many bytes on the one in use is put aside before a write
LARGE = 8 << 20


class Journals(journals.Journals):
    """Those of stmflash-line, and beside them in the port's folder those that were put aside."""

    def refuse_others(self):
        super().refuse_others()
        for path in self.kept():
            journals.refuse_others(path)

    def kept(self):
        """The journals that were put aside, the newest last."""
        return self.numbered("kept")

    def numbered(self, word):
        try:
            found = [name for name in os.listdir(self.folder) if re.fullmatch(word + "-[0-9]{6,}", name)]
        except FileNotFoundError:
            return []
        except OSError as error:
            raise Fault(f"ERROR: {self.folder}: {error.strerror}; {journals.KEPT_THERE}") from None
        return [os.path.join(self.folder, name) for name in sorted(found, key=order)]

    def next_kept(self):
        """A number that none has, also of those that were ended: they were kept under the same."""
        last = max((order(path)[1] for path in (*self.kept(), *self.numbered("ended"))), default=0)
        return os.path.join(self.folder, f"kept-{last + 1:06d}")

    def end_keeping(self):
        """One that was killed while it put the journal aside may have left it both names."""
        kept = self.kept()
        if kept and os.path.exists(self.live) and os.path.samefile(kept[-1], self.live):
            os.remove(self.live)

    def drop_old(self):
        """Drops what is older than the newest ones of each board. Where those are more than there is room for, the oldest of all
        go too: those that were ended, then those that aren't their board's newest, then these. Each is told."""
        ended, kept = self.by_owner("ended"), self.by_owner("kept")
        for owner, held in (*ended.items(), *kept.items()):
            for path in held[KEPT:]:
                if remove(path):
                    note(f"no more than {KEPT} journals stay {owner}: {path} was removed")
        newest = {held[0]: owner for owner, held in kept.items()}
        rest = sorted((path for held in (*ended.values(), *kept.values()) for path in held[:KEPT]), key=lambda path: (path in newest, order(path)))
        sizes = [size_of(path) for path in rest]
        count, used = len(rest), sum(sizes)
        # the very newest stays, whatever it has
        for path, size in zip(rest[:-1], sizes):
            if count <= MOST and used <= ROOM:
                break
            count, used = count - 1, used - size
            last = f", the last that was put aside {newest[path]}" if path in newest else ""
            if remove(path):
                note(f"no room for more than {MOST} journals, or {ROOM >> 20} MiB, of a port: {path} was removed{last}")

    def by_owner(self, word):
        """The journals of this word, of each owner the newest first."""
        found = {}
        for path in reversed(self.numbered(word)):
            found.setdefault(owner_of(path), []).append(path)
        return found

    def set_apart(self, own):
        """Puts those that may be of this board where no undo looks: what they kept isn't what the flash held any more. Answers
        where they are now, and whose."""
        ended = {}
        for path in self.kept():
            owner = owner_of(path)
            if owner.may_be(own):
                name = os.path.join(self.folder, f"ended-{order(path)[1]:06d}")
                rename(path, name)
                ended[name] = owner
        self.drop_old()
        return {name: owner for name, owner in ended.items() if os.path.exists(name)}

    def size(self):
        """How many bytes the one in use has: each write and erase adds some before it changes anything."""
        return size_of(self.live)

    def is_large(self):
        return self.size() > LARGE


def order(path):
    """The word of a journal that was put aside, and its number: behind a million it has more digits."""
    word, _, number = path.rpartition("-")
    return word, int(number)


def size_of(path):
    try:
        return os.path.getsize(path)
    except OSError:
        return 0


def rename(path, to):
    try:
        os.replace(path, to)
    except OSError as error:
        raise Fault(f"ERROR: {path} to {to}: {error.strerror}; {journals.KEPT_THERE}") from None


def remove(path):
    """Whether one that is too old has gone; where it can't go, it stays and is told."""
    try:
        os.remove(path)
    except OSError as error:
        note(f"{path} is too old, and stays: {error.strerror}")
        return False
    return True
