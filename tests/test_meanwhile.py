"""A second program at each moment of a first one: what both say, and what they leave, is what comes of one behind the other.

A moment is a call of the system that looks for, opens, locks, syncs, links, renames or removes a file. There the first program is held
while the second runs from its beginning to its end. One that is refused has changed nothing. Where the second is none of ours, and moves
or makes files, the first may fail in the midst: then an undo by the journal, whatever its name is by now, gives back what was there, and
no file of another is touched.

At each moment of a session there is one of those that may come, in turn; with MEANWHILE=all there is each of them.
"""

import contextlib
import os
import shutil
import socket
import threading

import syncs
from holding import Held
from place import files, served

TABLE = b'[[chip]]\nid = 0x412\nbase = 0x08000000\npages = [[4, 256]]\nerase = "page"\n'
FLASH = bytes(range(256)) * 4
# the journal of two writes of page 2
JOURNAL = b"stmjournal 2 0412\nopen 1\npage 2 %s\nend 1\nopen 2\npage 2 %s\nend 2\n" % (b"AA" * 256, b"BB" * 256)
MINE = "another program's"
# where a session is held, and where one without a device is
HELD = (syncs.OPEN, syncs.FLOCK, syncs.FSYNC, syncs.LINK, syncs.RENAME, syncs.UNLINK)
WITH_LOOKS = (*HELD, syncs.STATX)
ON, BESIDE = files(), files("sim:0412:other", "others")
KEEP = ("keep", "--journal", "journal")
KEEPS = {"a_keep": KEEP, "a_keep_to": (*KEEP, "kept"), "a_keep_of_the_last": (*KEEP, "--last", "1")}
UNDO, LOG = ("undo", *ON), ("log", "--journal", "journal")
FIRST = {"a_write": ("write", *ON, "image"), "a_write_that_keeps": ("write", *ON, "--keep", "image"),
         "a_write_that_moves": ("write", *ON, "--keep-to", "kept", "image"), "an_erase": ("erase", *ON, "1"), "an_undo": UNDO,
         "an_undo_of_two": ("undo", *ON, "-v", "2"), **KEEPS, "a_read": ("read", *ON, "out"), "a_log": LOG, "a_simulator": served()}
# those of two parts, between which another program may come
PARTS = {"a_write_that_keeps": (("write", *ON, "image"), KEEP), "a_write_that_moves": (("write", *ON, "image"), (*KEEP, "kept"))}
OURS = {"an_erase": ("erase", *ON, "3"), "an_undo": UNDO, **KEEPS, "a_read_of_another_board": ("read", *BESIDE, "out"), "a_log": LOG}
# what another program does, as lines of rows say it
MAKES = {"out": "makes OUT", "kept": "makes TO"}
OTHERS = {"renames the journal": "rename journal aside", "puts a copy in its place": "copied journal", "links it": "second aside journal",
          "makes OUT": f'file out "{MINE}"', "makes TO": f'file kept "{MINE}"', "changes the image": f'file image "{MINE}"',
          "makes a folder at OUT": "folder out"}
# whether another one did it
DONE, NOTHING = "done", "nothing"
# beside a session each of these leaves no way back but its own. They mind no lock: until the last look at the journal's file they are
# seen, and no system removes a name only where it leads to a file still
BESIDE_NO_SESSION = {"puts another journal in its place": 'file copy "stmjournal 2 0412\\nopen 1\\npage 2 " "A"*512 "\\nend 1\\n"\nrename copy journal',
                     "adds a segment": 'adds journal "open 3\\nend 3\\n"'}
# the calls that take a journal's name, or give it to another file
TAKEN = ((syncs.LINK, "journal"), (syncs.UNLINK, "journal"), (syncs.RENAME, "journal.stmflash-0.new"))


class Meanwhile(Held):
    def setUp(self):
        super().setUp()
        self.known, self.made = {}, []

    def begin(self):
        shutil.rmtree(self.folder)
        os.mkdir(self.folder)
        self.store_all({"table": TABLE, "flash": FLASH, "flash.line": b"idle\n", "other": FLASH[::-1], "other.line": b"idle\n",
                        "journal": JOURNAL, "image": b"\x55" * 300})

    def left(self):
        """What stands in the folder."""
        return {name: os.path.isdir(self.path(name)) or self.held(name) for name in sorted(os.listdir(self.folder))}

    def do(self, act):
        """Calls the program with these words, or does what another program does; what it says."""
        if not isinstance(act, str):
            with self.client(act):
                return self.call(*act)
        try:
            for sign, _, told in (line.partition(" ") for line in act.split("\n")):
                self.does(sign, told, *told.split(" "))
        except (FileNotFoundError, FileExistsError, IsADirectoryError):
            return NOTHING
        return DONE

    @contextlib.contextmanager
    def client(self, words):
        """Somebody comes to a simulator that is served, and goes."""
        ended = threading.Event()

        def come():
            while not ended.wait(0.01):
                with contextlib.suppress(OSError), socket.socket(socket.AF_UNIX) as line:
                    line.connect(self.path("board"))
                    return

        coming = threading.Thread(target=come)
        if words[0] == "sim":
            coming.start()
        try:
            yield
        finally:
            ended.set()
            if words[0] == "sim":
                coming.join()

    def behind(self, *acts):
        """What comes of these, one behind the other."""
        if acts not in self.known:
            self.begin()
            self.known[acts] = [self.do(act) for act in acts], self.left()
        return self.known[acts]

    def is_in_order(self, name, second, said, other, left):
        """Whether that comes of both, in an order, or of the one that wasn't refused; or of the second beside the parts of the first."""
        first = FIRST[name]
        orders = [((first, second), [said, other]), ((second, first), [other, said])]
        orders += [((second,), [other])] if said.status else []
        # a log changes nothing, and tells what is there
        if other == NOTHING or other != DONE and (other.status or second[0] == "log"):
            orders.append(((first,), [said]))
        if any((saids, left) == self.behind(*acts) for acts, saids in orders):
            return True
        parts = PARTS.get(name)
        return bool(parts) and left in [self.behind(*acts)[1] for acts in ((parts[0], second, parts[1]), (second, parts[0]))]

    def leads_back(self, first, left):
        """Whether what another one made is as it made it, and the flash is, or the journal, whatever its name is by now, leads there where
        the call, or an undo of it, would have left it."""
        if any(left.get(name) != MINE.encode() for name in ("out", "kept") if name in self.made and left.get(name) is not True):
            return False
        if left["flash"] == FLASH:
            return True
        again, due = (first[:len(ON) + 1], first[len(ON) + 1:]), self.behind(first)[1]["flash"]
        if first[0] != "undo":
            again, due = (("undo", *ON), ("1",)), FLASH
        for name in ("journal", "aside", "kept"):
            if left.get(name) not in (None, MINE.encode()):
                self.store_all({"flash": left["flash"], "flash.line": left["flash.line"], name: left[name]})
                if self.call(*again[0][:-1], name, *again[1]).status == 0 and self.held("flash") == due:
                    return True
        return False

    def assertMeanwhile(self, name):
        """Whatever comes at each moment of a call, one of ours or another, nothing is lost."""
        for seconds in (OURS, OTHERS, {} if "--device" in FIRST[name] else BESIDE_NO_SESSION):
            if seconds:
                self.assertAtEach(name, seconds)

    def assertAtEach(self, name, seconds):
        first = FIRST[name]
        held = WITH_LOOKS if first[0] in ("keep", "log") else HELD
        is_each = held == WITH_LOOKS or os.environ.get("MEANWHILE") == "all"
        self.begin()
        kinds = []
        with self.client(first):
            _, names = syncs.call(self.folder, first, held=held, at=lambda _, process: kinds.append(syncs.call_of(process)[0]))
        moments = [at for at, what in enumerate(names) if not what.startswith("..")]
        if seconds is BESIDE_NO_SESSION and first[0] == "keep":
            taken = [(kind, what) in TAKEN for kind, what in zip(kinds, names)].index(True)
            looks = [at for at in moments[:moments.index(taken)] if (kinds[at], names[at]) == (syncs.STATX, ".")]
            moments = [at for at in moments if at <= looks[-1]]
        wrong = []
        for turn, at in enumerate(moments):
            every = list(seconds.items())
            for what, second in every if is_each else every[turn % len(every):][:1]:
                came = []
                self.begin()
                with self.client(first):
                    said, _ = syncs.call(self.folder, first, held=held,
                                         at=lambda number, _, at=at, second=second: number == at and came.append(self.do(second)))
                left = self.left()
                self.made = [it for it, word in MAKES.items() if word == what]
                # a journal that another program moved away at the very replacement of its name stands there whole
                is_aside = first[0] == "keep" and left.get("aside") == JOURNAL
                if not self.is_in_order(name, second, said, came[0], left):
                    if not (isinstance(second, str) and (is_aside or said.status and self.leads_back(first, left))):
                        wrong.append((at, names[at], what, said, came[0]))
        self.assertGreater(len(moments), 1)
        self.assertEqual(wrong, [])

    # (tools/mutants looks for this one in the file; the others are made below)
    def test_beside_a_keep_to(self):
        self.assertMeanwhile("a_keep_to")


for name in FIRST.keys() - {"a_keep_to"}:
    setattr(Meanwhile, f"test_beside_{name}", lambda self, name=name: self.assertMeanwhile(name))
