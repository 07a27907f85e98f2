"""One journal, one program: what is locked, by whom, and that two programs at once leave nothing that can't be undone
(tests/held.rows has what a lock keeps out, and what a log tells beside a session)."""

import os

import syncs
from place import COUNTING, WAIT, files
from served import Served, relay

# how many times two programs are started together, without a journal and with one; 100 are run by hand
ROUNDS = int(os.environ.get("ROUNDS", "2"))
BUSY = (b"stmflash: journal is in use\n", b"stmflash: simulator file is in use\n")
HELD = "another program has journal: wait until it ends"
# what is started together, a test each, so that they run side by side
UNDO = ("undo",)
RACES = {
    "two_writes": (("write", "one"), ("write", "two")),
    "a_write_and_an_erase": (("write", "one"), ("erase", "0", "2")),
    "a_write_and_an_undo": (("write", "one"), UNDO),
    "two_undos": (UNDO, UNDO),
}
# what a program may find that reaches the line while another has it
WAITING = (b"stmflash: device does not follow the protocol\n", b"stmflash: no answer from the device\n")


class Locks(Served):
    def test_locks_are_asked_for_on_a_handle_that_writes(self):
        """NFS gives no other an exclusive one. Of a journal that is there, of one that is made, and of a simulator's file."""
        for journal in (None, b""):
            with self.subTest(journal=journal):
                self.store_all({"flash": COUNTING, "journal": journal})
                modes = []

                def look(number, process):
                    for file in os.listdir(f"/proc/{process}/fd"):
                        if os.path.basename(os.readlink(f"/proc/{process}/fd/{file}")) in ("journal", "flash"):
                            with open(f"/proc/{process}/fdinfo/{file}", encoding="ascii") as info:
                                modes.append(int(info.read().split("flags:")[1].split()[0], 8) & os.O_ACCMODE)

                said, locked = syncs.call(self.folder, ("erase", *files(), "5"), held=syncs.FLOCK, at=look)
                self.assertTold(said, "segment 1: 1 pages erased\n")
                self.assertIn("journal", locked)
                self.assertIn("flash", locked)
                self.assertNotIn(os.O_RDONLY, modes)
                self.remove("journal")

    def test_a_journal_made_meanwhile_is_not_used(self):
        """The journal isn't there when the program begins, and is when it would make it: no erase is sent, and what the other wrote stays."""
        listener = self.listen("device")
        self.store("flash", COUNTING)
        self.serve(2)
        for made in (b"", b"stmjournal 2 0412\nopen 1\n"):
            with self.subTest(made=made):
                host = self.start("erase", *files("device"), "--wait", WAIT, "5")
                line, _ = listener.accept()
                # the journal was looked for before the line was opened
                self.store("journal", made)
                with line, self.connect() as board:
                    sent = relay(line, board)
                self.assertFault(self.ended(host), "journal is in use", hint=HELD)
                self.assertNotIn(b"\x43\xbc", sent)
                self.assertFile("journal", made)
                self.remove("journal")
        self.assertServed(flash=COUNTING)

    def words(self, words, device):
        name, *rest = words
        wait = ("--wait", WAIT) if device == "board" else ()
        return (name, *files(device), *wait, *rest)

    def assertTogether(self, first, second, device):
        """Two uses that are started together: each is done, or finds the files in use; or, where no journal was there to be
        locked before the line was opened, finds that the other has the line."""
        allowed = BUSY if self.is_there("journal") or device != "board" else BUSY + WAITING
        started = [self.start(*self.words(words, device)) for words in (first, second)]
        ended = list(map(self.ended, started))
        for said in ended:
            if said.status != 0 and said.err.split(b"hint: ")[0] not in allowed:
                self.fail(f"{first} beside {second}: {ended}")
        self.assertIn(0, [said.status for said in ended], ended)

    def assertRaces(self, pair, device):
        """Two uses, started together on one journal, which is there or not; and afterwards the flash is given back. The first
        round that fails is the last one: what it left is the next one's beginning."""
        self.store_all({"flash": COUNTING, "one": b"\x11" * 3000, "two": b"\x22" * 3000})
        if device == "board":
            # those that find the journal in use may have opened the line before
            self.serve(100 * ROUNDS)
        for again in range(ROUNDS):
            if again % 2:
                self.store("journal", b"")
            if UNDO in pair:
                self.assertTold(self.call(*self.words(("erase", "0", "2"), device)), "segment 1: 2 pages erased\n")
            self.assertTogether(*pair, device)
            self.assertWell(self.call(*self.words(UNDO, device)))
            self.assertSilent(self.call(*self.words(("read", "out"), device)), out=COUNTING)
            self.remove("journal")
        if device == "board":
            # what the last client left is stored, and nothing is written any more
            self.leave(self.connect())


for race, pair in RACES.items():
    for place, device in (("simulator", "sim:0412:flash"), ("board", "board")):
        setattr(Locks, f"test_{race}_on_one_{place}", lambda self, pair=pair, device=device: self.assertRaces(pair, device))
