"""Whose a journal or an OUT is (tests/owners.rows)."""

import os
import shutil

import place
from holding import Held
from place import ZEROS, files
from rows import cases

OTHER = 4242
JOURNAL = b"stmjournal 2 0412\nopen 1\nend 1\n"


class Owners(Held):
    def setUp(self):
        if os.geteuid() != 0:
            self.skipTest("only root may give a file away")
        super().setUp()

    def does(self, sign, told, name, *more):
        if sign == "owned":
            held = os.stat(self.path(name))
            self.assertEqual([str(held.st_uid), str(held.st_gid), f"{held.st_mode & 0o7777:o}"], [*more])
        elif sign != "own":
            super().does(sign, told, name, *more)
        elif self.is_there(name):
            user, group, mode = more
            os.lchown(self.path(name), int(user), int(group))
            if mode != "none":
                os.chmod(self.path(name), int(mode, 8))

    def make(self, name, user, group, mode, data):
        """Makes a file of these bytes that is this user's."""
        self.store(name, data)
        self.does("own", "", name, str(user), str(group), f"{mode:o}")

    def test_each_owner(self):
        self.play_all(cases("owners.rows"))

    def test_a_user_trusts_root_and_no_variable(self):
        """What sudo says counts for root alone."""
        if place.program().endswith("-under-qemu"):
            return  # (what runs a program of another processor has its files where another user may not read)
        program = self.path("program")
        shutil.copy(place.program(), program)
        for name in (".", "table"):
            os.chown(self.path(name), OTHER, OTHER)

        as_other = {"executable": program, "user": OTHER, "group": OTHER, "extra_groups": []}
        for owner, group, mode, why in ((OTHER, OTHER, 0o660, None), (0, 0, 0o666, "may be written by others: chmod go-w it, or --trust-journal"), (0, OTHER, 0o660, None),
                                        (OTHER + 1, OTHER, 0o660, f"is user {OTHER + 1}'s: chown it, or --trust-journal")):
            with self.subTest(owner=owner, group=group, mode=mode):
                for name in ("flash", "flash.line"):
                    self.make(name, OTHER, OTHER, 0o600, ZEROS if name == "flash" else b"fresh\n")
                self.make("journal", owner, group, mode, JOURNAL)
                said = self.call("erase", *files(), "5", variables={"SUDO_UID": str(OTHER + 1)}, **as_other)
                if why:
                    self.assertFault(said, f"journal {why}", holds=(ZEROS, b"fresh\n"))
                else:
                    self.assertEqual(said.status, 0, said)
                self.remove("journal")
