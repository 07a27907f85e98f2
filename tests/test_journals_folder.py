"""A folder of journals beside other programs, names that are no text, and a board on a line (tests/beside.rows; tests/folders.rows has which
one a call takes)."""

import os

import telling
from holding import Held
from rows import each_named


class Garbled(telling.Stand):
    """A board whose unique id comes otherwise the first time."""

    def count(self, came, told):
        if self.asked == [telling.UNIQUE_AT]:
            told = bytes([told[0] ^ 1]) + told[1:]
        super().count(came, told)


class JournalsFolder(Held):
    folder_closed, garbled = "", None

    def placed(self, told):
        return super().placed(told).replace("{folder}", self.folder_closed)

    def call(self, *words, **how):
        """Runs the program, at a board that is garbled where that is said."""
        if self.garbled is None:
            return super().call(*words, **how)
        (name, unique), self.garbled = self.garbled, None
        told = {telling.UNIQUE_AT: bytes.fromhex(unique)}
        return telling.run_beside(self, lambda it: telling.serve_one(self, it, name, told, False, kind=Garbled), *words)

    def does(self, sign, told, name, *more):
        if sign == "others":
            for byte in range(int(name, 16), 256, 2):
                self.store(os.path.join(b"journals", bytes([byte]) + b".journal").decode(errors="surrogateescape"), b"")
        elif sign == "closed":
            self.folder_closed = "/proc/sys"
            if os.geteuid() != 0:
                self.folder_closed = name
                os.chmod(self.path(name), 0o555)
                self.addCleanup(os.chmod, self.path(name), 0o755)
        elif sign == "garbled":
            self.garbled = name, *more
        else:
            super().does(sign, told, name, *more)


each_named(JournalsFolder, "beside.rows")
