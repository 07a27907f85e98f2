"""The simulator as a board: a file beside its flash says its unique id and how many KiB its flash has (tests/simulated.rows, tests/sizes.rows)."""

import tomllib

from place import text_in
from rows import Rows, each_named

HEAD = "[[chip]]\n"


class GivenBoard(Rows):
    """What `sim --unique --size` makes of a simulator, also for the one in the process afterwards."""

    def does(self, sign, told, name, *more):
        if sign == "sims":
            self.serve(0, number="0410", more=[*filter(None, (name, *more))])
            self.assertServed()
            self.serve(1, number="0410")
        else:
            super().does(sign, told, name, *more)


class EverySize(Rows):
    """Each part of a family."""

    def does(self, sign, told, name, *more):
        if sign == "chip":
            # alone, since a whole table is read slowly
            self.store("table", next(HEAD + it for it in text_in("chips.toml").split(HEAD)[1:] if tomllib.loads(it)["id"] == int(name, 16)).encode())
        else:
            super().does(sign, told, name, *more)


each_named(GivenBoard, "simulated.rows")
each_named(EverySize, "sizes.rows")
