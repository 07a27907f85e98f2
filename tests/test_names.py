"""Names of files as they are told: a fault is one line, whatever stands in them (tests/names.rows)."""

from rows import Rows, each_named


class Names(Rows):
    """A test for each title."""


each_named(Names, "names.rows")
