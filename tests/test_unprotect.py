"""`protect write-unprotect --in-session`: the write protection is taken off a board while the journal has something to undo
(tests/unprotect.rows)."""

from hostile import be_silent
from refusing import OnBoard
from rows import in_parts


class Unprotect(OnBoard):
    kinds = {**OnBoard.kinds, "silent": be_silent}


in_parts(Unprotect, "unprotect.rows", 3)
