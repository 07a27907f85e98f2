"""Where the programs and the table are that stand below this one."""

import os

from stmflash_line.held import hold
from stmflash_line.tables import TABLES, in_order

from .fault import Fault


class Tools:
    """The paths of stmflash, and of the tables of chips, of which the first that has a chip says what it is."""

    def __init__(self, stmflash, *tables):
        self.stmflash, self.tables = stmflash, tables
        # the one that sessions get, and the descriptors by which they have it
        self.table, self.files = tables[0], ()

    def hold(self, text):
        """Makes one table of several, of this text, which sessions have as an open file."""
        held = hold(text)
        self.table, self.files = f"/proc/self/fd/{held}", (held,)


def find(program):
    """stmflash beside this program, or else by PATH. The table is the one that STMFLASH_TABLE names. Without it they are the user's and the
    machine's own, and the one installed with the program that was found, or the one of the source tree."""
    beside = os.path.dirname(program)
    stmflash = find_program(beside, "stmflash")
    return Tools(stmflash, *find_tables(beside, os.path.dirname(os.path.realpath(stmflash))))


def find_program(beside, name):
    for folder in (beside, *filter(None, os.environ.get("PATH", os.defpath).split(os.pathsep))):
        path = os.path.join(folder, name)
        if os.path.isfile(path) and os.access(path, os.X_OK):
            return path
    raise Fault(f"ERROR: {name} isn't there, neither beside stm32flash nor in PATH, which has to name its folder")


def find_tables(*folders):
    places = [os.path.join(os.path.dirname(folder), *names) for names in (("share", "stmflash", "chips.toml"), ("chips.toml",)) for folder in folders]
    found = in_order((*places, *TABLES))
    if found:
        return found
    raise Fault("ERROR: there is no table of chips; STMFLASH_TABLE names one")
