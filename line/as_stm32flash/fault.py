"""Why a call ends with status 1."""


class Fault(Exception):
    """Lines for standard error; with `usage` the usage follows them."""

    def __init__(self, text, usage=False):
        super().__init__(text)
        self.usage = usage


class Failed(Fault):
    """A session of stmflash ended with a fault: its text, without the program's name, and what was printed of steps before."""

    def __init__(self, text, printed=""):
        super().__init__(text)
        self.printed = printed

    def is_of_the_line(self):
        """Whether the board can't be reached now, so that another session would fail too."""
        return str(self) in ("no answer from the device", "line failed") or str(self).startswith("cannot connect")

    def differs_at(self):
        """The address at which a verify found another byte, or None."""
        text = str(self)
        return int(text.removeprefix("differs at "), 16) if text.startswith("differs at ") else None
