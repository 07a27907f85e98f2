"""What a row of the trial can end with, but for holding."""


class Differs(Exception):
    """The board does otherwise than the model."""


class Odd(Differs):
    """It does otherwise, and no promise is hurt by it."""


class NotTried(Exception):
    """This row can't be tried here, or wasn't to be."""


class Ended(Exception):
    """The line ended, the board can't be had any more, or a signal came."""


class Forbidden(Differs):
    """These bytes would complete what the trial never sends."""


class Refused(Exception):
    """The words can't be done, or the answer was no: one line for a user, and nothing was changed."""
