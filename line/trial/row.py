"""A row of the trial: what has to hold of a board, and what rests on it."""

import dataclasses
import typing

# what it means where a row differs: the board isn't to be used; it can be used with an option; nothing
STOP, OPTION, NOTE = "don't use", "an option", "a note"


@dataclasses.dataclass(frozen=True)
class Row:
    act: typing.Callable
    name: str
    # what has to hold; which definition or premise rests on it; what comes of it where it doesn't
    holds: str
    rests: str
    harm: str
    means: str = STOP
    # what a stop inside it is settled by (ask, erase or write); what it changes; what a hand has to do for it, or nothing
    intent: str = "ask"
    changes: str = "nothing"
    hand: str = ""


def row(*held, **more):
    """Makes a row of the function below it, which tries it and answers what is told of it where it holds."""
    return lambda act: Row(act, *held, **more)
