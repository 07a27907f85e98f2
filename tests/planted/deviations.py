"""What a planted board does otherwise than docs/MODEL.md, which rows of the trial may find it, and which verdict is right.

A deviation that can hurt a promise, or lets no session begin, is `don't use`; one that an option of stmflash helps with is
`use with`; of any other the board follows the model as far as a promise rests on it.
"""

import dataclasses
import pathlib
import tomllib
import typing

FOLLOWS = "follows the model"


@dataclasses.dataclass(frozen=True)
class Deviation:
    does: str
    sets: dict
    rows: typing.Tuple[str, ...]
    verdict: str
    told: typing.Tuple[str, ...] = ()
    is_lasting: bool = False
    words: typing.Tuple[str, ...] = ()
    is_long: bool = False


def deviation(told):
    """A deviation as deviations.toml tells it."""
    sets = {name: value.encode() if isinstance(value, str) else value for name, value in told.pop("sets", {}).items()}
    return Deviation(sets=sets, **{name: tuple(value) if isinstance(value, list) else value for name, value in told.items()})


DEVIATIONS = {name: deviation(told) for name, told in tomllib.loads(pathlib.Path(__file__).with_suffix(".toml").read_text(encoding="utf-8")).items()}
NONE = DEVIATIONS["none"]
