"""What a trial found: a line for each row, a verdict, and a file. The file has no byte of the flash, no path and no serial number."""

import dataclasses
import datetime

from row import NOTE, OPTION, STOP, Row
from rows import FURTHER
from stmflash_line.tables import toml

HOLDS, DIFFERS, NOT_TRIED = "holds", "differs", "not tried"
FOLLOWS, USE_WITH, DONT_USE = "follows the model", "use with these options", "don't use"
FORMAT = 1


@dataclasses.dataclass(frozen=True)
class Found:
    row: Row
    result: str
    text: str
    # what it means where it differs: the row's own word, or less
    means: str

    def line(self):
        return f"{self.row.name:18}{self.result:10} {self.text}".rstrip()


def judge(board, found, ended):
    """The verdict, and what is said of it."""
    differ = [one for one in found if one.result == DIFFERS]
    stops = [one for one in differ if one.means == STOP]
    if board.refusal or stops:
        names = ", ".join(one.row.name for one in stops)
        return DONT_USE, f"{names}: {board.refusal or stops[0].row.harm}" if names else board.refusal
    if ended:
        return DONT_USE, f"the trial wasn't ended: {ended}"
    missing = [one.row.name for one in found if one.result == NOT_TRIED and one.row not in FURTHER]
    rest = f"; not tried: {', '.join(missing)}" if missing else ""
    if any(one.means == OPTION for one in differ):
        return USE_WITH, ", ".join(f"--wait {value}" if name == "wait" else value for name, value in board.options.items()) + rest
    notes = ", ".join(one.row.name for one in differ if one.means == NOTE)
    return FOLLOWS, "each row that was tried holds" + (f", but for what hurts no promise: {notes}" if notes else "") + rest


def file_text(board, found, verdict, reason, seconds):
    """The text of the file."""
    about = {
        "trial": FORMAT, "date": datetime.date.today().isoformat(), "part": board.words.part, "verdict": verdict, "reason": reason,
        "baud": board.words.baud, "seconds_taken": round(seconds, 1), "bytes_sent": board.line.sent, "bytes_taken": board.line.taken,
        **board.facts,
    }
    lines = [f"{name} = {toml(value)}" for name, value in about.items()]
    for one in found:
        lines += ["", "[[row]]", f"name = {toml(one.row.name)}", f"result = {toml(one.result)}", f"found = {toml(one.text)}"]
    return "\n".join(lines) + "\n"
