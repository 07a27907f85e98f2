"""The last rows: the flash as it was, and what was measured meanwhile."""

from board import pages_told
from faults import Differs, NotTried
from model import ERASE
from row import OPTION, row
from saved import is_back, put_back
from settling import recover

# stmflash's own default of --wait, and the longest erase that its limits are for, in seconds
WAIT, LONGEST_ERASE = 0.4, 5
MOST_WAIT = 60000


@row("put-back", "no page but the named ones has changed since the rows before, and what was saved stands again, byte for byte", "undo", "bytes that no journal keeps are lost; the saved file has them", intent="write",
     changes="the named pages; any page that was changed")
def give_back(board):
    changed = put_back(board, recover)
    wrong = [page for page in changed if not is_back(board, page)]
    if wrong:
        raise Differs(f"page {pages_told(wrong)} isn't as it was: write the saved file")
    strange = [page for page in changed if page not in board.words.pages]
    # where no other row has told it
    if strange and not board.harm:
        raise Differs(f"page {pages_told(strange)} was changed, and wasn't named; it is as it was again")


@row("reply-time", "no answer but an erase's takes longer than half of --wait's default, 400 ms", "a silence means that none is due",
     "settling ends early, and a late reply is taken for another's", OPTION)
def reply_time(board):
    if board.model is None:
        raise NotTried("no device of the model")
    usual = {name: board.usual_time(name) for name in board.times if "erase" not in name}
    board.facts["seconds"] = {name: round(seconds, 4) for name, seconds in usual.items()}
    name = max(usual, key=usual.get)
    if usual[name] > WAIT / 2:
        need_wait(board, usual[name] * 4)
        raise Differs(f"{name}: mostly {usual[name]:.3f} s")
    return f"{usual[name] * 1000:.0f} ms ({name})"


@row("erase-time", "one erase takes 5 s at most; where bytes are lost while it erases, all that settling may repeat less than --wait",
     "a long wait is 40 s; settling's batches", "settling's bytes are lost while it erases: `device does not follow the protocol`",
     OPTION)
def erase_time(board):
    one = board.facts.get("erase_seconds")
    if one is None:
        raise NotTried("no erase")
    # stopped behind 43 BC, settling names page N n + 1 times
    most = one * (len(board.model.sizes) if board.code == ERASE else 1)
    if one > LONGEST_ERASE or most > WAIT and board.facts.get("loses_while_busy"):
        need_wait(board, most * 1.5)
        raise Differs(f"one takes {one:.3f} s, settling up to {most:.1f} s")
    return f"one {one:.3f} s, settling up to {most:.1f} s"


def need_wait(board, seconds):
    if seconds * 1000 > MOST_WAIT:
        board.refusal = "it is too slow for any --wait"
    board.options["wait"] = min(MOST_WAIT, max(board.options.get("wait", 0), round(seconds * 1000)))
