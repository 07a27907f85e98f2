"""Rows that stop inside frames, and rows that need a hand: a reset, or the power."""

from faults import Differs, NotTried
from line import ask
from model import GET, GET_ID, READ, WRITE
from row import OPTION, row
from settling import byte_of, cut_and_settle, need_reset

# the places of a write's frame at which it is stopped without --every-byte
PLACES = (*range(1, 12), 16, 100, 200, 255, 260, 262, 263, 264)
RESET = "press reset, with BOOT0 as it is, each time it asks; or --reset COMMAND, or --port with --wiring"
POWER = "take the board's power while page P is erased, and give it again with BOOT0 high, when it asks"


@row("settle-ask", "stopped at each byte of Get, Get ID and Read, 7F settles it", "settling; announced bytes are awaited", "after a stop no session begins")
def settle_ask(board):
    frame = [READ, READ ^ 0xFF, *board.address(board.model.starts[board.page]), 0xFF, 0x00]
    return cut_and_settle(board, [[GET], [GET_ID], *(frame[:count] for count in range(1, len(frame)))], "ask")


@row("settle-erase", "stopped at each byte of P's erase frame, P's byte settles it, and no other byte changes",
     "settling; announced bytes are awaited; the harmless stop of an erase", "an undo erases what no journal keeps, or never ends",
     intent="erase", changes="P; where it differs any page")
def settle_erase(board):
    frame = [board.code, board.code ^ 0xFF, *board.erase_frame(board.page)]
    return cut_and_settle(board, [frame[:count] for count in range(len(frame) - 1, 0, -1)], "erase")


@row("settle-write", "stopped inside a write frame of P, 02 settles it, and no other byte changes",
     "settling; announced bytes are awaited; the harmless stop of a write", "an undo writes what no journal keeps", intent="write",
     changes="the named pages")
def settle_write(board):
    board.erase(board.page)
    frame = [WRITE, WRITE ^ 0xFF, *board.address(board.model.starts[board.page]), 0xFF, *range(0xFF, -1, -1)]
    places = range(1, len(frame) + 1) if board.words.every_byte else PLACES
    return cut_and_settle(board, [frame[:count] for count in places], "write")


@row("reset-in-frame", "a reset inside a frame leaves the board fresh: 7F brings one 79", "a device that is reset is fresh",
     "an undo behind a reset isn't right", hand=RESET)
def reset_in_frame(board):
    need_reset(board)
    for cut in ([GET], [READ, READ ^ 0xFF], [READ, READ ^ 0xFF, 0x08], [WRITE, WRITE ^ 0xFF], []):
        board.put(cut)
        board.drain()
        board.restart()
        board.hush()
        board.talk("get", [GET, GET ^ 0xFF])


@row("fresh-other", "a fresh board ignores each byte but 7F", "phase fresh; settling's third step",
     "an undo behind a reset finds no board where it can't send 7F first", OPTION, intent="erase", hand=RESET)
def fresh_other(board):
    need_reset(board)
    for byte in dict.fromkeys((byte_of(board, "erase"), 2, 0)):
        board.line.reset()
        board.model.reset()
        try:
            board.talk("fresh", [byte] * 4)
            board.connect()
        except Differs as error:
            board.options["fresh"] = "--baud N"
            raise Differs(f"behind bytes {byte:02X}: {error}") from None


@row("power", "a loss of power while P is erased leaves every other page as it was, and P can be erased again", "a loss of power",
     "a way back doesn't lead back", intent="erase", changes="P; where it differs any page", hand=POWER)
def power(board):
    if not board.words.by_hand:
        raise NotTried("it needs a hand, and a terminal")
    board.fill(board.page)
    board.step(board.code)
    board.line.write(bytes(board.erase_frame(board.page)))
    ask("Take the board's power now, give it again with BOOT0 high, and then Enter.")
    board.line.drop()
    board.model.reset()
    board.connect()
    board.model.forget(board.page)
    board.erase(board.page)
    board.expect("power was lost while a page was erased")
