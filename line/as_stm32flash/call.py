"""One call: outside, where the words are read and what can't be done is refused; and inside, where stmflash-line has the port
open, and we are a process of our own as its COMMAND."""

import os
import re
import sys

from stmflash_line import faults
from stmflash_line.opening import FAR, find_place
from stmflash_line.patience import is_pty
from stmflash_line.tables import table_text

from . import chip as chips
from . import handed, line, sequence, tools, words
from .fault import Failed, Fault
from .journal_text import kept_pages, owner_of
from .journals import Journals
from .patience import wait
from .told import VERSION, Told, note, put

# that the entry sequence of -i resets the board, which its user says
RESETS = "STM32FLASH_RESETS"
# the chip of the GPIO lines that -i moves, where it isn't the first
CHIP = "STM32FLASH_GPIO_CHIP"
# why a journal is refused that names another board; one that names none may be the board's that is there
OTHER = "journal is of another board"
NEWEST = "the newest write or erase at this port"
# what a hint says to type
HINTED = re.compile(r"\b(undo (1 )?--|protect )")
# the actions that change nothing, and so undo nothing at a board that may be another
READING = ("", "r", "C")


def main(program, given):
    # whoever has closed one of the three files is told nothing, and no port takes its place
    while (opened := os.open(os.devnull, os.O_RDWR)) < 3:
        pass
    os.close(opened)
    return ended(lambda: outside(program, given))


def ended(act):
    """The status of a part of a call, whose fault is told."""
    try:
        return act()
    except Fault as fault:
        put(sys.stderr, str(fault) + ("\n" + words.USAGE if fault.usage else "") + "\n")
        return 1
    except faults.Fault as fault:
        put(sys.stderr, f"ERROR: {fault}\n")
        return 1
    except KeyboardInterrupt:
        note("stopped; a write or an erase that didn't end is undone by the next call at this port, and one that did stands")
        return 1


# ---- outside; what only few calls need, or only the inside, is loaded where it is needed: each start of Python counts

def outside(program, given):
    asked = words.read(given)
    if asked is None:
        put(sys.stderr, words.USAGE)
        return 0
    below = tools.find(program)
    journals = Journals(asked.port)
    if asked.action == "log":
        if not asked.port.startswith(FAR):
            # while it isn't there it has another name
            find_place(asked.port)
        from .board import Board
        return show_log(Board(below, journals, 0))
    table = refuse(asked, below)
    for text in asked.notes:
        put(sys.stderr, text + "\n")
    handed.take_output(asked)
    if asked.action != "undo":
        told = Told(asked)
        told.lines([f"stm32flash {VERSION}", "", "http://stm32flash.sourceforge.net/", ""])
        if asked.action == "w":
            from . import image
            image.keep(asked.file)
            told.lines(image.Image(asked).lines())
    journals.make()
    leave = asked.leave()
    boot = None if asked.sequence is None else asked.entry() + ("" if leave is None else f":{leave}")
    patience = wait(os.environ.get("STMFLASH_WAIT"), asked.port, asked.baud)
    chip = (os.environ.get(CHIP) or None) if sequence.gpio_lines(sequence.read_sequence(asked.entry())) else None
    return line.use(asked.port, asked.baud, boot, chip, lambda slowest: ended(lambda: inside(asked, below, table, patience, slowest)))


def refuse(asked, below):
    """What can be seen without the board that it can't be done; the chips of the table."""
    sequence.refuse_late(asked.entry(), asked.leave())
    if asked.mode != "8e1" and not is_pty(asked.port):
        raise Fault(f"ERROR: -m {asked.mode}: isn't there; give 8e1, which the bootloader of every STM32 has")
    table = chips.read_table(below.tables)
    if asked.address is not None:
        chips.refuse_outside(table, asked.address, "-S")
    if asked.start_at:
        chips.refuse_outside(table, asked.start_at, "-g")
    return table


def show_log(board):
    """What can be undone at a port, the newest journal first."""
    journals = board.journals
    journals.refuse_others()
    paths = [path for path in (journals.live, *reversed(journals.kept())) if os.path.exists(path)]
    status, text = 0, ""
    for path in paths:
        text += f"journal {path}\n"
        try:
            text += board.run(["log", "--journal", path])
        except Failed as fault:
            text += f"{fault}: it can't be read\n"
            status = 1
    if not paths:
        text = f"nothing was written or erased yet; journals would stand in {journals.folder}\n"
    return status if put(sys.stdout, text) else 1


# ---- inside

def inside(asked, below, table, patience, slowest):
    from .board import Board
    if len(below.tables) > 1 or faults.as_text(below.table) != below.table:
        below.hold(table_text(chip.entry for chip in table.values()))
    board = Board(below, Journals(asked.port), patience, slowest)
    try:
        board.journals.end_keeping()
        return undo(board, asked) if asked.action == "undo" else do(board, asked, table)
    except Fault as fault:
        # its words are those of stmflash
        hint = HINTED.sub(f"{in_line(asked)} \\g<0>", board.hint)
        raise Fault(str(fault) + (f"\nstm32flash: {hint}" if hint not in str(fault) else "")) from None


def do(board, asked, table):
    from .actions import Actions
    told = Told(asked)
    told.line(f"Interface serial_posix: {asked.baud} {asked.mode.upper()}")
    if asked.entry():
        told.lines(sequence.lines(asked.entry()))
    try:
        undo_first(board, asked)
        chip = greet(board, told, table)
        if board.take_own():
            undo_first(board, asked)
        actions = Actions(asked, board, told, chip)
        if asked.start_at and not chip.holds(asked.start_at):
            raise Fault(f"ERROR: -g 0x{asked.start_at:08x}: not in the flash of this chip, which ends at 0x{chip.end:08x}")
        actions.do()
        return actions.leave()
    finally:
        told.line("")


def undo_first(board, asked):
    """What an earlier call has begun at this port and never ended is undone before anything else."""
    try:
        board.take_stopped()
        if not board.is_unfinished():
            return
    except Failed as fault:
        raise unreadable(board, asked, fault) from None
    if asked.action in READING and owner_of(board.journals.live).board is None:
        raise Fault("ERROR: an earlier call was stopped in the midst of a write, an erase or an undo at a board that doesn't tell which "
                    f"it is; if it is the one that is there, stm32flash --undo {asked.port} undoes that")
    note("an earlier call was stopped in the midst of a write, an erase or an undo: that is undone first")
    try:
        board.undo(fresh=was_reset(board, asked))
    except Failed as fault:
        if not leave_other(board, fault):
            way = f"the journal is {board.journals.live}, and --undo at its own board undoes it"
            raise Fault(f"{fault}\nERROR: what an earlier call has begun can't be undone now; {way}") from None


def in_line(asked):
    return f"stmflash-line {asked.port} --baud {asked.baud}"


def unreadable(board, asked, fault):
    return Fault(f"{fault}\nERROR: the journal of this port can't be read; {in_line(asked)} undo 1 tells whether it can be mended; "
                 f"move {board.journals.live} away to go on without it, and without its way back")


def was_reset(board, asked):
    """Whether the board was reset when this call began, as its user says, and wasn't asked anything since."""
    return os.environ.get(RESETS) == "1" and bool(asked.entry()) and board.own.chip is None


def greet(board, told, table):
    """Asks the device who it is, tells that, and answers its chip."""
    try:
        # nothing is begun on it
        information = board.information()
    except Failed as fault:
        if str(fault) == "no answer from the device":
            raise Fault("Failed to init device, timeout.") from None
        if str(fault).startswith("unknown chip "):
            raise Fault(f"Unknown/unsupported device (Device ID: 0x{str(fault)[13:]})") from None
        raise Fault(f"Failed to init device.\n{fault}") from None
    chip = table[int(information["id"], 16)]
    told.line(f"Version      : 0x{information['version'].lower()}")
    told.lines(chip.lines())
    # a part of this kind may have less flash, and tell it
    return chip.cut(int(information["pages"]))


def leave_other(board, fault):
    """Takes the journal of the board that is there where this fault says that the one in use, in which something was stopped, is
    another's, and it is sure to be; whether it did."""
    left = board.journals.live
    if str(fault) != OTHER or not board.take_from_other():
        return False
    note(f"that was another board: what was stopped is undone first when it is back at any port; its journal is {left}")
    return True


def undo(board, asked):
    """Undoes the newest write or erase of the board at this port that changed something, also of a journal that was put aside."""
    try:
        try:
            board.take_stopped()
            undone = undo_newest(board, asked)
        except Failed as fault:
            if not board.is_unfinished() or not leave_other(board, fault):
                raise
            undone = undo_newest(board, asked)
    except Failed as fault:
        if str(fault).startswith("bad journal line"):
            raise unreadable(board, asked, fault) from None
        raise Fault(f"{fault}\nERROR: not undone; the journal is {board.journals.live}, and --undo goes on with it") from None
    put(sys.stdout, f"Undone: {undone}.\n")
    return 0


def undo_newest(board, asked):
    """The same; what was undone. What was stopped is undone alone, whatever it had changed: it is what its user means."""
    if not board.is_unfinished() and board.own.chip is None and board.ask_owner():
        board.take_own()
    if board.is_unfinished():
        kept = kept_pages(board.journals.live)
        board.undo(fresh=was_reset(board, asked))
        return NEWEST if any(kept[-1:]) else "a write or an erase at this port that was stopped before it changed anything"
    if not any(kept := kept_pages(board.journals.live)) and not board.take_newest():
        raise Fault("ERROR: nothing that was written or erased at this port can be undone" + ", since it changed nothing" * bool(kept)
                    + "; --log tells what there is")
    kept = kept_pages(board.journals.live)
    passed = next(count for count, pages in enumerate(reversed(kept)) if pages)
    board.undo(count=passed + 1)
    return NEWEST + f" that changed something, and {passed} behind it that changed nothing" * bool(passed)
