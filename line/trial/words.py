"""The words of a call, and what they ask for."""

import argparse
import datetime
import os
import sys

from faults import Refused
from rows import BACK, NAMES
from stmflash_line.elf import begins
from stmflash_line.faults import Fault
from stmflash_line.tables import read_chips

DESCRIPTION = """Tries, row by row, whether a board follows the model that stmflash's promises rest on. It saves the whole flash
to a file, erases and writes the named pages, puts back what it changed, and tells what it found."""
ENDS = """status: 0 it follows the model; 1 it doesn't, or the trial wasn't ended; 2 the words can't be done, or the answer was no, and
nothing was changed"""


def pages_of(text):
    words = text.split(",")
    if not all(word.isdecimal() for word in words):
        raise argparse.ArgumentTypeError("pages are numbers, as 62,63")
    return sorted(set(map(int, words)))


def names_of(text):
    names = set(text.split(","))
    if names - set(NAMES):
        raise argparse.ArgumentTypeError(f"no row is named {', '.join(sorted(names - set(NAMES)))}; --rows has their names")
    if BACK.name in names:
        raise argparse.ArgumentTypeError(f"{BACK.name} can't be left out: the board would keep what was changed")
    return names


def parser():
    made = argparse.ArgumentParser(prog="stmflash-trial", allow_abbrev=False, description=DESCRIPTION, epilog=ENDS,
                                   usage="stmflash-trial [--device SOCKET | --port PORT [--wiring WIRING]] [OPTION..]")
    add = made.add_argument
    add("--device", metavar="SOCKET", help="where the board is; without it and --port what STMFLASH_DEVICE names")
    add("--port", metavar="PORT", help="a serial port, which stmflash-line opens")
    add("--wiring", default="", metavar="WIRING", help="for stmflash-line; it also resets the board in the midst")
    add("--baud", type=int, default=115200, metavar="N", help="the line's speed; 115200 without it")
    add("--table", metavar="FILE", help="the chip table; without it those that stmflash reads")
    add("--pages", type=pages_of, default=[], metavar="N,N", help="the pages to work on; the last two without it")
    add("--skip", type=names_of, default=set(), metavar="ROW,ROW", help="rows that are left out, by name")
    add("--save", metavar="FILE", help="where the flash is saved; a new name of the date without it")
    add("--out", default="trial.toml", metavar="FILE", help="what was found; trial.toml without it")
    add("--part", default="", metavar="TEXT", help="which part it is, for that file")
    add("--reset", metavar="COMMAND", help="a shell's command that resets the board into its bootloader")
    add("--wait", type=int, default=50, metavar="MS", help="silence that means that nothing more comes; 50 without it")
    add("--pause", type=float, default=1.0, metavar="SECONDS", help="how long the row pause pauses; 1 without it")
    add("--map", action="store_true", help="erase and write every page, not the named ones alone")
    add("--every-byte", action="store_true", help="stop at each byte of a write's frame")
    add("--patient", action="store_true", help="go on where the board takes very long")
    add("--only-read", action="store_true", help="leave out what changes something")
    add("--yes", action="store_true", help="don't ask, and leave out what needs a hand")
    add("--progress", action="store_true", help="a line for each row, also where it is no terminal")
    add("--quiet", action="store_true", help="no progress")
    add("--speeds", action="store_true", help="find the speeds that the board takes at --port, and change nothing")
    add("--rows", action="store_true", help="print the rows, and do nothing")
    return made


def read(words, folder):
    """What a call asks for. `folder` is where stmflash-trial stands."""
    made = parser()
    given = made.parse_args(words)
    given.folder = folder
    if given.rows:
        return given
    if "" in (given.port, given.device):
        made.error("--port or --device is an empty word: name the board, or leave it out")
    if given.port and given.device:
        made.error("either --device or --port")
    given.device = None if given.port else given.device or os.environ.get("STMFLASH_DEVICE")
    if not given.port and not given.device:
        made.error("no board: --device, --port, or under stmflash-line PORT -- stmflash-trial ..")
    if given.wiring and not given.port:
        made.error("--wiring is for --port; stmflash-line has its own")
    if not 1 <= given.wait <= 60000 or not 0 <= given.pause <= 60 or not 1 <= given.baud <= 4000000:
        made.error("--wait is 1 to 60000, --pause 0 to 60, --baud 1 to 4000000")
    is_terminal = sys.stdin.isatty()
    if given.speeds and not (given.port and (given.wiring or given.reset or is_terminal and not given.yes)):
        made.error("--speeds needs --port, and a reset before each: --wiring, --reset, or a terminal")
    given.only_read = given.only_read or given.speeds
    if not (given.yes or given.only_read or is_terminal):
        made.error("it changes pages of the board: --yes, where nobody can be asked")
    given.by_hand = is_terminal and not given.yes
    given.save = given.save or f"flash-{datetime.datetime.now():%Y%m%d-%H%M%S}.bin"
    if os.path.lexists(given.save):
        raise Refused(f"{given.save}: is there already; give --save another name")
    try:
        given.chips, tables = read_chips(given.table, "--table")
    except Fault as fault:
        raise Refused(str(fault)) from None
    for name, path in (("--save", given.save), *(("the chip table", path) for path in tables)):
        if os.path.realpath(given.out) == os.path.realpath(path):
            raise Refused(f"{given.out}: is {name} too; give --out another name")
    if begins(given.out, b"stmjournal "):
        raise Refused(f"{given.out}: is a journal; give --out another name")
    return given
