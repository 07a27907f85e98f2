"""The journal of a COMMAND that names none: that of the board, which is asked which it is."""

import os
import subprocess

from .faults import NO_COMMAND, Fault, refused, say
from .journals import Journals, is_stopped
from .tied import tied
from .words import SHORT

# those of stmflash's commands that need no board
WITHOUT_BOARD = ("log", "keep")
# what the question gets of COMMAND's words
HANDED = ("--table", "--wait", "--give-up", "--baud", "--board")


def names_no_journal(command):
    """Whether a COMMAND is one of stmflash on our own board that takes a journal, and no word or variable names one."""
    if len(command) < 2 or not os.path.basename(command[0]).startswith("stmflash") or command[1] not in SHORT:
        return False
    if any(os.environ.get(name) for name in ("STMFLASH_JOURNAL", "STMFLASH_JOURNALS")) or {"--help", "-h"} & {*command}:
        return False
    return value_of(command, "--journal") is value_of(command, "--journals") is None and value_of(command, "--device") in (None, "{}")


def value_of(command, name):
    """What a COMMAND gives this option; None: nothing."""
    for at, word in enumerate(command):
        if word == name:
            return command[at + 1] if at + 1 < len(command) else ""
        if word.startswith(name + "="):
            return word.removeprefix(name + "=")
    return None


def name_journal(port, command, run):
    """Names COMMAND the journal of the board at a port, and tells it. `run` is called with what begins a program on the board, and
    answers its status. The status of a question that the board didn't answer; 0 where all went well."""
    journals = Journals(port, "--trust-journal" in command)
    journals.make()
    says_fresh = "--fresh" in command or os.environ.get("STMFLASH_FRESH") == "1"
    # what goes on in a session that was stopped is of the board that was in it
    is_fresh = says_fresh and "--in-session" not in command
    is_board_used = command[1] not in WITHOUT_BOARD
    stopped = [] if is_fresh or not is_board_used else [journals.live] if is_stopped(journals.live) else journals.stopped()
    wanted = value_of(command, "--board")
    is_unasked = "--no-board" in command or not wanted and os.environ.get("STMFLASH_NO_BOARD") == "1"
    told, board = "", wanted or not is_unasked and os.environ.get("STMFLASH_BOARD")
    if stopped and board:
        # which may be another, as in any folder of journals
        os.environ["STMFLASH_JOURNALS"] = journals.boards
        if not journals.live.endswith(f"{board.upper()}.journal"):
            # a keep would give up the one that the port had last
            journals.take_board(None)
        say(f"{port}: journal of the board {board} in {journals.boards}")
        return 0
    if len(stopped) > 1:
        raise Fault(f"{port}: a command was stopped in each of {', '.join(stopped)}: --journal names the one of the board that is here")
    if stopped:
        journals.live = stopped[0]
        told = ", in which a command was stopped; --journal names another, where its board isn't here"
    elif is_unasked:
        journals.take_board(None)
    elif is_board_used:
        status, board = ask(command, journals.none, run)
        if status:
            return status
        journals.take_board(board)
        # the question was its first
        command[:] = [word for word in command if word != "--fresh"]
        os.environ.pop("STMFLASH_FRESH", None)
        told = "" if board else ", of this port: the board tells no unique id"
    os.environ["STMFLASH_JOURNAL"] = journals.live
    say(f"{port}: journal {journals.live}{told}")
    return 0


def ask(command, journal, run):
    """The status of a session that asks the board which it is, and the board; None for one that doesn't tell."""
    # loaded where a board is asked
    import json
    words = [command[0], "info", "--raw", "--json", "--quiet", "--journal", journal]
    words += [word for name in HANDED if (value := value_of(command, name)) is not None for word in (name, value)]
    words += [word for word in command if word in ("--fresh", "--trust-journal")]
    asked = []

    def begin(settings):
        asked.append(subprocess.Popen(words, env={**settings, "STMFLASH_NO_BOARD": ""}, stdin=subprocess.DEVNULL, stdout=subprocess.PIPE, preexec_fn=tied()))
        return asked[0]

    try:
        status = run(begin)
    except OSError as error:
        raise refused(words[0], error, NO_COMMAND) from None
    with asked[0].stdout as told:
        said = told.read()
    try:
        return status, None if status else json.loads(said).get("board")
    except ValueError:
        raise Fault(f"{words[0]}: what it says of the board isn't understood; it and stmflash-line have to be of one version") from None
