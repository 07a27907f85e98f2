"""The file that keeps the flash as it was, and putting the flash back as it stands there."""

import os

from board import BLOCK
from faults import Differs, Ended

# a page's last frame has a multiple of so many bytes: as stmflash writes it, and whole blocks for a board that takes no less
GRAINS = (4, BLOCK)
PASSES = 3


def store(path, data):
    """Makes the file, which isn't there yet, and answers once it and its name are on the disk. One that has a part of it alone isn't left."""
    try:
        with open(path, "xb") as file:
            try:
                file.write(data)
                file.flush()
                os.fsync(file.fileno())
            except (OSError, Ended):
                os.remove(path)
                raise
        folder = os.open(os.path.dirname(os.path.abspath(path)), os.O_RDONLY)
        try:
            os.fsync(folder)
        finally:
            os.close(folder)
    except OSError as error:
        raise Ended(f"the flash couldn't be saved: {error.strerror}") from None


def differing(board):
    """Reads the whole flash, and answers the pages that aren't as they were."""
    board.compare()
    return [page for page in range(len(board.model.sizes)) if not is_back(board, page)]


def is_back(board, page):
    place = board.model.page(page)
    return list(board.model.flash[place]) == list(board.saved[place])


def is_blank(board, page):
    """Whether what was saved can be written there without an erase."""
    place, erased = board.model.page(page), board.model.erased
    return all(byte in (erased, due) for byte, due in zip(board.model.flash[place], board.saved[place]))


def rewrite(board, page, grain):
    """Writes what was saved: trailing erased bytes of a block aren't sent, as stmflash does, nor are blocks that are right."""
    if not is_blank(board, page):
        board.erase(page)
    for at in board.blocks(page):
        block = board.saved[at:at + BLOCK]
        used = len(block.rstrip(bytes([board.model.erased])))
        if used and bytes(board.model.flash[at:at + BLOCK]) != block:
            board.write(at, block[:(used + grain - 1) // grain * grain])
    board.compare([page])


def put_back(board, settle):
    """Puts back what was saved: the pages of which the model knows that they are otherwise, and then, where a reading of the whole
    flash finds others, these, some times. Answers what that first reading found. An erase that does something else than it is
    asked may spoil a page that was right: so the last pages are first."""
    for page in reversed([page for page in range(len(board.model.sizes)) if not is_back(board, page)]):
        put_page_back(board, page, settle)
    first = wrong = differing(board)
    for _ in range(PASSES):
        for page in reversed(wrong):
            put_page_back(board, page, settle)
        wrong = wrong and differing(board)
    return first


def put_page_back(board, page, settle):
    for grain in GRAINS:
        try:
            rewrite(board, page, grain)
        except Differs:
            settle(board, "write")
            board.compare([page])
        if is_back(board, page):
            return
