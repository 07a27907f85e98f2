"""Two programs on one journal: while one has it, another comes with a device of its own, and in the end all is undone.

This needs no crash. The moments are those of the first program's line, which is held there until the second has ended.
"""

import os
import socket
import subprocess
import tempfile
import threading

from board import Board, Device, flash_of
from line import connect, serve_each
from simulator import PATIENCE, Folder
from stops import CHIPS, call, fault_of
from story import TRIES, Story, held
from trial import LATE, top

NAME = "two-programs"
NUMBER = 0x0412
FIRST, SECOND = ("erase", "1", "3"), ("undo",)
# how many bytes of the first program's line are handed on before the second comes: before its first line of the journal; inside a
# page that is read; inside the two steps of its erase; before its last line
BYTES = (6, 16, 44, 47, 88)


class HeldLine:
    """A socket before a board's, which holds what a client sends behind so many bytes until it is let go."""

    def __init__(self, path, board, count):
        self.board, self.count = board, count
        self.reached, self.let_go = threading.Event(), threading.Event()
        self.listener = serve_each(path, self.serve)

    def serve(self, client):
        self.listener.close()
        with connect(self.board) as device:
            back = threading.Thread(target=self.carry, args=(device, client), daemon=True)
            back.start()
            self.carry(client, device, self.count)
            self.reached.set()
            back.join()

    def carry(self, one, other, count=None):
        """Carries bytes from one to the other until one has gone, and stops behind so many until it is let go."""
        try:
            while data := one.recv(4096):
                if count is not None and count < len(data):
                    other.sendall(data[:count])
                    data = data[count:]
                    self.reached.set()
                    self.let_go.wait()
                    count = None
                elif count is not None:
                    count -= len(data)
                other.sendall(data)
            other.shutdown(socket.SHUT_WR)
        except OSError:
            # the other has gone
            pass


def judge(program, count, locks=True):
    """What is wrong, if anything, where the second program comes behind so many bytes of the first's line. Without locks the
    second one's are taken for granted."""
    chip = CHIPS[NUMBER]
    story = Story(NAME, "board", NUMBER, [FIRST])
    with tempfile.TemporaryDirectory(dir=top(), prefix="race-") as folder:
        room = os.path.join(folder, "room")
        os.makedirs(room)
        Folder(room).store_all({**story.files(), "flash": flash_of(chip)})
        wrote = call([program, *story.words(("write", "first"))], room)
        if wrote.returncode != 0:
            return "the write before says: %s" % wrote.stderr.decode().strip()
        with Board(program, os.path.join(folder, "board"), Device(chip, held(room)["flash"])) as board:
            line = HeldLine(os.path.join(folder, "line"), board.socket, count)
            first = subprocess.Popen([program, *story.words(FIRST, os.path.join(folder, "line"))], cwd=room, env={},
                                     stdout=subprocess.DEVNULL, stderr=subprocess.PIPE)
            if not line.reached.wait(PATIENCE):
                first.kill()
                return "the first program sends nothing: %s" % first.communicate()[1].decode().strip()
            unlocked = [] if locks else ["strace", "-o", os.devnull, "-e", "trace=flock", "-e", "inject=flock:retval=0"]
            second = call([*unlocked, program, *story.words(SECOND)], room)
            line.let_go.set()
            _, said = first.communicate()
            for _ in range(TRIES):
                back = call([program, *story.words(("undo",), board.socket)], room)
                if fault_of(back.stderr.decode().strip()) not in LATE:
                    break
            if back.returncode == 0 and board.stored() == flash_of(chip):
                return None
            return "undo says: %s; before it the second program said: %s; the first: %s" % tuple(
                told.decode().strip() or "nothing" for told in (back.stdout + back.stderr, second.stdout + second.stderr, said))
