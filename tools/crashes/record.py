"""What a session did, call after call, as strace(1) tells it: to files, to the line, and to its standard output."""

import os
import re
import subprocess

from disk import Misunderstood
from stops import call

CALL = re.compile(r"\d+ +(\w+)\((.*)\) += (-?\d+)(?: .*)?")
TEXT = re.compile(r'"((?:\\x[0-9a-f]{2})*)"')
# calls that are understood, and calls that would change files in ways that aren't
UNDERSTOOD = """open openat close dup dup2 dup3 fcntl lseek read readv write writev pwrite64 ftruncate fsync fdatasync
    rename renameat renameat2 link linkat unlink unlinkat flock socket sendto recvfrom""".split()
FOREIGN = """creat truncate fallocate sync_file_range sync syncfs copy_file_range sendfile splice pwritev pwritev2 preadv preadv2
    msync mkdir mkdirat rmdir symlink symlinkat mknod mknodat sendmsg recvmsg io_uring_setup""".split()
# what a write to a descriptor of a kind is, but for a file, and a sync
TOLD, SYNCED = {"line": "send", "output": "say"}, {"file": "sync", "folder": "sync folder"}


class Event:
    """One call that counts here; of an event on the line, the bytes; how many bytes of the line were received before it."""

    def __init__(self, kind, *words, received=0):
        self.kind, self.words, self.received = kind, words, received


class Opened:
    """A descriptor: of a file by its number, of a folder, of the line, or of nothing that counts."""

    def __init__(self, kind, what=None, appends=False):
        self.kind, self.what, self.appends, self.at = kind, what, appends, 0


class Reader:
    """Reads the calls of one process after the other, over the files of a folder."""

    def __init__(self, room, disk):
        self.room, self.disk = os.path.realpath(room), disk
        self.events = []
        self.received = bytearray()
        self.begin()

    def begin(self):
        """A process begins, with nothing open but what it was given."""
        self.open = {1: Opened("output")}

    def read(self, text):
        for line in text.splitlines():
            called = CALL.fullmatch(line)
            if called:
                self.take(called[1], called[2], int(called[3]))
            elif "unfinished" in line or "resumed" in line:
                raise Misunderstood("a program of several threads: %s" % line)

    def take(self, name, words, result):
        if result < 0:
            return
        if name in FOREIGN:
            raise Misunderstood("%s(%s)" % (name, words[:200]))
        texts = [bytes.fromhex(text.replace("\\x", "")) for text in TEXT.findall(words)]
        data, first = b"".join(texts)[:result], words.split(",")[0]
        opened = self.open.get(int(first) if first.isdigit() else None, Opened("other"))
        match name:
            case "open" | "openat":
                self.open[result] = self.opened(texts[0], words)
            case "close":
                self.open.pop(int(words), None)
            case "dup" | "dup2" | "dup3":
                self.open[result] = opened
            case "fcntl" if "F_DUPFD" in words:
                self.open[result] = opened
            case "lseek":
                opened.at = result
            case "read" | "readv" | "recvfrom":
                opened.at += result
                self.received += data if opened.kind == "line" else b""
            case "write" | "writev" | "sendto" if opened.kind == "file":
                at = len(self.disk.files[opened.what].versions[-1]) if opened.appends else opened.at
                self.add("write", opened.what, at, data)
                opened.at = at + len(data)
            case "write" | "writev" | "sendto" if opened.kind in TOLD:
                self.add(TOLD[opened.kind], data)
            case "pwrite64" if opened.kind == "file":
                self.add("write", opened.what, int(words.rsplit(", ", 1)[1]), data)
            case "ftruncate" if opened.kind == "file":
                self.add("cut", opened.what, int(words.split(", ")[1]))
            case "fsync" | "fdatasync" if opened.kind in SYNCED:
                self.add(SYNCED[opened.kind], opened.what)
            case "rename" | "renameat" | "renameat2":
                old, new = map(self.inside, texts)
                if old is None or new is None or os.path.dirname(old) != os.path.dirname(new):
                    raise Misunderstood("a rename from folder to folder: %s" % words)
                self.add("rename", old, new)
            case "link" | "linkat":
                self.add("link", *map(self.inside, texts))
            case "unlink" | "unlinkat" if self.inside(texts[0]) is not None:
                self.add("remove", self.inside(texts[0]))
            case "flock":
                self.add("lock", opened.what, "LOCK_EX" in words)
            case "socket":
                self.open[result] = Opened("line")

    def add(self, kind, *words):
        event = Event(kind, *words, received=len(self.received))
        self.events.append(event)
        self.disk.do(event)

    def inside(self, name):
        """A name as it counts from the folder on; none of a name elsewhere."""
        name = os.path.normpath(os.path.join(self.room, os.fsdecode(name)))
        folder = os.path.realpath(os.path.dirname(name))
        name = os.path.relpath(os.path.join(folder, os.path.basename(name)), self.room)
        return None if name.startswith("..") else name

    def opened(self, name, words):
        """What is opened by this name and these flags."""
        name = self.inside(name)
        if name is None:
            return Opened("other")
        if name not in self.disk.now():
            if "O_CREAT" not in words:
                return Opened("folder", "" if name == "." else name)
            self.add("make", name, max(self.disk.files, default=-1) + 1)
        number = self.disk.now()[name]
        if "O_TRUNC" in words:
            self.add("cut", number, 0)
        return Opened("file", number, "O_APPEND" in words)


def run(words, room, record, inject=None):
    """Runs a program in a folder: its status and outputs. Its calls are in the file `record` then."""
    traced = ["strace", "-f", "-xx", "-s", "100000000", "-o", record, "-e", "trace=" + ",".join(UNDERSTOOD + FOREIGN)]
    if inject is not None:
        traced += ["-e", "inject=" + inject]
    return call([*traced, *words], room)


def can_trace():
    """Whether strace is there, and this system lets a program trace its child."""
    try:
        return subprocess.run(["strace", "-o", os.devnull, "true"], capture_output=True).returncode == 0
    except FileNotFoundError:
        return False
