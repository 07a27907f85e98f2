"""Lets one sync of a program fail: each of its calls of fsync is held, looked at, and then done, or answered with EIO. Other
calls of the system likewise.

It is the system's own means, the user notification of seccomp, of Linux 5.10 and later on x86-64.
"""

import ctypes
import errno
import fcntl
import os
import select
import shutil
import socket
import struct
import subprocess
import unittest

from place import PATIENCE, Said, program

LIBC = ctypes.CDLL(None, use_errno=True)
PR_SET_NO_NEW_PRIVS, SYS_SECCOMP = 38, 317
# the calls that are held
LSEEK, CONNECT, FLOCK, FSYNC, FTRUNCATE, RENAME, LINK, UNLINK, OPEN, ACCEPT, STATX = 8, 42, 73, 74, 77, 82, 86, 87, 257, 288, 332
# of calls that name a file by its path: which of their words is its address
PATH_AT = {RENAME: 0, LINK: 0, UNLINK: 0, OPEN: 1, STATX: 1, 263: 1, 264: 1, 265: 1}
# a program for 64-bit ARM, which has none of rename(2), link(2) and unlink(2), does the same by renameat(2), linkat(2) and
# unlinkat(2), also under qemu
BY_ARM = {RENAME: 264, LINK: 265, UNLINK: 263}
SET_MODE_FILTER, NEW_LISTENER = 1, 8
# the steps of a filter
LOAD, IS_EQUAL, ANSWER = 0x20, 0x15, 0x06
TELL, ALLOW = 0x7FC00000, 0x7FFF0000
# a call that is held: its number, its process, which call it is, and its words, of which the first may be its file; and the reply
HELD, REPLY = struct.Struct("=QIIiIQQQ32x"), struct.Struct("=QqiI")
RECEIVE, SEND, GO_ON = 0xC0502100, 0xC0182101, 1


class CannotHold(unittest.SkipTest):
    """This system lets no call of a program be held: the test that wants it is left out."""


def call(folder, words, fails=None, at=lambda number, process: None, held=FSYNC, error=errno.EIO, env=None):
    """Runs the program in a folder, with its sync of this number, counted from 0, failing, or those of these numbers. Answers
    what was said, and the names of what was synced: files of the folder, or `.` for itself. Before each, `at` is called with its
    number and the process. Other calls can be held, one kind or several, and fail with another error. Raises `CannotHold` where no call can be held. A
    program that hangs is no such case: it raises `subprocess.TimeoutExpired`, and the test fails."""
    held = [BY_ARM.get(it, it) if program().endswith("-under-qemu") else it for it in ([held] if isinstance(held, int) else held)]
    ours, theirs = socket.socketpair()
    with ours, theirs:
        try:
            started = subprocess.Popen(["stmflash", *words], executable=program(), cwd=folder, env=env or {}, stdin=subprocess.DEVNULL,
                                       stdout=subprocess.PIPE, stderr=subprocess.PIPE, preexec_fn=lambda: listen(theirs, held))
        except subprocess.SubprocessError as e:
            raise CannotHold("this system lets no call of a program be held") from e
        _, (listener,), _, _ = socket.recv_fds(ours, 1, 1)
    try:
        synced = reply_to_all(listener, folder, fails, at, error)
        out, err = started.communicate(timeout=PATIENCE)
        return Said(started.returncode, out, err), synced
    finally:
        os.close(listener)
        started.kill()
        started.communicate()


def traced(test, calls, *words, as_hex=False):
    """What strace tells of these calls of the program on these words, which ends well; a test that it can't trace is left out."""
    if shutil.which("strace") is None:
        test.skipTest("strace is not installed")
    ran = subprocess.run(["strace", "-f", *["-xx"] * as_hex, "-o", test.path("record"), "-e", f"trace={calls}", program(), *words],
                         cwd=test.folder, env={}, stdin=subprocess.DEVNULL, capture_output=True, timeout=PATIENCE)
    told = (test.held("record") or b"").decode()
    if not told.strip():
        test.skipTest("strace can't trace here")
    test.assertEqual((ran.returncode, ran.stderr), (0, b""))
    return told


def call_of(process):
    """The call that a process is held in, and its words. Who is told of it may be quicker than its rest: until then it says `running`."""
    words = ["running"]
    while words == ["running"]:
        with open(f"/proc/{process}/syscall", encoding="ascii") as told:
            words = told.read().split()
    return [int(word, 0) for word in words]


def listen(channel, held):
    """Has this process's calls of these numbers held, and hands on the listener: the number of each call is loaded; of those
    the listener is told, all else is allowed."""
    are_equal = [(IS_EQUAL, len(held) - at, 0, number) for at, number in enumerate(held)]
    program = ((LOAD, 0, 0, 0), *are_equal, (ANSWER, 0, 0, ALLOW), (ANSWER, 0, 0, TELL))
    text = b"".join(struct.pack("=HBBI", *step) for step in program)
    room = ctypes.create_string_buffer(text, len(text))
    steps = struct.pack("@HP", len(program), ctypes.addressof(room))
    if LIBC.prctl(PR_SET_NO_NEW_PRIVS, 1, 0, 0, 0) != 0:
        raise OSError(ctypes.get_errno(), "prctl")
    listener = LIBC.syscall(SYS_SECCOMP, SET_MODE_FILTER, NEW_LISTENER, steps)
    if listener < 0:
        raise OSError(ctypes.get_errno(), "seccomp")
    socket.send_fds(channel, [b"."], [listener])


def name_of(process, call, words, folder):
    """The name of the file that a call of a process is for; none where it isn't for one."""
    try:
        if call in PATH_AT:
            with open(f"/proc/{process}/mem", "rb", buffering=0) as memory:
                memory.seek(words[PATH_AT[call]])
                name = memory.read(4096).split(b"\0")[0].decode()
        else:
            name = os.readlink(f"/proc/{process}/fd/{words[0]}")
    except OSError:
        return ""
    return os.path.relpath(os.path.join(os.path.realpath(folder), name), os.path.realpath(folder))


def reply_to_all(listener, folder, fails, at, error):
    """Replies to each call that is held until the program has ended, and answers the names of the files that they were for."""
    calls = select.poll()
    calls.register(listener, select.POLLIN)
    synced = []
    failing = (fails,) if isinstance(fails, int) else fails or ()
    while any(event & select.POLLIN for _, event in calls.poll(PATIENCE * 1000)):
        held = bytearray(HELD.size)
        fcntl.ioctl(listener, RECEIVE, held)
        number, process, _, kind, _, _, *words = HELD.unpack(held)
        reply = (number, 0, -error, 0) if len(synced) in failing else (number, 0, 0, GO_ON)
        name = name_of(process, kind, words, folder)
        at(len(synced), process)
        synced.append(name)
        try:
            fcntl.ioctl(listener, SEND, bytearray(REPLY.pack(*reply)))
        except FileNotFoundError:
            # it was killed meanwhile
            break
    return synced
