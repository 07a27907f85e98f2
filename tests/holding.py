"""Rows of calls whose disk is full, of which calls of the system are held, fail or are their last, or whose streams lead to files
(tests/held.rows says how they are told)."""

import contextlib
import errno
import fcntl
import functools
import os
import resource
import shutil
import signal

import syncs
from place import Place, Said
from rows import Rows, bytes_of, count_of


def files_up_to(size):
    """Lets no file of the process grow above this size: a write that would cross it is cut there, and the next one fails."""

    def limit():
        signal.signal(signal.SIGXFSZ, signal.SIG_IGN)
        _, most = resource.getrlimit(resource.RLIMIT_FSIZE)
        resource.setrlimit(resource.RLIMIT_FSIZE, (size, most))

    return limit


class Held(Rows):
    before, streams, how = None, {}, {}

    def set_nothing(self):
        super().set_nothing()
        self.before, self.streams, self.how, self.turns = None, {}, {}, {}

    def turn(self, number, process):
        """What is done once a call of the system is held, by its number, before it goes on."""
        for sign, told in self.turns.get(number, ()):
            if sign == "kill":
                os.kill(process, signal.SIGKILL)
            else:
                self.does(sign, told, *told.split(" "))

    def call(self, *words, before=None, variables=None, given=None, **more):
        if self.how:
            said, self.synced = syncs.call(self.folder, words, at=self.turn, env=variables, **self.how)
            return said
        with contextlib.ExitStack() as files:
            streams = {stream: files.enter_context(open(self.path(name), "ab")) for stream, name in self.streams.items()}
            return super().call(*words, before=self.before or before, variables=variables, given=given, **more, **streams)

    def does(self, sign, told, name, *more):
        if sign == "room":
            self.before = files_up_to(count_of(told))
        elif sign == "closes":
            self.before = functools.partial(os.close, int(told))
        elif sign == "humble":
            # root may write all the same, but for a process that never gets CAP_DAC_OVERRIDE
            self.before = functools.partial(syncs.LIBC.prctl, 24, 1, 0, 0, 0)
        elif sign == "mask":
            self.addCleanup(os.umask, os.umask(int(told, 8)))
        elif sign == "logs":
            self.assertEqual(Place.call(self, "log", "--journal", "journal"), Said(0, bytes_of(told), b""))
        elif sign == "refused":
            self.assertFault(Place.call(self, name, *more), "journal is in use", hint="another program has journal: wait until it ends")
        elif sign == "stream":
            self.streams[name] = more[0]
        elif sign in ("lock", "share"):
            self.lock = self.enterContext(contextlib.ExitStack())
            self.lock.enter_context(self.locked(told, fcntl.LOCK_EX if sign == "lock" else fcntl.LOCK_SH))
        elif sign == "unlock":
            self.lock.close()
        elif sign == "holds":
            self.how["held"] = [getattr(syncs, it.upper()) for it in (name, *more)]
        elif sign == "fails":
            self.how |= {"fails": range(100) if name == "all" else int(name), **{"error": getattr(errno, it) for it in more}}
        elif sign == "at":
            self.how.setdefault("held", syncs.FSYNC)
            self.turns.setdefault(int(name), []).append([*" ".join(more).split(" ", 1), ""][:2])
        elif sign == "synced":
            due = [it for word in told.removesuffix(" ..").split(" ") for it, _, times in [word.partition("*")] for _ in range(int(times or 1))]
            self.assertEqual(self.synced[:len(due)] if told.endswith(" ..") else self.synced, due)
        elif sign == "held":
            self.assertEqual(len(self.synced), int(told))
        elif sign == "rename":
            os.rename(self.path(name), self.path(*more))
        elif sign == "copied":
            os.rename(shutil.copy(self.path(name), self.path(name) + "-copy"), self.path(name))
        elif sign == "cut":
            os.truncate(self.path(name), len(self.raw(name)) - int(*more))
        elif sign == "locked":
            with self.assertRaises(BlockingIOError), self.locked(name):
                pass
        else:
            super().does(sign, told, name, *more)
