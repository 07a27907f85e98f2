"""Signals as something to wait for."""

import contextlib
import os
import select
import signal
import time

ENDING = (signal.SIGTERM, signal.SIGINT, signal.SIGHUP)


class Wake:
    """Signals as something to wait for: those that end us, and that COMMAND has ended. One that was ignored when we began stays so."""

    def __init__(self):
        self.reader, writer = os.pipe2(os.O_NONBLOCK | os.O_CLOEXEC)
        self.number = None
        signal.set_wakeup_fd(writer, warn_on_full_buffer=False)
        for number in ENDING:
            if signal.getsignal(number) is not signal.SIG_IGN:
                signal.signal(number, self.end)
        signal.signal(signal.SIGCHLD, lambda *_: None)

    def end(self, number, _):
        self.number = self.number or number

    def clear(self):
        with contextlib.suppress(BlockingIOError):
            os.read(self.reader, 4096)

    def pause(self, seconds):
        """Waits, until a signal ends us at most."""
        until = time.monotonic() + seconds
        while not self.number and (left := until - time.monotonic()) > 0:
            select.select([self.reader], [], [], left)
            self.clear()
