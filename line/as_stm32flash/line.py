"""stmflash-line in this process, and the inside of a call for its COMMAND: a child that goes on from here. So neither is another start of Python."""

import mmap
import os
import signal
import sys
import time

from .fault import Fault

SIGNALS = (signal.SIGTERM, signal.SIGINT, signal.SIGHUP)


def use(port, baud, boot, chip, inside):
    """Opens the port as stmflash-line does, and runs `inside` as its COMMAND, with a function that tells how many seconds the
    slowest answer of the board has taken up to now. `chip` has the GPIO lines of `boot`. The status of the call."""
    from stmflash_line import faults, session, tied, wake, words
    # this number is ours and the child's
    slowest = memoryview(mmap.mmap(-1, 8)).cast("d")

    def heard(seconds):
        slowest[0] = max(slowest[0], seconds)

    def begin(settings):
        try:
            return Child(lambda: inside(lambda: slowest[0]), settings, tied.tied())
        except OSError as error:
            raise faults.Fault(f"stm32flash: {error.strerror}") from None

    try:
        return session.use_port(words.of_program(port, baud, boot, chip, begin, heard), wake.Wake())
    except ValueError as error:
        raise Fault(f"ERROR: -i: {error}") from None
    except faults.Fault as fault:
        faults.say(str(fault))
        return 1


class Child:
    """A process that goes on from here, as stmflash-line has one that it started."""

    def __init__(self, body, settings, tie):
        self.returncode = None
        # a signal to the child is one that it has a handler of its own for
        held = signal.pthread_sigmask(signal.SIG_BLOCK, SIGNALS)
        try:
            self.process = os.fork()
            if self.process == 0:
                be_started(body, settings, tie, held)
        finally:
            signal.pthread_sigmask(signal.SIG_SETMASK, held)

    def poll(self):
        if self.returncode is None:
            done, status = os.waitpid(self.process, os.WNOHANG)
            if done:
                self.returncode = os.waitstatus_to_exitcode(status)
        return self.returncode

    def wait(self, timeout=None):
        until = None if timeout is None else time.monotonic() + timeout
        while self.poll() is None:
            if until is not None and time.monotonic() > until:
                # loaded by stmflash-line
                from subprocess import TimeoutExpired
                raise TimeoutExpired("stm32flash", timeout)
            time.sleep(0.002)

    def send_signal(self, number):
        if self.poll() is None:
            os.kill(self.process, number)

    def terminate(self):
        self.send_signal(signal.SIGTERM)

    def kill(self):
        self.send_signal(signal.SIGKILL)


def be_started(body, settings, tie, held):
    """What a child does: it is as one that was started anew, without the port, and ends with the status of its body."""
    status = 1
    try:
        tie()
        signal.set_wakeup_fd(-1)
        signal.signal(signal.SIGCHLD, signal.SIG_DFL)
        for number in SIGNALS:
            if signal.getsignal(number) is not signal.SIG_IGN:
                signal.signal(number, signal.default_int_handler if number == signal.SIGINT else signal.SIG_DFL)
        # the port is another's as soon as who opened it has ended
        os.closerange(3, os.sysconf("SC_OPEN_MAX"))
        signal.pthread_sigmask(signal.SIG_SETMASK, held)
        os.environ.clear()
        os.environ.update(settings)
        status = body()
    except BaseException:
        sys.excepthook(*sys.exc_info())
    finally:
        os._exit(status)
