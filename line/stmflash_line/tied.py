"""A program that is told to end where we are killed."""

import ctypes
import os
import signal

PR_SET_PDEATHSIG = 1


def tied():
    """What a program does before it begins, so that it is told to end where we are killed."""
    system, ourselves = ctypes.CDLL(None), os.getpid()

    def begin():
        system.prctl(PR_SET_PDEATHSIG, signal.SIGTERM)
        if os.getppid() != ourselves:
            os._exit(1)

    return begin
