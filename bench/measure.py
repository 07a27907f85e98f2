"""What the scripts of this folder share: how a program is measured, and what has to be there.

A run has two times. Its processor time is what the system counts for the child (user and system, by wait4), so that a wait for
the disk or for another program isn't counted. The other is by the clock, from the start of the process to its end, and is what
somebody waits. Each figure is the least of some runs of a whole process.
"""

import ctypes
import datetime
import json
import os
import shutil
import subprocess
import sys
import time
from collections import namedtuple

TOP = os.path.join(os.path.dirname(os.path.abspath(__file__)), "..")
# the ratios of the last runs, from which `make pictures` draws docs/pictures/ratios.svg
FIGURES = os.path.join(TOP, "bench", "figures.json")
PACKAGES = {"objcopy": "binutils", "srec_cat": "srecord", "stm32flash": "stm32flash", "strace": "strace", "chromium": "chromium"}

# the times of a run, in seconds: of the processor, and by the clock
Run = namedtuple("Run", "processor clock")

# of ptrace(2), on Linux
TRACE_ME, CONTINUE, SET_OPTIONS, STOP_AT_EXIT = 0, 7, 0x4200, 0x40


def program(*parts):
    """A program of this repository, which `make bench` builds."""
    path = os.path.join(TOP, *parts)
    if not os.path.exists(path):
        sys.exit(f"no {os.path.join(*parts)}: run `make bench`, which builds it")
    return path


def is_there(tool):
    """Whether a tool of another project is installed; if not, says where it comes from."""
    if shutil.which(tool):
        return True
    print(f"  {tool} is not installed (Debian's package {PACKAGES[tool]}): its figures are left out")
    return False


def best(words, runs, folder=None):
    """The least processor time of some runs, in seconds."""
    return min(times_of(words, runs, folder))


def times_of(words, runs, folder=None):
    """The processor times of some runs, in seconds."""
    return [run_of(words, folder).processor for _ in range(runs)]


def run_of(words, folder=None):
    """The times of one run."""
    began = time.monotonic()
    child = subprocess.Popen(words, cwd=folder, stdout=subprocess.DEVNULL, stderr=subprocess.DEVNULL)
    _, status, used = os.wait4(child.pid, 0)
    clock = time.monotonic() - began
    child.returncode = status
    if status:
        sys.exit(f"failed: {' '.join(words)}")
    return Run(used.ru_utime + used.ru_stime, clock)


def runs_beside(commands, runs):
    """Some runs of each command, by turns, so that other work on the machine meets all alike."""
    times = [[] for _ in commands]
    for _ in range(runs):
        for own, words in zip(times, commands):
            own.append(run_of(words))
    return times


def least(runs):
    """The least of both times."""
    return Run(min(run.processor for run in runs), min(run.clock for run in runs))


def shares(ours, theirs):
    """Our times as shares of a peer's."""
    return Run(ours.processor / theirs.processor, ours.clock / theirs.clock)


def peak_of(words):
    """The greatest memory of a run, in bytes: the high-water mark of the program's own memory, read as it ends. So the run is
    traced and stopped there; what wait4 tells is never less than what this script held as it began the program."""
    ptrace = ctypes.CDLL(None).ptrace
    ptrace.argtypes = [ctypes.c_long, ctypes.c_long, ctypes.c_void_p, ctypes.c_void_p]
    child = os.fork()
    if child == 0:
        nothing = os.open(os.devnull, os.O_WRONLY)
        os.dup2(nothing, 1)
        os.dup2(nothing, 2)
        ptrace(TRACE_ME, 0, None, None)
        os.execvp(words[0], words)
    os.waitpid(child, 0)
    ptrace(SET_OPTIONS, child, None, STOP_AT_EXIT)
    peak = 0
    while True:
        ptrace(CONTINUE, child, None, None)
        _, status = os.waitpid(child, 0)
        if not os.WIFSTOPPED(status):
            break
        with open(f"/proc/{child}/status") as told:
            marks = [line.split()[1] for line in told if line.startswith("VmHWM:")]
        peak = max([peak, *(1024 * int(mark) for mark in marks)])
    if status or not peak:
        sys.exit(f"failed: {' '.join(words)}")
    return peak


def beyond(whole, start):
    """The time of a run beyond that of the same program doing nothing: it must be well above it to mean anything."""
    if whole <= start * 1.02:
        sys.exit(f"{whole:.4f} s is not beyond the {start:.4f} s that the program takes for nothing: nothing was measured")
    return whole - start


def leave(script, rows):
    """Leaves a script's ratios for the picture: of each what was measured, the peer, and our times as shares of the peer's."""
    try:
        with open(FIGURES, encoding="utf-8") as file:
            figures = json.load(file)
    except FileNotFoundError:
        figures = {}
    figures[script] = {
        "on": datetime.date.today().isoformat(),
        "ratios": [
            {"what": what, "peer": peer, "processor": round(share.processor, 3), "clock": round(share.clock, 3)}
            for what, peer, share in rows
        ],
    }
    with open(FIGURES, "w", encoding="utf-8") as file:
        json.dump(figures, file, indent=1)
        file.write("\n")


def made_apart(make):
    """Runs a function in a process of its own, so that the memory that it takes is not this script's."""
    maker = os.fork()
    if maker == 0:
        make()
        os._exit(0)
    if os.waitpid(maker, 0)[1]:
        sys.exit("the files to measure with could not be made")
