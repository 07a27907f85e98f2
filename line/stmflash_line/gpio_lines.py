"""GPIO lines of this machine, which libgpiod's gpioset holds at a level for us."""

import contextlib
import glob
import os
import re
import shutil
import subprocess
import time

from .faults import Fault, refused
from .opening import who_may
from .tied import tied

# how long gpioset may take to tell its version, to have a line, or to give it back, in seconds
PATIENCE = 5
# how each version is told which lines it holds until it is told to end, before LINE=LEVEL
WORDS = {1: ("--mode=signal", "{}"), 2: ("--chip", "{}", "--consumer", "stmflash-line")}
# an open file without a name, as Linux has one for lines that were asked for
NAMELESS = "anon_inode:"


class GpioLines:
    """Lines of one chip, each held by a gpioset of its own, so that the others stay while one is moved. One that is moved is
    nobody's for some milliseconds, since no version of gpioset takes over what another holds."""

    def __init__(self, chip):
        self.chip = chip
        self.words = ["gpioset", *(word.format(chip) for word in WORDS[find_version()])]
        self.held = {}

    def move(self, line, is_high):
        """Brings a line to a level, and answers once it is there. One that is there already isn't touched."""
        at, holder = self.held.get(line, (None, None))
        if at == is_high and holder.poll() is None:
            return
        self.let_go([line])
        self.held[line] = is_high, self.hold(line, is_high)

    def hold(self, line, is_high):
        """A gpioset that has this line at this level."""
        # a session of its own: a terminal's Ctrl-C ends us, who end it
        try:
            holder = subprocess.Popen([*self.words, f"{line}={int(is_high)}"], stdin=subprocess.DEVNULL, stdout=subprocess.DEVNULL,
                                      stderr=subprocess.PIPE, env=plain(), start_new_session=True, preexec_fn=tied())
        except OSError as error:
            raise refused("gpioset", error, "apt install gpiod") from None
        until = time.monotonic() + PATIENCE
        while holder.poll() is None:
            if has_lines(holder.pid):
                return holder
            if time.monotonic() > until:
                end([holder])
                raise Fault(f"GPIO line {line} of {self.chip}: gpioset didn't get it within {PATIENCE} s; gpioinfo tells who has it")
            time.sleep(0.001)
        with holder:
            said = holder.stderr.read().decode(errors="replace").strip().split("\n")[-1].removeprefix("gpioset: ")
        raise Fault(f"GPIO line {line} of {self.chip}: {self.why(said or f'gpioset ended with status {holder.returncode}')}")

    def why(self, said):
        """Why a line can't be had, and what to do."""
        if "busy" in said:
            return "busy: another program or a driver has it; gpioinfo tells which"
        if "ermission denied" in said:
            with contextlib.suppress(OSError):
                return "no permission; " + who_may(os.stat(os.path.join("/dev", self.chip)))
            return "no permission"
        if "No such file" in said or "annot find" in said:
            chips = sorted(glob.glob("/dev/gpiochip*"))
            return f"no such chip; this machine has {', '.join(map(os.path.basename, chips)) or 'none'}"
        return f"{said}; gpioinfo tells its lines"

    def let_go(self, lines):
        """Lets go of those among these lines that are held."""
        end([self.held.pop(line)[1] for line in lines if line in self.held])

    def close(self):
        self.let_go(list(self.held))


def find_version():
    """Which of the two gpiosets is there, whose words differ."""
    if shutil.which("gpioset") is None:
        raise Fault("a sequence names GPIO lines, and gpioset isn't there: apt install gpiod")
    try:
        ran = subprocess.run(["gpioset", "--version"], stdin=subprocess.DEVNULL, stdout=subprocess.PIPE, stderr=subprocess.DEVNULL,
                             env=plain(), timeout=PATIENCE)
    except (OSError, subprocess.TimeoutExpired):
        raise Fault("gpioset doesn't tell its version: apt install gpiod") from None
    told = ran.stdout.decode(errors="replace").split("\n")[0]
    found = re.search(r"libgpiod\)? v?([0-9]+)\.", told)
    if not found or int(found[1]) not in WORDS:
        raise Fault(f"gpioset is of libgpiod 1 or 2, and this one says {told[:60]!r}: apt install gpiod")
    return int(found[1])


def plain():
    """Our variables, with texts of the system in English."""
    return {**os.environ, "LC_ALL": "C"}


def has_lines(process):
    """Whether a gpioset of ours has what it asked for, which then is at its level: the one file without a name that it opens."""
    folder = f"/proc/{process}/fd"
    with contextlib.suppress(OSError):
        for number in os.listdir(folder):
            with contextlib.suppress(OSError):
                if os.readlink(os.path.join(folder, number)).startswith(NAMELESS):
                    return True
    return False


def end(holders):
    """Ends these, all at once, and waits for it: until then their lines are theirs."""
    for holder in holders:
        holder.terminate()
    for holder in holders:
        with holder:
            try:
                holder.wait(PATIENCE)
            except subprocess.TimeoutExpired:
                holder.kill()
