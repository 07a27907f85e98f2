"""Sequences: how RTS, DTR, break and GPIO lines are moved, step by step."""

import re

# what one ',' of a sequence waits, in seconds
DELAY = 0.1
# the number of a GPIO line
LINE = re.compile("0|[1-9][0-9]{0,4}")
# a part of a wiring: which signal drives which pin, straight or through an inverter
PART = re.compile(r"(inverted-)?(rts|dtr)-(reset|boot0)")


def read_sequence(text):
    """The steps of a sequence in the notation of stm32flash's -i: ("rts" or "dtr", level), ("brk", True), (GPIO line, level) or
    ("wait", seconds). ',' ends a signal, or nothing, and waits; '&' ends one and doesn't. "-brk" does nothing."""
    steps = []
    for word, mark in re.findall("([^,&]*)([,&]?)", text):
        name = word.removeprefix("-")
        if name in ("rts", "dtr") or word == "brk":
            steps.append((name, name == word))
        elif LINE.fullmatch(name):
            steps.append((int(name), name == word))
        elif word not in ("", "-brk"):
            raise ValueError(f"{word!r} is no signal: rts, dtr, brk and GPIO lines' numbers are, with - before one that is to be low")
        if mark == ",":
            steps.append(("wait", DELAY))
    return steps


def gpio_lines(steps):
    """The GPIO lines that a sequence moves."""
    return {name for name, _ in steps if isinstance(name, int)}


def read_wiring(text):
    """The sequence that brings a board of this wiring into its bootloader, and the one that leaves it there: as
    "dtr-reset,rts-boot0", where each part may begin with "inverted-", and the one for BOOT0 may be left out."""
    signals, inverted = {}, {}
    for part in text.split(","):
        found = PART.fullmatch(part)
        if found is None:
            raise ValueError(f"{part!r} is no part of a wiring: dtr-reset, rts-boot0, rts-reset and dtr-boot0 are, and inverted-..")
        inversion, signal, pin = found.groups()
        if pin in signals or signal in signals.values():
            raise ValueError(f"{text!r} is no wiring: each signal drives one pin, and each pin hangs on one signal")
        signals[pin], inverted[pin] = signal, bool(inversion)
    if "reset" not in signals:
        raise ValueError(f"{text!r} has no reset: without one, --boot moves what there is")

    def at(pin, is_high):
        """What brings a pin to a level: a signal that is raised is low at an adapter's pin."""
        return ("" if is_high == inverted[pin] else "-") + signals[pin]

    reset = f"{at('reset', False)},{at('reset', True)}"
    if "boot0" not in signals:
        return reset + ",,", ""
    return f"{at('boot0', True)}&{reset},,", f"{at('boot0', False)}&{reset}"


class Moves:
    """A port, and the GPIO lines that sequences name; None where they name none."""

    def __init__(self, port, lines):
        self.port, self.lines = port, lines

    def play(self, steps, pause):
        """Step by step, each of them: a board isn't left in the midst of a reset."""
        for name, value in steps:
            if name == "wait":
                pause(value)
            elif isinstance(name, int):
                self.lines.move(name, value)
            else:
                self.port.move(name, value)
