"""The sequences of -i: signals of the port, GPIO lines as stmflash-line takes them, and waits."""

import re

from stmflash_line.sequences import LINE, gpio_lines, read_sequence

from .fault import Fault

SIGNALS = ("rts", "dtr", "brk")


def steps(text):
    """The words of one sequence, each with what it ends by: ',' , '&' or nothing."""
    return [(word, mark) for word, mark in re.findall("([^,&]*)([,&]?)", text) if word or mark]


def known(text):
    """Both sequences; a fault unless every signal of them is one of the port, or a GPIO line."""
    for word, _ in steps(text.replace(":", ",", 1)):
        name = word.removeprefix("-")
        if word and name not in SIGNALS and not LINE.fullmatch(name):
            raise Fault(f"ERROR: -i {word}: no signal; give rts, dtr, brk, or the number of a GPIO line")
    return text


def refuse_late(entry, leave):
    """A fault where a GPIO line is moved in the end alone: whether it can be had is seen before a byte is sent."""
    late = gpio_lines(read_sequence(leave or "")) - gpio_lines(read_sequence(entry))
    if late:
        raise Fault(f"ERROR: -i: GPIO line {min(late)} is moved in the end alone; it has to be moved at the beginning too")


def lines(text):
    """What is told of a sequence that is played."""
    told = ["", "GPIO sequence start"]
    for word, mark in steps(text):
        if word:
            name = word.removeprefix("-")
            kind = "gpio" if LINE.fullmatch(name) else "port signal"
            told.append(f" setting {kind} {name} to {int(name == word)}... OK")
        if mark == ",":
            told.append(" delay 100000 us")
    return [*told, "GPIO sequence end", ""]
