"""The faults that `tools/mutants` plants: those that operators make of the code, and those by hand that no operator makes.

An operator leaves out a call, swaps two neighbours, changes a constant, turns a guard or leaves it out, ends a function early, or takes
another variable of the same type. `slips_python.py`, `slips_rattle.py` and `slips_text.py` say where. Those by hand are rows of `by_hand`.
"""

import glob
import os
import sys
import typing

TOP = os.path.dirname(os.path.dirname(os.path.dirname(os.path.abspath(__file__))))
sys.path.append(os.path.join(TOP, "tools"))

import slips
from planted import slips_python, slips_rattle, slips_text

CRATES = ("stm_words", "stm_files", "stm_work", "stmflash")
GROUPS = ("program", "companions", "layers", "packages")
# the group of a file by hand, by its folder; any other is of the packages
GROUP_OF = {"crates": "program", "line": "companions", "arm64": "layers", "web": "layers", "windows": "layers"}
# where slips are made, by group
SOURCES = {
    "program": [f"crates/{crate}/src/**/*.rt" for crate in CRATES],
    "companions": ["line/stmflash-line", "line/stmflash-trial", "line/stm32flash", "line/*/*.py"],
    "layers": ["arm64/layer.c", "web/memory.c", "windows/*.c", *(f"web/page/{name}.js" for name in (
        "clock", "faults", "files", "image", "line", "memory", "program", "store", "wiring", "words"))],
    "packages": ["Makefile", "packaging/deb*", "packaging/release", "packaging/zip", "packaging/*.service", "packaging/*.rules", "packaging/completions/*.bash"],
}


class Fault(typing.NamedTuple):
    """A fault: its group and what it is, the part of a file that is replaced and what by, the block in which that stands, the test
    that has to fail, if one is named, and the number by which it is switched on in the program."""

    group: str
    name: str
    file: str
    start: int
    end: int
    old: str
    new: str
    block: str
    test: str
    number: int = 0


class Gone(Exception):
    """A fault by hand has no place in the code."""


def files(group):
    """The files of a group, from the top."""
    return sorted(it for pattern in SOURCES[group] for it in glob.glob(pattern, root_dir=TOP, recursive=True) if it != "windows/test_layer.c")


def read(file):
    with open(os.path.join(TOP, file), encoding="utf-8") as source:
        return source.read()


def is_python(file):
    return file.startswith("line/") or file.endswith("/zip")


def slips_of(file, text):
    """The slips that operators make in a file of this text."""
    return slips_rattle.slips(text) if file.endswith(".rt") else slips_python.slips(text) if is_python(file) else slips_text.slips(file, text)


def made(group):
    """The faults that operators make in a group. A name is told twice with its count."""
    told = {}
    for file in files(group):
        text = read(file)
        for start, end, new, what, block in slips_of(file, text):
            name = f"{file}, {block.split('#')[0] or 'all'}: {' '.join(what.split())}"[:200]
            told[name] = told.get(name, 0) + 1
            yield Fault(group, name + (f" ({told[name]})" if told[name] > 1 else ""), file, start, end, text[start:end], new, block, "")


def by_hand(group):
    """The faults by hand in a group."""
    for name, file, (test,), old, new in slips.read(read("tools/planted/by_hand")):
        if group == GROUP_OF.get(file.split("/")[0], "packages"):
            if group == "program" and "@on" not in new:
                new = f"(if @on {{ {new} }} else {{ @old }})"
            text = read(file)
            if text.count(old) != 1 or old == new:
                raise Gone(f"{file} has {text.count(old)} times what is edited: {name}")
            at = text.index(old)
            yield Fault(group, name, file, at, at + len(old), old, new, "", test)


def faults(groups=GROUPS, operators=True, hand=True):
    """The faults of these groups, each with its number."""
    found = [it for group in groups for kind in ([by_hand] * hand + [made] * operators) for it in kind(group)]
    return [it._replace(number=number) for number, it in enumerate(found, 1)]
