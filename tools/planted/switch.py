"""Plants faults in a tree of the code, each behind a switch, so that one build serves all of them.

The switch is a function in C, one for each crate that has faults, for a build without a proof alone. It reads the numbers that are on
from the name of the file that runs: of `m12-unproved` fault 12 is on, of `m3_12-unproved` 3 and 12 are, and of any other name none. Of
a name as `r1-unproved` each number that is asked for is written once into a file of that name with `.reached` behind it.
"""

import collections
import os
import pathlib
import re

from planted import read

# the switch in C; `NAME` is the crate's
C = r"""#include <fcntl.h>
#include <stdio.h>
#include <stdlib.h>
#include <string.h>
#include <unistd.h>

/* Which faults are on, and which were asked for: a place for each number. It is read once, from the name of the file that runs. */
static unsigned char on[16384], asked[16384];
static int is_read = 0, is_noted = 0;
static char path[4096];

static void read_name(void) {
    char *name;
    ssize_t length = readlink("/proc/self/exe", path, sizeof path - 16);
    is_read = 1;
    if (length <= 0)
        return;
    path[length] = 0;
    name = strrchr(path, '/');
    name = name == NULL ? path : name + 1;
    is_noted = *name == 'r';
    strcpy(path + length, is_noted ? ".reached" : "");
    if (*name != 'm')
        return;
    do {
        unsigned long number = strtoul(name + 1, &name, 10);
        if (number < sizeof on)
            on[number] = 1;
    } while (*name == '_');
}

static void note(int number) {
    char line[16];
    int file = open(path, O_WRONLY | O_APPEND | O_CREAT | O_CLOEXEC, 0666);
    asked[number] = 1;
    if (file < 0)
        return;
    if (write(file, line, (size_t)sprintf(line, "%d\n", number)) < 0)
        asked[number] = 0;
    close(file);
}

int planted_in_NAME(int number) {
    if (!is_read)
        read_name();
    if (is_noted && !asked[number])
        note(number);
    return on[number];
}
"""
# the same in Rattle
RATTLE = """// The faults that are planted in this build.

unsafe extern "C" {
    safe fn planted_in_NAME(number: i32) -> i32;
}

/// Whether the fault of this number is on.
pub fn is_on(number: i32) -> bool {
    planted_in_NAME(number) != 0
}
"""
SWITCH = re.compile(r"@on\b")
OLD = "@old"


class Misplaced(Exception):
    """A fault meets another one in the code: the fault."""


def weave(text, at, edits):
    """A text that stands at this place, with these edits, each (from, to, fault) and the wider ones first."""
    woven, done = "", at
    while edits:
        start, end, fault = edits[0]
        if start < done:
            raise Misplaced(fault)
        inner = [edit for edit in edits[1:] if edit[0] < end]
        edits = edits[1 + len(inner):]
        for _, last, other in inner:
            if last > end or OLD not in fault.new:
                raise Misplaced(other)
        new = SWITCH.sub(f"crate::planted::is_on({fault.number})", fault.new)
        if OLD in new:
            new = new.replace(OLD, weave(fault.old, start, inner))
        woven += text[done - at:start - at] + new
        done = end
    return woven + text[done - at:]


def place(text, faults):
    """The text of a file with those of these faults that don't meet, and the others."""
    left = []
    while True:
        edits = sorted(((it.start, it.end, it) for it in faults if it not in left), key=lambda edit: (edit[0], -edit[1], edit[2].number))
        try:
            return weave(text, 0, edits), left
        except Misplaced as why:
            left.append(why.args[0])


def plant(top, faults):
    """Plants those of these faults that don't meet in the crates of a tree, and answers the others."""
    files, left = collections.defaultdict(list), []
    for fault in faults:
        files[fault.file].append(fault)
    for file, held in files.items():
        path = os.path.join(top, file)
        text = pathlib.Path(path).read_text(encoding="utf-8")
        # what says that nothing is proved stands before all faults
        moved = len(text) - len(read(file))
        text, met = place(text, [it._replace(start=it.start + moved, end=it.end + moved) for it in held])
        left += [it for it in held if it.number in {other.number for other in met}]
        pathlib.Path(path).write_text(text, encoding="utf-8")
    # the switch of a crate: its C, its module, and the declaration of that
    for crate in sorted({file.split("/")[1] for file in files}):
        folder = pathlib.Path(top, "crates", crate)
        (folder / "c").mkdir(exist_ok=True)
        for name, text in (("c/planted.c", C), ("src/planted.rt", RATTLE)):
            (folder / name).write_text(text.replace("NAME", crate))
        root = next(filter(pathlib.Path.exists, (folder / "src/main.rt", folder / "src/lib.rt")))
        root.write_text(root.read_text().replace("\nmod ", "\nmod planted;\nmod ", 1))
    return left
