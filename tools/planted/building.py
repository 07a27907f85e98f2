"""One build of the program with many faults, each behind its switch, without proofs; what the build refuses by its type is left out.

It stays in `bin/planted` for as long as nothing changes that it is made of.
"""

import glob
import hashlib
import os
import pathlib
import re
import shutil
import subprocess
import sys
import tempfile
import time

import unproved
from planted import TOP, switch

sys.path.insert(0, os.path.join(TOP, "tools", "wrong-bodies"))

KEPT = os.path.join(TOP, "bin", "planted")
# for so many faults it is worth two minutes that the program is twenty times as quick, and for those that are none of its own
MANY = 200
# where a fault of the code is told
TOLD = re.compile(r"((?:crates/\w+/)?src/[\w/]+\.rt):(\d+)")


def digest(top, faults):
    """What a tree is made of, the kit, and what is planted in it, as one number."""
    return hashlib.sha256(repr([unproved.digest(top), *((it.number, it.file, it.start, it.new) for it in faults)]).encode()).hexdigest()


def blamed(said, top, faults):
    """The faults in the lines that a build tells of: each whose switch stands there, or in the lines before, up to one that has any, or in those behind."""
    found = set()
    for file, line in set(TOLD.findall(said)):
        # those of the program's own crate are told from there
        path = os.path.join(top, file if file.startswith("crates/") else f"crates/stmflash/{file}")
        if os.path.exists(path):
            lines = pathlib.Path(path).read_text(encoding="utf-8").split("\n")
            near = [lines[at] for at in (*range(int(line) - 1, max(int(line) - 9, -1), -1), *range(int(line), int(line) + 8)) if at < len(lines)]
            found |= set(map(int, next(filter(None, (re.findall(r"planted::is_on\((\d+)\)", it) for it in near)), ())))
    return [it for it in faults if it.number in found]


def link(top, room, program, level):
    """Builds the program of a tree without checks on memory, which take twenty times as long; what is said where that can't be."""
    import retarget
    from kit import rt

    module, said = retarget.make_module(rt, top, room)
    if module is None:
        return said
    made, clang = os.path.join(room, "program.o"), f"{rt.KIT}/toolchain/bin/clang"
    subprocess.run([clang, "--no-default-config", level, "-fPIE", "-w", "-c", "-o", made, module], check=True)
    switches = sorted(glob.glob(os.path.join(top, "crates", "*", "c", "planted.c")))
    subprocess.run(["cc", "-O2", "-pie", "-o", program, made, *switches, f"{rt.KIT}/c/libos_c.a", f"{rt.KIT}/c/liblibc_c.a"], check=True)
    return None


def build(faults, name):
    """The program with these faults, kept under a name, and the faults that are no faults: those that the build refuses."""
    program, mark = os.path.join(KEPT, name), os.path.join(KEPT, name + ".of")
    os.makedirs(KEPT, exist_ok=True)
    with tempfile.TemporaryDirectory(prefix="mutants-") as sound:
        subprocess.run([os.path.join(TOP, "tools", "unproved-sources"), sound], check=True)
        of = digest(sound, faults)
        if os.path.exists(program) and os.path.exists(mark):
            kept, *refused = pathlib.Path(mark).read_text(encoding="utf-8").split()
            if kept == of:
                return program, [it for it in faults if str(it.number) in refused]
        begun, refused = time.monotonic(), []
        while True:
            with tempfile.TemporaryDirectory(prefix="mutants-") as room:
                top = os.path.join(room, "top")
                shutil.copytree(sound, top)
                refused += switch.plant(top, [it for it in faults if it not in refused])
                said = link(top, room, program + ".made", "-O0" if 0 < len(faults) < MANY else "-O1")
                if said is None:
                    break
                more = [it for it in blamed(said, top, faults) if it not in refused]
                if not more:
                    sys.exit(f"tools/mutants: no build:\n{said[-20000:]}")
                refused += more
        # one that runs meanwhile stays as it is
        os.replace(program + ".made", program)
        pathlib.Path(mark).write_text(" ".join([of, *(str(it.number) for it in refused)]), encoding="utf-8")
    print(f"tools/mutants: the build took {(time.monotonic() - begun) / 60:.1f} min, {len(refused)} faults were refused by it", flush=True)
    return program, refused
