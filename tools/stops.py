"""What the tools share that stop the program, crash its PC, or take a board's power: chips, what a loss of power leaves of a
page, and how plays are done and told."""

import collections
import concurrent.futures
import os
import re
import subprocess
import sys

sys.path.insert(0, os.path.join(os.path.dirname(os.path.abspath(__file__)), "soak"))
from device import Chip  # noqa: E402

BASE = 0x08000000
# a chip of a number that is greater by so much tells its board, so that a journal names that, and has void lines of pages
TELLS = 0x1000
CHIPS = {}
# pages, bytes of a page, erased by 44 and not by 43, what an erased place holds
for number, pages, size, *more in (
        (0x0412, 4, 1024, False, 0xFF),
        (0x0A02, 300, 256, True, 0xFF),
        (0x0A03, 256, 256, False, 0xFF),
        (0x0A04, 8, 256, False, 0x00),
        (0x0A05, 4, 4096, True, 0x00),
        (0x0A06, 4, 4096, False, 0x00),
        (0x0A07, 4, 2048, False, 0xFF),
        (0x0A08, 4, 2048, True, 0xFF)):
    CHIPS[number] = Chip(number, BASE, [size] * pages, *more)
    CHIPS[number + TELLS] = Chip(number + TELLS, BASE, [size] * pages, *more, (0x1FFFF7E8, 12), unique=b"%012X" % number)
# what an undo says of a page that isn't as its segment left it. A loss of power may have changed it, and no command was at work there
OTHERWISE = re.compile(r"stmflash: page (\d+) isn't as segment \d+ left it; --trust-journal to undo all the same")


def table():
    return "".join(map(Chip.entry, CHIPS.values())).encode()


def board_of(unique):
    """The file beside a simulator's flash that says which board it is, where it tells one."""
    return {"flash.board": b"unique %s\n" % unique.hex().encode()} if unique else {}


def call(words, folder):
    """What a program did, and said, in a folder."""
    return subprocess.run(words, cwd=folder, env={"PATH": os.environ["PATH"]}, stdin=subprocess.DEVNULL, capture_output=True, check=False)


def fault_of(said):
    """What a session ended with, without the lines behind it that tell what came, or what changed nothing."""
    return re.sub(r"(?m)^(hint|note): .*$", "", said).strip()


def spoilt(chance, kind, held, erased):
    """What a page that had these bytes holds once the power was lost."""
    if kind == "random":
        return chance.randbytes(len(held))
    if kind == "half":
        return bytes(byte | chance.getrandbits(8) for byte in held)
    return held if kind == "same" else bytes([erased if kind == "erased" else 0xFF - erased]) * len(held)


def play_all(tool, jobs, plays, well):
    """Does these plays, so many at a time, each of which answers a tally and what went wrong. Tells the sums, and that all is well."""
    tally, wrong = collections.Counter(), []
    with concurrent.futures.ThreadPoolExecutor(jobs) as pool:
        for counts, failures in pool.map(lambda play: play(), plays):
            tally.update(counts)
            wrong += failures
    print("\n".join([", ".join(f"{name} {count}" for name, count in sorted(tally.items())), *wrong[:20]]))
    sys.exit(f"{tool}: {len(wrong)} failures" if wrong else print(well))
