#!/usr/bin/env python3
"""line/stm32flash beside the real stm32flash: the same words, each on a simulator of its own with the same flash.

    python3 tools/beside-stm32flash PROGRAM [--sample N] [--kills N] [--seed TEXT] [--jobs N] [--show]

PROGRAM is a stmflash. Compared are the status, the flash afterwards, what was read, and what is printed but for numbers, names and
progress. docs/SWITCH.md has a row for each call that differs: the rows have to be just those that do.

--sample N   N of the calls, evenly spread; all without it
--kills N    also kills each of three scripts at N moments, drawn from --seed: the next call has to give the flash back, or to go
             on, as it says; by turns it is one that does nothing and the script once more. --undo gives back what went through
--show       prints of each call what differs, and both texts; of each kill what came of it

Left out, with a word, where Debian's stm32flash or python3-serial isn't installed.
"""

import collections
import concurrent.futures
import contextlib
import os
import pathlib
import re
import shlex
import shutil
import subprocess
import sys
import tempfile

sys.dont_write_bytecode = True

from kills import kills
from room import CHIP, PAGE_SIZE, SIZE, TABLE, TOP, WAIT, Room, Simulator, images, words_of

# `<` gives fw.bin on standard input
CALLS = """
(none); -h; -b 115200; -b 12345; -m 9e1
-r out; -r out.hex; -r out -S 0x08000010:100; -r out -S 0x08007ff0:100; -r out -s 2 -e 3; -r out -s 32; -r out -s 33; -r - -S 0x08000000:64
-r none/out; -r out -v; -r out -w fw.bin; -r out -S 0x20000000:64; -r out -S abc; -r out -F 256:257; -r out -F 20:6; -r out -F 10
-w full.bin; -w full.bin -v; -w fw.bin -v; -w fw.hex -v; -w at400.hex -v; -w at0.hex; -w bad.hex; -w bad.hex -f -v; -w fw.elf; -w fw.elf -f
-w fw.srec; -w long.bin; -w empty.bin; -w none.bin; -w full.bin -v -n 3; -w full.bin -S 0x08002000; -w full.bin -S 0x08002000:1024 -v
-w full.bin -S 0x08002004; -w full.bin -S 0x08008000; -w full.hex -S 0x08001000 -v; -w full.bin -s 2; -w full.bin -e 1; -w full.bin -e 0
-w full.bin -s 2 -S 0x08000000; -w - -S 0x08001000:2048 <; -w full.bin -v -g 0x0; -w full.bin -v -g 0x08000000 -R; -w full.bin -R
-g 0x0; -g 0x3; -g 0x20000000
-o; -o -v; -o -s 2 -e 3; -o -e 0; -o -s 31 -e 5; -o -S 0x08000400:2048; -o -S 0x08000400:1000; -o -w fw.bin
-C; -C -S 0x08000000:1024; -C -S 0x08000000:1023; -C -s 1 -e 2
-u; -j; -k; -u -j; -R; -c; -i rts; -i foo; -i 5; -Z
""".strip().replace("\n", "; ").split("; ")
# lines of every call that tells the device which ours doesn't have: what the bootloader isn't asked for, and what no table has
LEFT_OUT = re.compile(r"Option [12] |- (RAM|Option RAM|System RAM) ")
# a chip's name is another table's
NUMBER, NAME = re.compile("0x[0-9a-fA-F]+|[0-9]+"), re.compile(rf"(?<=0x{CHIP} )\(.*\)")
PROGRESS = re.compile(r"\r?(Wrote|Wrote and verified|Read|CRC) address 0x[0-9a-f]+ \([0-9.]+%\) ")


def lines(result, words):
    """What was printed, without numbers, names, progress, blank lines and the usage."""
    is_read = "-r - " in " ".join(words) + " "
    said = [result["out"].hex()] if is_read else []
    for stream in ("out", "err")[is_read:]:
        text = PROGRESS.sub("", result[stream].decode(errors="replace"))
        told = map(str.strip, re.split("(?m)^Usage:", text)[0].split("\n"))
        said += [f"{stream} {NUMBER.sub('#', NAME.sub('()', line))}" for line in told if line and not LEFT_OUT.match(line)]
    return said


def differences(first, theirs, ours, words):
    """What differs: `status A B`, `flash`, or `rest` where ours has left what theirs has erased, and `text`."""
    places = [i for i in range(SIZE) if theirs["flash"][i] != ours["flash"][i]]
    rest = all(theirs["flash"][i] == 0xFF and ours["flash"][i] == first[i] for i in places)
    # a page that ours has left as it was, whole, wasn't written by it
    pages = [slice(at, at + PAGE_SIZE) for at in {i // PAGE_SIZE * PAGE_SIZE for i in places}]
    written = all(first[page] != ours["flash"][page] for page in pages)
    return {what for what, differs in (
        (f"status {theirs['status']} {ours['status']}", theirs["status"] != ours["status"]), ("rest" if rest and written else "flash", bool(places)),
        ("read", theirs["read"] != ours["read"]), ("text", lines(theirs, words) != lines(ours, words))) if differs}


def compare(program, source, call, show):
    words = shlex.split(call)
    with contextlib.closing(Room(program, source)) as room:
        try:
            theirs, ours = room.real(words), room.ours(words)
        except (OSError, subprocess.SubprocessError) as error:
            return {f"no end: {error}"}
        found = differences(room.held("first"), theirs, ours, words)
        if show:
            texts = [[line for line in lines(one, words) if line not in lines(other, words)] for one, other in ((theirs, ours), (ours, theirs))]
            print(f"{call}: {', '.join(sorted(found)) or 'alike'}\n    theirs {texts[0]}\n    ours   {texts[1]}", flush=True)
        return found


def of_sectors(program, source):
    """Each fault at a chip with sectors, which is erased by 44: theirs tells its id, erases, writes, verifies and reads, and ours reads the same."""
    room, chip, size, sector = Room(program, source), "0413", 1 << 20, 16384
    part, faults = f"0x08000000:{size}", []
    with contextlib.closing(room), Simulator(program, room.folder, chip, os.urandom(size)) as simulator:
        for call in ("(none)", f"-o -S 0x08000000:{sector}", "-v -w fw.bin", f"-r theirs -S {part}"):
            ran = room.relayed(shlex.split(call))
            if ran.returncode or b"Device ID    : 0x0413" not in ran.stdout:
                faults.append(f"chip {chip}: stm32flash {call}: {ran.stdout + ran.stderr}")
        device = ["--table", TABLE, "--device", "board", "--journal", "journal", "--wait", WAIT]
        subprocess.run([os.path.abspath(program), "read", *device, "ours"], cwd=room.folder, check=True)
        flash, image = simulator.stored(), room.held("fw.bin")
        faults += [f"chip {chip}: {name} read isn't the flash" for name in ("theirs", "ours") if room.held(name) != flash]
        if not flash.startswith(image.ljust(sector, b"\xff")):
            faults.append(f"chip {chip}: what stm32flash wrote isn't there, or what it erased")
    return faults


def check_table(found):
    """Each fault of docs/SWITCH.md, whose table has calls in its first column, and in the second what differs: a row too many, one too few,
    another difference."""
    rows = collections.defaultdict(set)
    part = pathlib.Path(TOP, "docs", "SWITCH.md").read_text(encoding="utf-8").split("\n## What differs\n")[1].split("\n## ")[0]
    for calls, kinds in re.findall(r"^\| (`.*?) \| ([^|]*) \|", part, re.M):
        for call in re.findall("`([^`]*)`", calls):
            rows[call].update(kind.strip() for kind in kinds.split(","))
    return [f"{call}: is in the table, and isn't tried" for call in rows if call not in CALLS] + [
        f"{call}: differs in {sorted(kinds) or 'nothing'}, and the table says {sorted(rows.get(call, ())) or 'nothing'}"
        for call, kinds in found.items() if kinds != rows.get(call, set())]


def main():
    given = words_of(__doc__, sample=len(CALLS), kills=0)
    has_serial = subprocess.run(["/usr/bin/python3", "-c", "from serial import Serial"], stderr=subprocess.DEVNULL).returncode == 0
    if not has_serial or shutil.which("stm32flash") is None:
        lacking = "python3-serial" if shutil.which("stm32flash") else "stm32flash"
        print(f"left out: our stm32flash wasn't tried beside the real one, there is no {lacking}")
        return 0
    program, sample = given.program, min(given.sample, len(CALLS))
    calls = [CALLS[i * len(CALLS) // sample] for i in range(sample)]
    with tempfile.TemporaryDirectory(prefix="beside-") as source, concurrent.futures.ThreadPoolExecutor(given.jobs) as pool:
        images(source)
        begun = {call: pool.submit(compare, program, source, call, given.show) for call in calls}
        found = {call: one.result() for call, one in begun.items()}
        faults = check_table(found) + of_sectors(program, source)
        killed, wrong = kills(pool, program, source, given.kills, given.seed, given.show) if given.kills else ("", [])
    for fault in faults + wrong:
        print("FAILED: " + fault)
    alike = sum(not kinds for kinds in found.values())
    print(f"beside stm32flash: {len(calls)} calls, {alike} alike, the others as docs/SWITCH.md says{killed}: {len(faults + wrong)} faults")
    return 1 if faults or wrong else 0


if __name__ == "__main__":
    sys.exit(main())
