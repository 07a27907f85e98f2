"""Plants bugs, each alone, and runs the soak: each has to be found.

    python3 tools/soak/planted.py [EDIT]..
    python3 tools/soak/planted.py --stand-ins PROGRAM [NAME]..

The first plants each EDIT in a copy of the sources, and builds the program as `make demo` does. An EDIT is a wrong body of crates/NAME, which
the prover refuses too; without any a few are taken that only a stop, a reset or a chip of 512 pages shows. The second builds nothing:
each fault of PLANTED goes before the built program, by `--as NAME PROGRAM WORDS..`, which goes wrong in that way over the right one.
"""

import concurrent.futures
import contextlib
import os
import pathlib
import re
import shlex
import shutil
import subprocess
import sys
import tempfile

HERE = os.path.dirname(os.path.abspath(__file__))
TOP = os.path.dirname(os.path.dirname(HERE))
sys.path += [os.path.join(TOP, "tools", "wrong-bodies"), os.path.join(TOP, "tools")]

from edits import pairs_of
from journal import BadLine, Journal

SEED = "planted"
EDITS = (
    "crates/stm_session/wrong-bodies/by-hand/settles_with_connect.edit",
    "crates/stm_session/wrong-bodies/by-hand/keeps_page_one_alone.edit",
    "crates/stm_session/wrong-bodies/by-hand/undone_before_its_pages.edit",
    "crates/stm_session/wrong-bodies/by-hand/keeps_a_page_behind_its_erase.edit",
    "crates/stm_journal/wrong-bodies/no_mark.edit",
)

VALUED = ("--keep-to", "--go", "--again", "--stop", "-S", "--board")
NAMED = re.compile(rb"stmjournal 3 (....) [0-9A-F]+\n")


def without(*names):
    """Words that aren't handed on, each with its value where it has one."""
    def edit(words):
        gone = {at + more for at, word in enumerate(words) if word in names for more in range(1 + (word in VALUED))}
        return [word for at, word in enumerate(words) if at not in gone]
    return edit


def file_as(name, change):
    """What happens to a file behind the use that wrote it."""
    def behind(words, out):
        if os.path.exists(name) and (name in words or name == "J"):
            store(name, change(read(name)))
        return out
    return behind


def left_behind(words, out):
    """The journal stays beside the name that it was moved to."""
    if os.path.exists("K") and "--keep-to" in words and b"kept" in out:
        shutil.copyfile("K", "J")
    return out


def read(name):
    return pathlib.Path(name).read_bytes() if os.path.exists(name) else b""


def store(name, held):
    pathlib.Path(name).write_bytes(held)


def unnamed(is_so):
    """While the program adds no segment, a journal of which this is so names no board: so that isn't compared."""
    heads = []

    def before(words):
        held = read("J")
        found = NAMED.match(held)
        if found and is_so(held) and words[0] not in ("write", "erase"):
            heads.append(found[0])
            store("J", b"stmjournal 2 %s\n" % found[1] + held[found.end():])
        return words

    def behind(words, out):
        if heads:
            store("J", heads[0] + read("J").partition(b"\n")[2])
        return out

    return before, behind


def is_unfinished(held):
    with contextlib.suppress(BadLine):
        return Journal(held).is_unfinished()


def with_all_pages():
    """While the program does anything but tell, the table knows no place of a size: so its own size wins."""
    tables = []

    def before(words):
        tables.append(read("T"))
        if words[0] != "info":
            store("T", re.sub(rb"size_at = .*\n", b"", tables[0]))
        return words

    def behind(words, out):
        store("T", tables[0])
        return out

    return before, behind


def minding_case(words):
    """A board that is wanted in small letters is none."""
    return [re.sub("[a-f]", "0", word) if before == "--board" else word for before, word in zip(["", *words], words)]


def said(old, new):
    return lambda words, out: out.replace(old, new)


# the right words, and what was right
same, right = (lambda words: words), (lambda words, out: out)
# how the words are changed, and then what was printed and is left
PLANTED = {
    "keeps_nothing": (without("--keep"), right),
    "removes_in_place_of_moving": (lambda words: [*without("--keep-to")(words), "--keep"] if "--keep-to" in words else words, right),
    "moves_it_and_leaves_it": (same, left_behind),
    "moves_a_line_less": (same, file_as("K", lambda held: held[:held[:-1].rfind(b"\n") + 1])),
    "tells_another_count": (same, said(b"kept 1\n", b"kept 0\n")),
    "starts_nothing": (without("--go"), right),
    "heeds_no_stop_behind_a_write": (lambda words: without("--stop")(words) if "--go" in words else words, right),
    "is_not_done_again": (without("--again"), right),
    "verifies_nothing": (without("-v"), right),
    "reads_raw_bytes": (without("--hex"), right),
    "writes_hex_in_small_letters": (same, file_as("OUT.hex", bytes.lower)),
    "leaves_blank_lines_in": (without("--skip-blank"), right),
    "sums_another_part": (lambda words: without("-S")(words) if words[0] == "crc" else words, right),
    "tells_a_sum_without_zeros": (same, said(b"crc 0", b"crc ")),
    "compares_no_board": unnamed(lambda held: True),
    "compares_the_board_of_a_finished_journal": unnamed(is_unfinished),
    "lets_the_size_of_the_table_win": with_all_pages(),
    "begins_a_journal_of_no_board": (same, file_as("J", lambda held: NAMED.sub(rb"stmjournal 2 \1\n", held, count=1))),
    "adds_no_sum": (same, file_as("J", lambda held: re.sub(rb"\ncrc [0-9A-F]{8}!", b"", held))),
    "leaves_out_what_is_left": (same, file_as("J", lambda held: re.sub(rb"\nleft .*!", b"", held))),
    "gives_back_what_rotted": (lambda words: words + ["--trust-journal"] * (words[0] == "undo" and "--trust-journal" not in words), right),
    "wants_any_board": (without("--board"), right),
    "minds_the_case_of_a_board": (minding_case, right),
    "asks_all_the_same": (without("--no-board"), right),
    "tells_no_board": (same, lambda words, out: re.sub(rb"board [0-9A-F]+\n", b"", out)),
}


def stand_in(name, program, words):
    """The program with one fault, on these words."""
    before, behind = PLANTED[name]
    ran = subprocess.run([program, *before(words)], stdout=subprocess.PIPE)
    sys.stdout.buffer.write(behind(words, ran.stdout))
    return ran.returncode


def built(edit, room):
    """The program of a copy of the sources with the replacements of an edit."""
    copy = os.path.join(room, "copy")
    shutil.copytree(TOP, copy, ignore=shutil.ignore_patterns("out", "bin", ".git", "soak-difference"))
    for file, old, new in pairs_of(pathlib.Path(TOP, edit).read_text()):
        path = pathlib.Path(copy, *edit.split("/")[:2], file)
        body = path.read_text()
        if body.count(old) != 1:
            sys.exit("%s: the old text doesn't stand once" % edit)
        path.write_text(body.replace(old, new))
    subprocess.run(["sh", "tools/demo.sh"], cwd=copy, stdout=subprocess.DEVNULL, stderr=subprocess.DEVNULL)
    program = os.path.join(copy, "bin", "stmflash-unproved")
    return program if os.path.exists(program) else sys.exit("%s: the program isn't built" % edit)


def behind(name, program, room):
    """The program behind that fault."""
    planted = pathlib.Path(room, "planted")
    planted.write_text('#!/bin/sh\nexec %s "$@"\n' % shlex.join([sys.executable, os.path.abspath(__file__), "--as", name, program]))
    planted.chmod(0o755)
    return str(planted)


def is_found(name, make):
    """Whether the soak of a program that is made in a folder ends with a difference; where is told."""
    with tempfile.TemporaryDirectory() as room:
        words = [sys.executable, HERE, make(room), "--seed", SEED, "--sessions", "5000"]
        ran = subprocess.run(words, cwd=room, capture_output=True, text=True)
    told = ran.stdout.splitlines()
    if ran.returncode == 0 or len(told) < 3:
        print("%s: %s" % (name, "the soak failed: %d, %s" % (ran.returncode, ran.stderr) if ran.returncode else "NOT FOUND"))
        return False
    print("%s: found, %s; %s" % (name, told[1].partition(": ")[2], told[-2]), flush=True)
    return True


def main():
    words = sys.argv[1:]
    if words[:1] == ["--as"]:
        return stand_in(words[1], words[2], words[3:])
    if words[:1] == ["--stand-ins"]:
        program = os.path.abspath(words[1])
        with concurrent.futures.ThreadPoolExecutor(len(os.sched_getaffinity(0))) as pool:
            found = list(pool.map(lambda name: is_found(name, lambda room: behind(name, program, room)), words[2:] or PLANTED))
    else:
        edits = [os.path.relpath(edit, TOP) for edit in words] or EDITS
        found = [is_found(os.path.basename(edit), lambda room: built(edit, room)) for edit in edits]
    return 0 if all(found) else 1


if __name__ == "__main__":
    sys.exit(main())
