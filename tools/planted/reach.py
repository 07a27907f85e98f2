"""Which blocks of the program and of its companions a test reaches: recorded once, where these note their blocks, in the file `reached`.

That has a row for each test with its seconds, and behind each file a row for its blocks that are reached by the same tests, with the
numbers of those, the first being 0. A fault in a block that isn't there is looked for by all tests of its function, file, or folder.
Those come first whose names have words of the fault's, or whose modules have its texts.
"""

import concurrent.futures
import contextlib
import os
import pathlib
import re
import sys
import time
import unittest

from planted import TOP, Fault, building, files, read, slips_python, slips_rattle, trees

FILE = os.path.join(TOP, "tools", "planted", "reached")
HEAD = "# Which tests reach which blocks, made by `tools/mutants --record` (reach.py)\n"
# how long a test may take, in seconds
LIMIT = 600


def words_of(text):
    """The words of a name, but for those that many have, each without what a few more letters make of it."""
    return {word[:6] for word in re.findall(r"[a-z]{4,}", text.lower())} - {"test", "that", "with", "from", "line"}


def told(numbers):
    """Numbers as ranges."""
    runs = []
    for it in sorted(numbers):
        if runs and runs[-1][1] == it - 1:
            runs[-1][1] = it
        else:
            runs.append([it, it])
    return ",".join(str(a) if a == b else f"{a}-{b}" for a, b in runs)


def read_numbers(text):
    return {it for run in text.split(",") for it in range(int(run.split("-")[0]), int(run.split("-")[-1]) + 1)}


def write(tests, reached):
    """Writes the seconds of each test, and the blocks that it reaches, each (file, block)."""
    order = sorted(tests)
    found = {}
    for number, test in enumerate(order):
        for file, block in reached[test]:
            found.setdefault(file, {}).setdefault(block, set()).add(number)
    with open(FILE, "w", encoding="utf-8") as out:
        out.write(HEAD)
        out.writelines(f"{tests[test]:.1f} {test}\n" for test in order)
        for file, blocks in sorted(found.items()):
            out.write(f": {file}\n")
            rows = {}
            for block, numbers in blocks.items():
                rows.setdefault(told(numbers), []).append(block)
            out.writelines(f"{' '.join(sorted(names))} {numbers}\n" for numbers, names in sorted(rows.items(), key=lambda row: sorted(row[1])))


class Reach:
    def __init__(self):
        self.tests, self.seconds, self.blocks, self.modules, file = [], {}, {}, {}, None
        with open(FILE, encoding="utf-8") as rows:
            for row in rows:
                word, *more = row.split()
                if word == ":":
                    file = self.blocks.setdefault(more[0], {})
                elif file is not None:
                    file.update(dict.fromkeys((word, *more[:-1]), more[-1]))
                elif word != "#":
                    self.tests.append(more[0])
                    self.seconds[more[0]] = float(word)

    def of(self, fault):
        """The tests that reach a fault, the likeliest first, and of those the quickest."""
        blocks = self.blocks.get(fault.file) or {f"{file} {name}": numbers for file, held in self.blocks.items() for name, numbers in held.items()
                                                 if os.path.dirname(file) == os.path.dirname(fault.file)}
        names = [fault.block] if fault.block in blocks else [it for it in blocks if it.split("#")[0] == fault.block.split("#")[0]] or list(blocks)
        found = set().union(*(read_numbers(blocks[name]) for name in names))
        words = words_of(f"{os.path.splitext(os.path.basename(fault.file))[0]} {fault.block}")
        texts = re.findall(r"[\"'`]([^\"'`{}\\\n]{3,})[\"'`]", fault.old)
        return sorted((self.tests[it] for it in found), key=lambda test: (-len(words & words_of(test)) - 2 * self.has(test, texts), self.seconds[test]))

    def has(self, test, texts):
        """Whether the module of a test has one of these texts, or a page that it plays."""
        module = test.split(".")[0]
        if texts and module not in self.modules:
            path = pathlib.Path(TOP, "tests", module + ".py")
            # one that was taken away since has none
            own = path.read_text(encoding="utf-8") if path.exists() else ""
            self.modules[module] = own + "".join(pathlib.Path(TOP, "tests", page).read_text(encoding="utf-8") for page in re.findall(r'"(\w+\.rows)"', own))
        return any(text in self.modules[module] for text in texts)


def notes():
    """A fault of no effect at the beginning of each block of the program."""
    found = [(file, at, block) for file in files("program") for at, block in slips_rattle.notes(read(file))]
    return [Fault("program", f"{file} {block}", file, at, at, "", "let _ = @on;\n", block, "", number) for number, (file, at, block) in enumerate(found, 1)]


def noting_companions(begin):
    """The companions' files as they note their blocks in the file `@noted`, each with its text, and (file, block) in the order of their
    numbers."""
    texts, noted = {}, []
    for file in files("companions"):
        text = read(file)
        noting, names = slips_python.recording(text, begin + len(noted), "@noted")
        noted += [(file, name) for name in names]
        texts[file] = text[:text.index("\n") + 1] * text.startswith("#!") + noting
    return texts, noted


def tests():
    def of(suite):
        return [name for it in suite for name in of(it)] if isinstance(suite, unittest.TestSuite) else [suite.id()]

    sys.path.insert(0, os.path.join(TOP, "tests"))
    return sorted(of(unittest.defaultTestLoader.discover(os.path.join(TOP, "tests"))))


def record(room, jobs):
    programs = notes()
    program, refused = building.build(programs, "noting")
    blocks = [(it.file, it.block) for it in programs]
    copies = trees.Trees(room, jobs)
    texts, noted = noting_companions(len(blocks) + 1)
    for number in range(jobs):
        top = os.path.join(room, f"tree{number}")
        for file, text in texts.items():
            pathlib.Path(top, file).write_text(text.replace("@noted", os.path.join(top, "noted")), encoding="utf-8")
    blocks += noted
    held = os.path.join(building.KEPT, os.path.basename(room))
    os.makedirs(held)
    seconds, reached = {}, {}

    def run(number, test):
        path = os.path.join(held, f"r{number}-unproved")
        os.link(program, path)
        with copies.one() as top:
            begun = time.monotonic()
            failed = trees.run(top, path, test, LIMIT)
            took, numbers = time.monotonic() - begun, set()
            for file in (f"{path}.reached", os.path.join(top, "noted")):
                with contextlib.suppress(FileNotFoundError):
                    numbers |= set(map(int, pathlib.Path(file).read_text(encoding="utf-8").split()))
                    os.remove(file)
        os.remove(path)
        # a line may be torn where a test lets no file grow
        return test, took, {blocks[it - 1] for it in numbers if it <= len(blocks)}, failed

    with concurrent.futures.ThreadPoolExecutor(jobs) as pool:
        for ran in concurrent.futures.as_completed([pool.submit(run, *it) for it in enumerate(tests())]):
            test, took, found, failed = ran.result()
            if not failed:
                seconds[test], reached[test] = took, found
            if len(seconds) % 50 == 0:
                write(seconds, reached)
            print(f"{'failed' if failed else 'passed'} {took:5.1f} s  {test}: {len(found)} blocks", flush=True)
    os.rmdir(held)
    write(seconds, reached)
    print(f"tools/mutants: {len(seconds)} tests, {len(set().union(*reached.values()))} blocks of {len(blocks)} reached, {len(refused)} can't be noted")
