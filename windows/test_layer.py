"""Tries windows/*.c under wine, sound and with each of many planted faults.

    python3 -m unittest discover -s windows -p test_layer.py

test_layer.c says what each function has to do. What of Windows it takes down, and what wine hasn't (a name as POSIX takes it), it
answers itself.
"""

import concurrent.futures
import glob
import hashlib
import itertools
import os
import pathlib
import random
import re
import subprocess
import sys
import tempfile
import termios
import threading
import time
import tty
import unittest

HERE = os.path.dirname(os.path.abspath(__file__))
sys.path.insert(0, f"{HERE}/../tools")

import retarget
import slips
import wine

COMPILER = "x86_64-w64-mingw32-gcc"
STRICT = ["-O2", "-Wall", "-Wextra", "-Werror", "-mno-red-zone"]
# the functions that test_layer.c has in the place of Windows' own
INSTEAD = sorted(set(re.findall(r"\btried_(\w+)\(", pathlib.Path(f"{HERE}/test_layer.c").read_text(encoding="utf-8"))))
VARIABLES = {"FIRST": "one", "EMPTY": "", **{f"SAID_{it}": os.strerror(it) for it in range(1, 112)}}
ASKED_BITS = termios.CSIZE | termios.CSTOPB
WORDS = ["--wiring", "none", "--baud=9600", "word", "", "zwei Wörter", "--wirings=x", "a\\b", "--baud", "57600", "--wiring=none", "help", "end"]
LAST = ["--wiring=dtr-reset,rts-boot0", "--wiring"]
FAULTS = list(slips.read(pathlib.Path(f"{HERE}/slips").read_text(encoding="utf-8")))

# how many go on at once, which mostly wait; those whose names begin so, or all; how many of these, if not all; and by which seed
AT_ONCE = 6
ONLY, SOME = os.environ.get("STMFLASH_WINDOWS_FAULT", ""), int(os.environ.get("STMFLASH_WINDOWS_FAULTS", "0"))
SEED = int(os.environ.get("STMFLASH_WINDOWS_SEED", "0")) or random.SystemRandom().randrange(1, 1 << 30)


class Port:
    """A port of wine: a pseudo-terminal, behind which somebody answers 7F by 79, and m by 12345. `settings` are those that it had with each 7F."""

    numbers = itertools.count(os.getpid() * 100)

    def __init__(self):
        self.master, self.slave = os.openpty()
        tty.setraw(self.slave)
        # as a program before may have left it
        left = termios.tcgetattr(self.slave)
        left[0], left[2] = left[0] | termios.IXON | termios.IXOFF, left[2] | termios.CSTOPB
        termios.tcsetattr(self.slave, termios.TCSANOW, left)
        self.name, self.settings = f"COM{next(Port.numbers)}", []
        self.link = f"{wine.PREFIX}/dosdevices/{self.name.lower()}"
        if os.path.lexists(self.link):
            os.remove(self.link)
        os.symlink(os.ttyname(self.slave), self.link)
        threading.Thread(target=self.answer, daemon=True).start()

    def answer(self):
        while True:
            came = os.read(self.master, 64)
            if b"\x7f" in came:
                self.settings.append(termios.tcgetattr(self.slave))
            os.write(self.master, b"\x79" * (b"\x7f" in came) + b"12345" * (b"m" in came))

    def close(self):
        os.remove(self.link)


class Layer(unittest.TestCase):
    @classmethod
    def setUpClass(cls):
        wine.begin()
        sources = {os.path.basename(source): source for source in sorted(glob.glob(f"{HERE}/*.c"))}
        with concurrent.futures.ThreadPoolExecutor(AT_ONCE) as pool:
            cls.objects = dict(zip(sources, pool.map(cls.compiled, sources.values())))
        cls.patience, begun = 900, time.monotonic()
        cls.sound = cls.ran(cls.objects)
        # a layer that waits for ever is one that takes five times as long, on a machine as busy as this one
        cls.patience = 20 + 5 * (time.monotonic() - begun)

    @classmethod
    def compiled(cls, source, flags=()):
        """A file's object, which stays beside wine's settings for the next call that wants one of the same text."""
        words = [] if source.endswith("test_layer.c") else [f"-D{name}=tried_{name}" for name in INSTEAD]
        words = [COMPILER, *STRICT, *flags, *words, "-c"]
        of = hashlib.sha256(repr([words, *(pathlib.Path(it).read_bytes() for it in (source, f"{HERE}/layer.h"))]).encode()).hexdigest()
        if not os.path.exists(made := f"{wine.PREFIX}/{of}.o"):
            retarget.put(made, lambda room, path: subprocess.run([*words, f"-I{HERE}", source, "-o", path], check=True))
        return made

    @classmethod
    def ran(cls, objects):
        """What the test says of a layer of these objects, in a folder of its own, with two ports; and to what speed and bits these were set."""
        ports = [Port(), Port()]
        try:
            with tempfile.TemporaryDirectory() as room:
                program = f"{room}/test_layer.exe"
                subprocess.run([COMPILER, "-o", program, *objects.values(), "-lws2_32", "-ladvapi32", "-lntdll"], check=True)
                os.mkdir(f"{room}/empty")
                ran = wine.run([program, *WORDS, *(it.name for it in ports), *LAST], cwd=f"{room}/empty", env=VARIABLES, timeout=cls.patience)
        finally:
            for port in ports:
                port.close()
        return ran, [(it[4], it[2] & ASKED_BITS) for port in ports for it in port.settings]

    SET = [(termios.B57600, termios.CS8), (termios.B19200, termios.CS8)]

    def test_holds(self):
        ran, were = self.sound
        self.assertEqual((ran.returncode, were), (0, self.SET), ran.stdout[:2000])
        self.assertRegex(ran.stdout, r"\A(\d{4}) of \1 hold\s*\Z")

    def found(self, name, fault, old, new):
        """What is wrong where a fault is planted and not found; None: it is found. One that crashes may end with 0, and says no count."""
        text = pathlib.Path(f"{HERE}/{name}").read_text(encoding="utf-8")
        if text.count(old) != 1:
            return f"{name}, {fault}: the text is there {text.count(old)} times"
        with tempfile.TemporaryDirectory() as room:
            pathlib.Path(f"{room}/{name}").write_text(text.replace(old, new), encoding="utf-8")
            try:
                ran, were = self.ran({**self.objects, name: self.compiled(f"{room}/{name}", ["-w"])})
            except subprocess.TimeoutExpired:
                return None
        return None if ran.returncode or were != self.SET or " hold" not in ran.stdout else f"{name}, {fault}: not found"

    def test_finds_each_fault(self):
        planted = [(file, name, old, new) for name, file, _, old, new in FAULTS if name.startswith(ONLY)]
        print(f"windows/test_layer: seed {SEED}", flush=True)
        with concurrent.futures.ThreadPoolExecutor(AT_ONCE) as pool:
            going = [pool.submit(self.found, *it) for it in random.Random(SEED).sample(planted, min(SOME or 999, len(planted)))]
            self.assertEqual([it for it in (one.result() for one in going) if it], [])


class Page(unittest.TestCase):
    def test_the_readme_says_how_many_lines_are_trusted(self):
        said = re.search(r"([0-9,]+) lines of C \(\[docs/LINE.md\]", pathlib.Path(f"{HERE}/../README.md").read_text(encoding="utf-8"))[1]
        count = sum(pathlib.Path(it).read_bytes().count(b"\n") for it in {*glob.glob(f"{HERE}/*.[ch]")} - {f"{HERE}/test_layer.c"})
        self.assertEqual(said, f"{count:,}")
        self.assertLess(count, 1100)
