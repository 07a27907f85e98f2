"""The recipes of docs/LINE.md for make, CMake and a test bench: run as they stand there, on a served board, and of those for PlatformIO and
Arduino that their calls are calls."""

import re
import shlex
import shutil
import subprocess
import unittest

from boards import LINE, PYTHON
from place import COUNTING, PATIENCE, text_in
from test_line_elf import WRITTEN, elf
from test_line_journals import RUNNER, Unnamed


def recipe(first):
    """The block of the page whose first line this is."""
    lines = text_in("docs", "LINE.md").split("\n")
    at = lines.index("    " + first)
    end = next(number for number in range(at, len(lines)) if lines[number] and not lines[number].startswith("    "))
    return "\n".join(line[4:] for line in lines[at:end]).rstrip() + "\n"


@unittest.skipIf(shutil.which("objcopy") is None, "binutils is not installed")
class Recipes(Unnamed):
    def setUp(self):
        super().setUp()
        self.store_all({"firmware.elf": elf(), "runner": RUNNER.encode()})
        port = [(self.path("ttyUSB0"), "USB UART")]
        self.script("bin/stmflash-line", f'exec {PYTHON} -c "$(cat {self.path("runner")})" {shlex.quote(repr(port))} {LINE} "$@"')
        self.given = self.telling()

    def run_here(self, *words, **settings):
        return subprocess.run(words, cwd=self.folder, env={**self.settings(), "TMPDIR": self.path("temporary"), **settings}, timeout=PATIENCE,
                              stdin=subprocess.DEVNULL, capture_output=True, text=True, check=False)

    def assertFlash(self, ran, flash, status=0):
        self.assertEqual((ran.returncode, self.given.store()), (status, flash), ran)

    @unittest.skipIf(shutil.which("make") is None, "make is not installed")
    def test_make(self):
        self.store("Makefile", recipe("flash: firmware.elf").encode())
        self.assertFlash(self.run_here("make", "flash"), WRITTEN)
        self.assertFlash(self.run_here("make", "unflash", "PORT=./ttyUSB0"), COUNTING)

    @unittest.skipIf(shutil.which("cmake") is None, "cmake is not installed")
    def test_cmake(self):
        head = "cmake_minimum_required(VERSION 3.16)\nproject(firmware NONE)\nadd_custom_target(firmware)\n"
        text = recipe('set(PORT "" CACHE STRING "the board\'s port; without it the only one")')
        self.assertIn("$<TARGET_FILE:firmware>", text)
        self.store("CMakeLists.txt", (head + text.replace("$<TARGET_FILE:firmware>", self.path("firmware.elf"))).encode())
        self.assertEqual(self.run_here("cmake", "-S", ".", "-B", "build").returncode, 0)
        self.assertFlash(self.run_here("cmake", "--build", "build", "--target", "flash"), WRITTEN)
        self.assertEqual(self.run_here("cmake", "-S", ".", "-B", "build", f"-DPORT={self.path('ttyUSB0')}").returncode, 0)
        self.assertFlash(self.run_here("cmake", "--build", "build", "--target", "unflash"), COUNTING)

    def test_a_bench(self):
        """The board is as before, whatever the test answered, and whether the write came to its end."""
        self.store("with-firmware", recipe("#!/bin/sh").encode())
        self.assertIn(b"# with-firmware IMAGE COMMAND..", self.held("with-firmware"))
        self.script("bin/look", f'stmflash-line read -S 0x08000400:20 {self.path("seen")} && exit "$1"')
        for status, settings in ((0, {}), (7, {"STMFLASH_JOURNAL": ""})):
            self.assertFlash(self.run_here("sh", "with-firmware", "firmware.elf", "look", str(status), **settings), COUNTING, status)
            self.assertFile("seen", WRITTEN[1024:1044])
        # what can't be written isn't tested, and what a call that was killed has left is given back
        self.store("firmware.elf", elf(0x08100000))
        self.remove("seen")
        self.assertEqual(self.run_here("stmflash-line", "write", "fw.bin", STMFLASH_JOURNAL="bench.journal").returncode, 0)
        self.assertFlash(self.run_here("sh", "with-firmware", "firmware.elf", "look", "0"), COUNTING, 1)
        self.assertFalse(self.is_there("seen"))

    def test_calls_of_others(self):
        """PlatformIO and Arduino put the port and the file into them."""
        lines = recipe("upload_protocol = custom") + recipe("tools.stmflash.cmd=stmflash-line")
        calls = re.findall(r"^(?:upload_command = |tools\.stmflash\.upload\.pattern=)(.*)$", lines, re.M)
        self.assertEqual(len(calls), 2)
        self.store("project.hex", b":020000040800F2\n:04040000DEADBEEFC0\n:00000001FF\n")
        puts = {"$UPLOAD_PORT": "./ttyUSB0", "$SOURCE": "project.hex", "{cmd}": "stmflash-line", "{serial.port}": "./ttyUSB0",
                "{build.path}": ".", "{build.project_name}": "project"}
        for call in calls:
            for name, value in puts.items():
                call = call.replace(name, value)
            self.assertNotRegex(call, r"[{$]")
            self.assertFlash(self.run_here("sh", "-c", call), COUNTING[:1024] + b"\xde\xad\xbe\xef" + COUNTING[1028:])
            self.assertFlash(self.run_here("stmflash-line", "undo", "--to-change"), COUNTING)
