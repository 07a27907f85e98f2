"""Tries arm64/layer.c on this machine, as 64-bit ARM code under qemu, and with faults planted; the kit's own functions; and how a program is
linked with it.

    python3 -m unittest discover -s arm64

test_layer.c says what each function has to do. That the kit's own ones do it too shows that this is what the kit asks.
"""

import contextlib
import os
import pathlib
import re
import runpy
import shutil
import subprocess
import sys
import tempfile
import types
import unittest

HERE = os.path.dirname(os.path.abspath(__file__))
sys.path.insert(0, f"{HERE}/../tools")

import slips

ENVIRONMENT = {"FIRST": "one", "EMPTY": ""}
WORDS = ["word", "", "two words"]
STRICT = ["-O2", "-Wall", "-Wextra", "-Werror"]
FAULTS = list(slips.read(pathlib.Path(f"{HERE}/slips").read_text(encoding="utf-8")))


class Layer(unittest.TestCase):
    def setUp(self):
        folder = self.enterContext(tempfile.TemporaryDirectory())
        self.program, self.changed = f"{folder}/test_layer", f"{folder}/layer.c"

    def run_over(self, layer, compiler="gcc", before=(), flags=STRICT):
        for tool in (compiler, *before[:1]):
            if shutil.which(tool) is None:
                self.skipTest(f"there is no {tool}")
        subprocess.run([compiler, *flags, "-o", self.program, f"{HERE}/test_layer.c", *layer], check=True)
        words = [*before, self.program, *WORDS]
        return subprocess.run(words, executable=shutil.which(words[0]), env=ENVIRONMENT, capture_output=True, text=True, timeout=60)

    def assertHolds(self, ran):
        self.assertEqual((ran.returncode, ran.stderr), (0, ""), ran.stdout[:2000])
        self.assertRegex(ran.stdout, r"\A(\d{4}) of \1 hold\n\Z")

    def test_of_the_kit(self):
        """Its functions are for x86-64."""
        rt = shutil.which("rt")
        if rt is None or os.uname().machine != "x86_64":
            self.skipTest("there is no kit for this machine")
        folder = os.path.dirname(os.path.dirname(os.path.realpath(rt)))
        self.assertHolds(self.run_over([f"{folder}/c/libos_c.a", f"{folder}/c/liblibc_c.a"]))

    def test_on_this_machine(self):
        self.assertHolds(self.run_over([f"{HERE}/layer.c"]))

    def test_under_qemu(self):
        qemu = ("qemu-aarch64", "-L", "/usr/aarch64-linux-gnu")
        self.assertHolds(self.run_over([f"{HERE}/layer.c"], "aarch64-linux-gnu-gcc", qemu))

    def test_finds_each_fault(self):
        text = pathlib.Path(f"{HERE}/layer.c").read_text(encoding="utf-8")
        for name, _, _, old, new in FAULTS:
            with self.subTest(name):
                self.assertEqual(text.count(old), 1)
                pathlib.Path(self.changed).write_text(text.replace(old, new), encoding="utf-8")
                self.assertNotEqual(self.run_over([self.changed], flags=["-O2", "-w"]).returncode, 0)


class Build(unittest.TestCase):
    def test_links_what_is_asked_for_as_the_kit_does(self):
        """And nothing where the layer lacks a name, or has one more."""
        build = types.SimpleNamespace(**runpy.run_path(f"{HERE}/build"))
        if shutil.which(build.COMPILER) is None:
            self.skipTest(f"there is no {build.COMPILER}")
        room = self.enterContext(tempfile.TemporaryDirectory())
        made, program = f"{room}/made.o", f"{room}/program"
        names = sorted(set(re.findall(r"^\w.*\b(rattle_\w+)\(", pathlib.Path(f"{HERE}/layer.c").read_text(encoding="utf-8"), re.MULTILINE)))
        for asked, ends in ((names[1:], self.assertRaises(SystemExit)), ([*names, "rattle_more"], self.assertRaises(SystemExit)), (names, contextlib.nullcontext())):
            text = "".join(f"void {it}(void);\n" for it in asked) + f"int main(void) {{ {''.join(f'{it}(); ' for it in asked)}return 0; }}\n"
            subprocess.run([build.COMPILER, "-fPIE", "-c", "-x", "c", "-o", made, "-"], input=text.encode(), check=True)
            with ends:
                build.link(made, f"{room}/layer.o", program)
        told = subprocess.run(["readelf", "-dlW", program], capture_output=True, text=True, check=True).stdout
        # anywhere, its tables of calls bound and sealed at the start, and no code on the stack
        for it in (r"file type is DYN", r"FLAGS_1.* NOW PIE", r"GNU_RELRO", r"GNU_STACK .* RW +0x"):
            self.assertRegex(told, it)
