"""Which object windows/build takes, and whether it fits Windows (fits.py).

    python3 -m unittest discover -s windows -p test_build.py
"""

import contextlib
import importlib.machinery
import importlib.util
import io
import os
import pathlib
import runpy
import shutil
import subprocess
import tempfile
import unittest
import unittest.mock

import fits

HERE = os.path.dirname(os.path.abspath(__file__))
# in the place of the kit's: a program is its object
LINK = """#!/bin/sh
while [ "$1" != -o ]; do shift; done
cp "$3" "$2"
"""


def compiled(text, flags, to):
    pathlib.Path(f"{to}.c").write_text(text, encoding="utf-8")
    subprocess.run(["gcc", "-O1", "-fcf-protection=none", "-fno-stack-protector", *flags, "-c", f"{to}.c", "-o", to], check=True)


class Build(unittest.TestCase):
    def setUp(self):
        self.room = self.enterContext(tempfile.TemporaryDirectory(prefix="a test_"))
        os.symlink(os.path.dirname(HERE), f"{self.room}/top")
        loader = importlib.machinery.SourceFileLoader("windows_build", f"{self.room}/top/windows/build")
        self.build = importlib.util.module_from_spec(importlib.util.spec_from_loader(loader.name, loader))
        loader.exec_module(self.build)
        os.makedirs(f"{self.room}/kit/bin")
        os.makedirs(f"{self.room}/kit/toolchain/bin")
        os.mkdir(f"{self.room}/new")
        with open(f"{self.room}/kit/bin/rattle-link", "w", encoding="utf-8", opener=lambda path, flags: os.open(path, flags, 0o755)) as file:
            file.write(LINK)
        for what, name, value in ((self.build, "PROVED", f"{self.room}/stmflash"), (self.build, "TOP", self.room), (self.build.rt, "KIT", f"{self.room}/kit")):
            self.enterContext(unittest.mock.patch.object(what, name, value))

    def taken(self):
        said = io.StringIO()
        with contextlib.redirect_stdout(said):
            made = self.build.proved_object(f"{self.room}/new")
        return made, said.getvalue()

    def test_the_layer_is_each_file_but_its_test(self):
        """Wherever it is."""
        self.assertEqual({os.path.basename(it) for it in self.build.LAYER}, {it for it in os.listdir(HERE) if it.endswith(".c")} - {"test_layer.c"})

    def test_takes_the_object_of_the_proved_program_alone(self):
        self.assertRaisesRegex(SystemExit, "there is no proved program", self.taken)
        compiled(Fits.FITS, [], f"{self.room}/stmflash.o")
        shutil.copy(f"{self.room}/stmflash.o", f"{self.room}/stmflash")
        said = "linked for Linux again it is stmflash, byte for byte\nits machine code is that of Linux, as it is\n"
        self.assertEqual(self.taken(), (f"{self.room}/stmflash.o", said))
        os.mkdir(f"{self.room}/bin")
        pathlib.Path(f"{self.room}/bin/stmflash").write_bytes(b"another")
        self.assertRaisesRegex(SystemExit, "stmflash.o isn't the object of bin/stmflash", self.taken)

    def test_what_is_made_takes_the_place_of_the_old_one_in_one_step(self):
        """Whoever has the old one open goes on with it, and it stays where the new one isn't made whole."""
        old, new = (pathlib.Path(self.room, name) for name in ("old", "new/a program"))
        old.write_bytes(b"old")
        os.link(old, new)
        self.assertRaises(OSError, self.build.retarget.put, new, lambda room, path: os.rename(path, room))
        self.assertEqual((os.listdir(new.parent), new.read_bytes()), ([new.name], b"old"))
        self.build.retarget.put(new, lambda room, path: pathlib.Path(path).write_bytes(b"new"))
        self.assertEqual((os.listdir(new.parent), new.read_bytes(), old.read_bytes()), ([new.name], b"new", b"old"))
        for name in ("arm64", "windows"):
            with unittest.mock.patch.multiple(self.build.retarget, asked=lambda *tools: (True, str(new)), unproved_module=lambda *words: None, compile_module=lambda *words: None):
                self.assertRaises((OSError, subprocess.CalledProcessError), runpy.run_path, f"{self.room}/top/{name}/build", run_name="__main__")
            self.assertEqual((os.listdir(new.parent), new.read_bytes()), ([new.name], b"new"), name)

    def test_one_with_a_red_zone_is_made_once_more_of_the_proofs_that_were_kept(self):
        compiled(Fits.NOT["is below the stack"][0], [], f"{self.room}/stmflash.o")
        shutil.copy(f"{self.room}/stmflash.o", f"{self.room}/stmflash")
        with unittest.mock.patch.object(self.build.retarget, "proved_crate", lambda rt: None):
            self.assertRaisesRegex(SystemExit, "what it kept is gone", self.taken)
        with unittest.mock.patch.multiple(self.build.retarget, proved_crate=lambda rt: "crate", make_proved=lambda *words: self.assertEqual(words[1], "crate")):
            made, said = self.taken()
        self.assertEqual(made, f"{self.room}/new/stmflash.o")
        self.assertIn("1 functions have a red zone: compiled once more without", said)
        self.assertIn("noredzone", pathlib.Path(f"{self.room}/new/toolchain/bin/clang").read_text(encoding="utf-8"))

    def test_what_is_linked_has_no_time_and_a_large_stack(self):
        compiled("int main(void) { return 0; }", [], f"{self.room}/a.o")
        pathlib.Path(f"{self.room}/main.c").write_text("__attribute__((sysv_abi)) int rattle_main(void);\nint main(void) { return rattle_main(); }\n", encoding="utf-8")
        with unittest.mock.patch.object(self.build, "LAYER", [f"{self.room}/main.c"]):
            self.build.link(f"{self.room}/a.o", f"{self.room}/new", f"{self.room}/a.exe")
        made = pathlib.Path(f"{self.room}/a.exe").read_bytes()
        head = int.from_bytes(made[60:64], "little")
        self.assertEqual((made[head + 8:head + 12], int.from_bytes(made[head + 96:head + 104], "little")), (bytes(4), 16 << 20))


class Fits(unittest.TestCase):
    """windows/fits.py, of functions that gcc makes here."""

    FITS = "int sum(const int *a, int n) { int s = 0; for (int i = 0; i < n; i++) s += a[i]; return s; }"
    NOT = {"is below the stack": ("int red(int a) { volatile int x[4] = {a}; return x[1] + x[a & 3]; }", []),
           "takes stack without a touch": ("void use(char *); void big(void) { char x[20000]; use(x); }", []),
           "is a thread's": ("__thread int x; int own(void) { return x; }", [])}

    def faults(self, text, flags):
        with tempfile.TemporaryDirectory() as room:
            compiled(text, flags, f"{room}/a.o")
            return fits.faults(f"{room}/a.o")

    def test_refuses_what_windows_cannot_take(self):
        for frame in ("-fomit-frame-pointer", "-fno-omit-frame-pointer"):
            self.assertEqual(self.faults(self.FITS, [frame]), [])
            for what, (text, flags) in self.NOT.items():
                self.assertIn(what, " ".join(self.faults(text, [*flags, frame])), frame)

    def test_a_frame_pointer_without_a_frame_is_any_register(self):
        self.assertEqual(list(fits.faults_of(["push   %rbp", "mov    %rdi,%rbp", "mov    -0x10(%rbp),%rax", "lea    -0x1(%rbp),%rcx", "ret"])), [])
        self.assertEqual([what for what, _ in fits.faults_of(["lea    -0x10(%rsp),%rbp", "mov    %rax,-0x8(%rbp)", "ret"])], ["is below the stack"])

    def test_takes_the_same_without_a_red_zone_and_with_touches(self):
        for frame in ("-fomit-frame-pointer", "-fno-omit-frame-pointer"):
            self.assertEqual(self.faults(self.NOT["is below the stack"][0], ["-mno-red-zone", frame]), [])
        self.assertEqual(self.faults(self.NOT["takes stack without a touch"][0], ["-fstack-clash-protection"]), [])
