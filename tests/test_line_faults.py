"""What stmflash-line says where a port can't be had or goes: one line each, with what to do (tests/line.rows has most)."""

import ast
import glob
import grp
import os
import pwd
import re
import shutil
import signal
import subprocess
import sys
import unittest

from boards import LINE, REAL, LinePlace, LineRows, end_with
from place import text_in
from rows import cases

NOBODY = 65534


def name_of(process):
    """How a process is told of."""
    with open(f"/proc/{process}/comm", encoding="utf-8") as comm:
        return f"{comm.read().strip()} (process {process})"


class Played(LineRows):
    def test_each_call(self):
        self.play_all(cases("line.rows"))


class Faults(LinePlace):
    def assertUnusable(self, port, text, *words, **more):
        self.assertLineFault(self.line(port, *(words or ("--", "true")), **more), text)

    def test_held_by_a_program_without_a_lock(self):
        self.plain()
        with open(self.path("ttyUSB0"), "rb+", buffering=0):
            self.assertUnusable("ttyUSB0", f"ttyUSB0: busy: {name_of(os.getpid())} has it")
        self.assertSilent(self.line("ttyUSB0", "--", "true"))
        # one whose name is no text
        words = ["sh", "-c", 'printf "a\\377" > /proc/$$/comm; exec 3<> "$0"; echo; read it', self.path("ttyUSB0")]
        with subprocess.Popen(words, stdin=subprocess.PIPE, stdout=subprocess.PIPE) as held:
            held.stdout.readline()
            self.assertUnusable("ttyUSB0", f"ttyUSB0: busy: a\ufffd (process {held.pid}) has it")

    def test_held_is_held_for_others(self):
        """Who opens the port while it is ours is refused, and afterwards isn't; root may always."""
        self.plain()
        # Linux: TIOCGEXCL
        script = "import array, fcntl, os, sys\nheld = array.array('i', [9])\nfcntl.ioctl(os.open(sys.argv[1], os.O_RDWR | os.O_NOCTTY), 0x80045440, held)\nprint(held[0])"
        words = [sys.executable, "-c", script, self.path("ttyUSB0")]
        holder = self.serve()
        self.assertEqual(subprocess.run(words, capture_output=True).stdout, b"1\n" if os.geteuid() == 0 else b"")
        self.assertEqual(end_with(holder, signal.SIGTERM), 0)
        self.assertEqual(subprocess.run(words, capture_output=True).stdout, b"0\n")

    def test_no_permission(self):
        """The group that would have it is named, and who has to join it."""
        self.plain()
        # a copy that everyone may read, since root has permission for everything
        shutil.copy(LINE, self.path("line"))
        shutil.copytree(os.path.join(os.path.dirname(LINE), "stmflash_line"), self.path("stmflash_line"))
        before, user = None, pwd.getpwuid(os.geteuid()).pw_name
        place = os.stat(self.path("ttyUSB0"))
        group = grp.getgrgid(place.st_gid).gr_name
        os.chmod(self.path("ttyUSB0"), 0o060)
        if os.geteuid() == 0:
            os.chmod(self.folder, 0o755)
            os.chmod(self.path("temporary"), 0o777)
            user = pwd.getpwuid(NOBODY).pw_name

            def before(number=NOBODY):
                os.setgroups([])
                os.setgid(NOBODY)
                os.setuid(number)

        told = f"no permission; group {group} has it: sudo adduser {user} {group}, and log in again"
        self.assertUnusable("ttyUSB0", "ttyUSB0: " + told, line=("line",), before=before)
        if before:
            # one of whom the system has no name
            self.assertUnusable("ttyUSB0", "ttyUSB0: " + told.replace(user, "YOU"), line=("line",), before=lambda: before(4242))
        os.chmod(self.path("ttyUSB0"), 0o000)
        owner = pwd.getpwuid(place.st_uid).pw_name
        self.assertUnusable("ttyUSB0", f"ttyUSB0: no permission; only {owner} has it", line=("line",), before=before)
        # a folder in which nothing can be made is passed over
        os.chmod(self.path("ttyUSB0"), 0o666)
        self.assertSilent(self.line("ttyUSB0", "--", "true", line=("line",), before=before, TMPDIR="/proc", TEMP=self.path("temporary")))


def template(node):
    """A text of the code, with {} for each value, and the system's reason as such."""
    if isinstance(node, ast.JoinedStr):
        return "".join(map(template, node.values))
    if isinstance(node, ast.BinOp):
        return template(node.left) + template(node.right)
    if isinstance(node, ast.Constant):
        return str(node.value)
    return "{reason}" if "strerror" in ast.unparse(node) else "{}"


class Texts(unittest.TestCase):
    """What each fault in the code of the companions says: what it is about, what is so, and in the end what to do. As the real
    stm32flash has them are those of its own texts, and behind some the usage follows."""

    ABOUT = re.compile(r"\{\}|--?\w|[A-Z]{4}|\b(port|gpioset|GPIO|stmflash|an earlier call|table|others|objcopy)\b")
    STEP = re.compile(r"(^|[:;(] )(\{\}( names another)?|[^:;(]*((?<!\S)--?\w|[A-Z]{4}|\b(apt|chmod|chown|give|hand|move|ha(s|ve) to|tells|ends at|real stm32flash)\b)[^;(]*)$")

    def texts(self):
        for path in sorted(glob.glob(os.path.join(os.path.dirname(LINE), "**", "*.py"), recursive=True)):
            for call in ast.walk(ast.parse(text_in(path))):
                if isinstance(call, ast.Call) and ast.unparse(call.func) in ("Fault", "Refused") and not call.keywords:
                    yield f"{os.path.basename(path)}:{call.lineno}", template(call.args[0])

    @unittest.skipIf(REAL is None, "stm32flash is not installed")
    def test_each_says_what_it_is_about_and_what_to_do(self):
        with open(REAL, "rb") as file:
            theirs = file.read()
        found = list(self.texts())
        self.assertGreater(len(found), 90)
        for place, text in found:
            parts = [part for part in re.split(r"\{\w*\}|\n|0x|ERROR: ", text) if re.search("[a-z]{3}", part)]
            # the last one is a user's own answer
            if "System Error" in text or all(part.encode() in theirs for part in parts) or text == "nothing was changed":
                continue
            with self.subTest(place, text=text):
                last = text.rpartition("\n")[2]
                self.assertRegex(last, self.ABOUT)
                self.assertRegex(last, self.STEP)
