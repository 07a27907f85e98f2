"""Where faults stand while tests look for them: copies of the tree with one fault at a time, or the program with one switched on."""

import compileall
import contextlib
import os
import pathlib
import py_compile
import queue
import re
import shutil
import signal
import subprocess
import sys
import tempfile

from planted import TOP, is_python

# the program that `rt ci` leaves, without which the package of stm32flash's words can't be tried
PROVED = os.path.join(TOP, "crates", "stmflash", "out", "stmflash")
# what no test of the companions, layers and packages looks at, and of it what a package is made by
TEXT = "crates/stm_words/src/command_set.rt"
LEFT_OUT = ("bin", "crates", "out", ".git", "__pycache__", "trials")
# the tests that can't run here, as for want of a tool
left_out = set()
# how long a call of the program may take in a test, in seconds
PATIENCE = os.environ.get("STMFLASH_PATIENCE", "30")
# the tests of a file of a layer or a package, which no reach is recorded of
LAYER, PACKAGE = "web/test_layer.Layer.", "test_packaging.Packaging."
BESIDE = {
    "arm64/layer.c": ["arm64/test_layer.Layer.test_on_this_machine"],
    "web/memory.c": [LAYER + "test_memory"],
    "windows/": ["windows/test_layer.Layer.test_holds"],
    "web/page/": [LAYER + it for it in ("test_the_page", "test_wirings_are_those_of_stmflash_line", "test_images_are_those_of_objcopy")],
    "packaging/completions/": ["test_completions"],
    "packaging/stmflash-line@.service": ["test_packaging", "test_line_service.Unit", "test_line_parts.Called.test_the_unit_is_confined"],
    "packaging/70-stmflash.rules": ["test_packaging"],
    "packaging/deb-as-stm32flash": ["test_packaging", "sh packaging/try-deb-as-stm32flash"],
    "packaging/": ["test_packaging", "sh packaging/try-deb --unproved"],
    "Makefile": ["test_packaging", "test_line_service.Unit", "sh packaging/try-deb --unproved", "sh packaging/try-deb-as-stm32flash"],
}


def tests_beside(file):
    """The tests of a file that isn't of the program or the companions."""
    tests = next((tests for start, tests in BESIDE.items() if file.startswith(start)), [])
    return [it for it in tests if not it.startswith("sh ") or "--unproved" in it or os.path.exists(PROVED)]


class Trees:
    """Copies of the tree, each for one fault at a time."""

    def __init__(self, room, count):
        self.free = queue.Queue()
        tops = [os.path.join(room, f"tree{number}") for number in range(count)]
        shutil.copytree(TOP, tops[0], ignore=shutil.ignore_patterns(*LEFT_OUT), symlinks=True)
        os.makedirs(os.path.join(tops[0], os.path.dirname(TEXT)))
        shutil.copy2(os.path.join(TOP, TEXT), os.path.join(tops[0], TEXT))
        # half of what a call takes is to compile its modules; what a module is of is looked at by its text, and not by its time
        compileall.compile_dir(tops[0], quiet=2, invalidation_mode=py_compile.PycInvalidationMode.CHECKED_HASH)
        for top in tops[1:]:
            shutil.copytree(tops[0], top, symlinks=True)
        for top in tops:
            self.free.put(top)

    @contextlib.contextmanager
    def one(self):
        top = self.free.get()
        try:
            yield top
        finally:
            self.free.put(top)

    @contextlib.contextmanager
    def having(self, fault):
        """A tree with this fault, or with none."""
        with self.one() as top:
            if fault is None or fault.group == "program":
                yield top
                return
            path = os.path.join(top, fault.file)
            text = pathlib.Path(path).read_text(encoding="utf-8")
            try:
                pathlib.Path(path).write_text(text[:fault.start] + fault.new + text[fault.end:], encoding="utf-8")
                yield top
            finally:
                pathlib.Path(path).write_text(text, encoding="utf-8")


def stands(top, fault):
    """Whether what a fault leaves is still a source of its kind."""
    path = os.path.join(top, fault.file)
    text = pathlib.Path(path).read_text(encoding="utf-8")
    if is_python(fault.file):
        try:
            compile(text, path, "exec")
        except SyntaxError:
            return False
        return True
    compiler = "x86_64-w64-mingw32-gcc" if fault.file.startswith("windows/") else "gcc"
    words = {".c": [compiler, "-fsyntax-only", "-w"], ".js": ["node", "--check"]}.get(os.path.splitext(path)[1]) or \
        (["bash", "-n"] if text.startswith("#!") or path.endswith(".bash") else None)
    return words is None or subprocess.run([*words, path], capture_output=True).returncode == 0


def call(words, folder, program, limit, given=()):
    """What a call of tests says, or None where it didn't end in time, and its status; with these variables."""
    # where a program is, the tests make files that others may not meet
    with tempfile.TemporaryDirectory(prefix="planted-") as room:
        # a test of rights goes there as another user
        os.chmod(room, 0o755)
        # a package that is tried needn't be small
        variables = {"WINEPREFIX": f"{TOP}/bin/wine", **os.environ, "STMFLASH": program, "STMFLASH_PATIENCE": PATIENCE, "TMPDIR": room,
                     "DPKG_DEB_COMPRESSOR_LEVEL": "0", **dict(given)}
        # in the session of the call: Linux shares processors out by sessions first, and by priorities within each
        ran = subprocess.Popen(words, cwd=folder, env=variables, stdin=subprocess.DEVNULL, stdout=subprocess.PIPE, stderr=subprocess.STDOUT,
                               text=True, errors="replace", process_group=0)
        try:
            said, _ = ran.communicate(timeout=limit)
            return said, ran.returncode
        except subprocess.TimeoutExpired:
            return None, 1
        finally:
            with contextlib.suppress(ProcessLookupError):
                os.killpg(ran.pid, signal.SIGKILL)
            ran.communicate()


def run(top, program, test, limit):
    """Runs a test in a tree: None where it passes, or the name of what failed, "" where it can't be told, and what it said. A page of rows
    is named with the row that failed, which a variable tells it. A test's name may have its folder before it, or variables, and may stand
    for all of a class or a module; one that begins with sh is a call of that."""
    *given, name = test.split()
    folder, _, name = name.rpartition("/")
    words, place = [sys.executable, "-B", "-m", "unittest", "-f", name], os.path.join(top, folder or "tests")
    if is_call := given[:1] == ["sh"]:
        words, place, given = [*test.split(), program if "--unproved" in test else PROVED], top, []
    said, status = call(words, place, program, limit, [it.split("=", 1) for it in given])
    if said is None:
        return "", "hangs"
    counts = re.findall(r"^Ran (\d+) tests?|skipped=(\d+)", said, re.M)
    if len(counts) == 2 and counts[0][0] == counts[1][1]:
        left_out.add(test)
    if not status or is_call:
        return (test, said) if status else None
    failed = re.search(r"^(?:FAIL|ERROR): \S+ \((.*?)\)(?: \(title=(['\"])([^\\\n]*)\2\)$)?", said, re.M)
    if failed is None:
        return "", said
    row = [f"STMFLASH_ROW={failed[3].replace(' ', '_')}"] if failed[3] and not given else []
    return " ".join([*given, *row, folder + "/" * bool(folder) + failed[1]]), said
