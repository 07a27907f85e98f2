"""Uses the program for Windows under wine, beside the one for this machine: the same words have to have the same answers, and leave the
same files. STMFLASH names the first, a link to windows/under-wine, and STMFLASH_LINUX the other; STMFLASH_WINDOWS_KILLS is how many
kills there are.

    windows/rows --some 1 bin/stmflash-unproved-under-wine test_program
"""

import os
import pathlib
import random
import re
import shlex
import shutil
import socket
import subprocess
import sys
import tempfile
import time
import unittest

import wine

TOP = os.path.dirname(os.path.dirname(os.path.abspath(__file__)))
sys.path[:0] = [f"{TOP}/tests", f"{TOP}/line"]
HERE = os.environ.get("STMFLASH", f"{TOP}/bin/stmflash-unproved-under-wine")
LINUX = os.environ.get("STMFLASH_LINUX", f"{TOP}/bin/stmflash-unproved")
KILLS = int(os.environ.get("STMFLASH_WINDOWS_KILLS", "100"))
# the second in which a segment was begun, and how long a call took
CLOCK = re.compile(rb"\d{4}-\d\d-\d\dT\d\d:\d\d:\d\dZ|(?<=\"milliseconds\":)\d+")
# what is told behind each help
HERE_TOLD = b"""
On Windows a device is COM3, COM3:57600 or tcp:ADDRESS:PORT, in the place of a Unix socket and of stmflash-line.
Nothing was run on Windows yet, only under wine.
"""
FILES = "--table table --device sim:0412:flash --journal journal".split()
# what is called, one after the other
CALLS = [shlex.split(line.replace("@", " ".join(FILES)))[1:] for line in pathlib.Path(TOP, "windows/calls").read_text(encoding="utf-8").splitlines()[1:]]


def call(program, folder, *words, given=b"", **more):
    ran = subprocess.run(["stmflash", *words], executable=program, cwd=folder, input=given, capture_output=True, timeout=300, env={"PATH": "/usr/bin:/bin", **more})
    # the time that is left is told where a session takes seconds
    return ran.returncode, CLOCK.sub(b"-", ran.stdout), re.sub(rb", \d+ s left$", b"", ran.stderr, flags=re.MULTILINE)


def held(folder):
    """The bytes of each file below a folder, but for what a clock said."""
    return {str(it.relative_to(folder)): CLOCK.sub(b"-", it.read_bytes()) for it in pathlib.Path(folder).rglob("*") if it.is_file()}


def listens(port):
    """Whether a program on this machine waits for others at a port of TCP."""
    with open("/proc/net/tcp", encoding="ascii") as file:
        rows = [line.split() for line in file.readlines()[1:]]
    return any(row[1].endswith(f":{port:04X}") and row[3] == "0A" for row in rows)


class Place(unittest.TestCase):
    def setUp(self):
        self.random = random.Random(5)
        self.folder = self.made()

    def made(self, seed=5):
        folder = self.enterContext(tempfile.TemporaryDirectory(prefix="stmflash-"))
        chance = random.Random(seed)
        shutil.copy(f"{TOP}/chips.toml", f"{folder}/table")
        for name, size in (("image", 6000), ("other", 9000), ("flash", 32768)):
            pathlib.Path(folder, name).write_bytes(chance.randbytes(size))
        return folder


class Program(Place):
    def test_says_and_leaves_what_the_one_for_linux_does(self):
        beside = self.made()
        for words in CALLS:
            with self.subTest(words=words):
                ours, theirs = call(HERE, self.folder, *words, given=b":00000001FF\n"), call(LINUX, beside, *words, given=b":00000001FF\n")
                if words[:1] == ["help"] or {"--help", "-h"}.intersection(words):
                    theirs = (theirs[0], theirs[1] + HERE_TOLD, theirs[2])
                # of one of them it may be proved what is not of the other
                ours, theirs = ((it[0], re.sub(rb", (not )?proved.*", b"", it[1]), it[2]) for it in (ours, theirs))
                self.assertEqual(ours, theirs)
                self.assertEqual(held(self.folder), held(beside))

    def test_does_what_the_readme_shows(self):
        page = pathlib.Path(f"{TOP}/README.md").read_text(encoding="utf-8")
        block = page[page.index("    export PATH="):]
        block = block[:block.index("\n\n")]
        variables = dict(re.findall(r"(STMFLASH_\w+)=(\S+)", block))
        self.assertEqual(sorted(variables), ["STMFLASH_DEVICE", "STMFLASH_JOURNAL", "STMFLASH_TABLE"])
        os.rename(f"{self.folder}/table", f"{self.folder}/chips.toml")
        pathlib.Path(f"{self.folder}/firmware.bin").write_bytes(bytes(int(re.search(r"head -c (\d+) /dev/zero > firmware.bin", block)[1])))
        said = "".join(call(HERE, self.folder, *words.split(), **variables)[1].decode() for words in re.findall(r"^    stmflash (.*?) +#", block, re.M))
        self.assertEqual(said, "".join(f"{it}\n" for it in re.findall(r"# (.*)", block)))

    def test_a_table_lies_beside_the_program(self):
        program = f"{self.folder}/bin/stmflash"
        os.mkdir(f"{self.folder}/bin")
        os.link(os.path.realpath(HERE.replace("-under-wine", ".exe")), f"{program}.exe")
        os.symlink(f"{TOP}/windows/under-wine", f"{program}-under-wine")
        words = ("info", "--device", "sim:0412:flash", "--journal", "journal")
        self.assertNotEqual(call(f"{program}-under-wine", self.folder, *words)[0], 0)
        os.rename(f"{self.folder}/table", f"{self.folder}/bin/chips.toml")
        self.assertEqual(call(f"{program}-under-wine", self.folder, *words)[0], 0)

    def test_a_simulator_over_tcp(self):
        with socket.socket() as free:
            free.bind(("127.0.0.1", 0))
            port = free.getsockname()[1]
        place = f"tcp:127.0.0.1:{port}"
        at = ("--table", "table", "--device", place, "--journal", "journal", "--wait", "1000")
        self.assertIn(b"cannot connect", call(HERE, self.folder, "info", *at)[2])
        before = held(self.folder)["flash"]
        serve = ["stmflash", "sim", "--table", "table", "--id", "0412", "--flash", "flash", "--socket", place, "--clients", "1"]
        for words, status in ((("info", *at), 0), (("write", *at, "-v", "image"), 0), (("undo", *at, "-v"), 0)):
            with subprocess.Popen(serve, executable=HERE, cwd=self.folder, env={"PATH": "/usr/bin:/bin"}, stdout=subprocess.DEVNULL, stderr=subprocess.DEVNULL) as board:
                until = time.monotonic() + 300
                while not listens(port) and time.monotonic() < until:
                    time.sleep(0.05)
                self.assertEqual(call(HERE, self.folder, *words)[0], status, words)
                board.wait(300)
        self.assertEqual(held(self.folder)["flash"], before)

    def test_a_journal_is_found_by_each_name_that_windows_has_for_it(self):
        before, here, far = held(self.folder), "Z:" + self.folder.replace("/", "\\"), "/".join(100 * it for it in "abcd")
        os.makedirs(f"{self.folder}/{far}")
        for name, other in (("board.journal", "BOARD.Journal"), (f"{here}\\a.journal", "a.journal"), (f"\\\\?\\{here}\\b.journal", ".\\b.journal"),
                            (f"{far}/journal", f"\\\\?\\{here}\\{far}/journal".replace("/", "\\")), ("доска 名前 لوحة.journal", "./доска 名前 لوحة.journal")):
            with self.subTest(name=name):
                self.assertEqual(call(HERE, self.folder, "write", *FILES[:5], name, "image")[:2], (0, b"segment 1: 6 pages written\n"))
                self.assertNotEqual(held(self.folder)["flash"], before["flash"])
                self.assertEqual(call(HERE, self.folder, "undo", *FILES[:5], other)[:2], (0, b"undone 1\n"))
                self.assertEqual(call(HERE, self.folder, "keep", "--journal", other)[0], 0)
                self.assertEqual({it: data for it, data in held(self.folder).items() if it in before}, before)
        stands = held(self.folder)
        for name in ("CON", "con.txt", "AUX.journal", "COM1.journal", "journal:stream", "C:/a:b"):
            with self.subTest(name=name):
                self.assertNotEqual(call(HERE, self.folder, "write", *FILES[:5], name, "image")[0], 0)
                self.assertEqual(held(self.folder), stands)

    def board_at_a_port(self, port):
        """A board at a port, and what plugs it in once more: an open port is gone then."""
        import pty_boards

        board = pty_boards.PtyBoard(LINUX, f"{self.folder}/tty", "0412", f"{self.folder}/table")
        self.addCleanup(board.stop)
        link = f"{wine.PREFIX}/dosdevices/{port.lower()}"

        def plug():
            board.renew()
            if os.path.lexists(link):
                os.remove(link)
            os.symlink(os.path.realpath(f"{self.folder}/tty"), link)

        self.addCleanup(lambda: os.path.lexists(link) and os.remove(link))
        return board, plug

    AT = ("--table", "table", "--wait", "1000", "--journal", "journal", "--device")

    def test_a_board_at_a_port(self):
        board, plug = self.board_at_a_port("COM33")
        before = board.store()
        for words in (("info", *self.AT, "COM33"), ("write", *self.AT, "COM33:57600", "-v", "image"), ("undo", *self.AT, "//./COM33", "-v")):
            plug()
            said = call(HERE, self.folder, *words, "--give-up", "20")
            self.assertEqual((said[0], said[2]), (0, b""), words)
        self.assertEqual(board.store(), before)

    def test_a_port_that_is_unplugged(self):
        """Each time amid a write, where the board has got so many bytes of it. By wine a read goes on until it is given up, after 20 s."""
        board, plug = self.board_at_a_port("COM34")
        before = board.store()
        for _ in range(4):
            plug()
            board.hear(self.random.randrange(20, 6000))
            with subprocess.Popen(["stmflash", "write", *self.AT, "COM34", "--give-up", "1", "image"], executable=HERE, cwd=self.folder, env={"PATH": "/usr/bin:/bin"},
                                  stdin=subprocess.DEVNULL, stdout=subprocess.DEVNULL, stderr=subprocess.PIPE) as ran:
                while board.left and ran.poll() is None:
                    time.sleep(0.02)
                plug()
                board.hear(None)
                said = ran.communicate(timeout=300)[1]
            self.assertNotEqual(ran.returncode, 0, said)
            plug()
            if os.path.exists(f"{self.folder}/journal"):
                self.assertEqual(call(HERE, self.folder, "undo", *self.AT, "COM34", "--give-up", "20", "-v")[0], 0, said)
                os.remove(f"{self.folder}/journal")
            self.assertEqual(board.store(), before, said)


class Killed(Place):
    def killed(self, seed):
        """Writes and erases that end amid, as by TerminateProcess, and undos that end so too."""
        folder, chance = self.made(), random.Random(seed)
        before = held(folder)["flash"]
        begun = time.monotonic()
        self.assertEqual(call(HERE, folder, "write", *FILES, "image")[0], 0)
        took = time.monotonic() - begun
        self.assertEqual(call(HERE, folder, "undo", *FILES)[0], 0)
        os.remove(f"{folder}/journal")
        for kill in range(seed, KILLS, 4):
            words = chance.choice((("write", *FILES, "image"), ("erase", *FILES, "3-9"), ("write", *FILES, "-v", "other")))
            for these in (words, ("undo", *FILES))[:chance.choice((1, 1, 2))]:
                with subprocess.Popen(["stmflash", *these], executable=HERE, cwd=folder, env={"PATH": "/usr/bin:/bin"}, stdin=subprocess.DEVNULL,
                                      stdout=subprocess.DEVNULL, stderr=subprocess.DEVNULL) as ran:
                    time.sleep(chance.uniform(0, took * 1.2))
                    ran.kill()
            status, _, said = call(HERE, folder, "undo", *FILES)
            is_early = not os.path.exists(f"{folder}/journal")
            self.assertTrue(status == 0 or is_early, (kill, words, said))
            self.assertEqual(held(folder)["flash"], before, (kill, words))
            if not is_early:
                os.remove(f"{folder}/journal")


# a fourth of the kills each
for number in range(4):
    setattr(Killed, f"test_an_undo_gives_back_what_was_there_{number}", lambda self, number=number: self.killed(number))


class Rows(unittest.TestCase):
    def test_fails_where_a_test_does(self):
        ran = subprocess.run([sys.executable, "-B", f"{TOP}/windows/rows", "/bin/false", "--some", "4"], capture_output=True, text=True,
                             env={**os.environ, "STMFLASH_WINDOWS_SEED": "1", "STMFLASH_PATIENCE": "5"})
        self.assertEqual(ran.returncode, 1, ran.stderr)
        self.assertRegex(ran.stdout, r"tests: \d passed, [1-4] failed, 0 left out, on /bin/false\n\Z")
