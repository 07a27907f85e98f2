"""The commands of the README, taken from the page: in a clean clone they run word for word, as root and as a normal user, and print
what it says. Of docs/LINE.md two recipes."""

import os
import re
import shutil
import subprocess

from boards import LinePlace
from place import COUNTING, PATIENCE, TOP, WAIT, Place, program, text_in
from test_packaging import INSTALLED
from test_plain import MANUALS, plain

# four bytes at the flash's first address
HEX = b":020000040800F2\r\n:0400000001020304F2\r\n:00000001FF\r\n"


def page(name="README.md"):
    return text_in(name)


def blocks(name="README.md"):
    """The blocks of commands of the README, or of another page, each as its lines."""
    return [re.sub(r"^    ", "", it, flags=re.M) for it in re.findall(r"(?:^    .*\n)+", page(name), re.M)]


def told(block):
    """What a block says that is printed: the words behind its signs of comment."""
    return "".join(f"{it}\n" for it in re.findall(r"# (.*)", block))


# what stands in for rt, which proves nothing here, and for Debian's own: fish isn't there, and no call installs it
STAND_INS = {"rt": "exit 0", "dpkg-query": '[ "$4" = fish ] || echo installed', "apt-get": 'echo "$@" >> "$HOME/installed"'}
# nobody: a user that may do nothing
NOBODY = 65534


class Clone:
    """A clean clone in the folder of a test, for a user: whoever runs the tests, or a normal one."""

    user = os.geteuid()

    def clone(self):
        if self.user != os.geteuid() != 0 or self.user == NOBODY and program().endswith("-under-qemu"):
            self.skipTest("only root becomes another user")
        os.makedirs(self.path("home/temporary"))
        subprocess.run(["git", "clone", "-q", TOP, self.path("clone")], check=True, timeout=PATIENCE)
        if program().endswith("-under-qemu"):
            self.script("program", f'exec {program()} "$@"')
        else:
            shutil.copy(program(), self.path("program"))
        os.mkdir(self.path("stand-ins"))
        for name, text in STAND_INS.items():
            self.script(os.path.join("stand-ins", name), text)

    def run_blocks(self, *texts):
        """What each block prints, one after the other in one shell, and what all say on standard error."""
        script, rights = "".join(text + "printf '\\001'\n" for text in texts), {}
        if self.user != os.geteuid():
            rights = {"user": self.user, "group": self.user, "extra_groups": []}
            for folder, folders, names in os.walk(self.folder):
                for name in (".", *folders, *names):
                    os.chown(os.path.join(folder, name), self.user, self.user, follow_symlinks=False)
        variables = {"PATH": self.path("stand-ins") + ":" + os.environ["PATH"], "HOME": self.path("home"),
                     "TMPDIR": self.path("home/temporary"), "STMFLASH_WAIT": WAIT}
        ran = subprocess.run(["bash", "-eu", "-c", script], cwd=self.path("clone"), env=variables, timeout=3 * PATIENCE, stdin=subprocess.DEVNULL,
                             capture_output=True, text=True, **rights)
        self.assertEqual(ran.returncode, 0, ran.stderr)
        self.assertEqual(os.listdir(self.path("home/temporary")), [])
        said = ran.stdout.split("\1")
        self.assertEqual((len(said), said[-1]), (len(texts) + 1, ""))
        return *said[:-1], ran.stderr


class Blocks(Clone, Place):
    def test_each_block_in_a_clean_clone(self):
        """All but those of a port. What builds the program, and what runs the tests, are stand-ins."""
        made, used = [it for it in blocks() if "/dev/tty" not in it]
        self.assertEqual([it.split("#")[0].strip() for it in made.splitlines()], ["make demo", "make tests"])
        self.clone()
        self.script("clone/tools/try-unproved", f'shift 3\ncp {self.path("program")} "$TMPDIR/program"\nexec "$TMPDIR/program" "$@"')
        self.store("clone/tests/run", b"import sys\nprint(*sys.argv[1:], sep=', ')\n")
        built, said, err = self.run_blocks(made, used)
        self.assertIn("The flash is what it was before, byte for byte, both times.\n", built)
        self.assertTrue(built.endswith("\nbin/stmflash-unproved, --without, only root, isn't allowed, can't trace here, fish\n"), built)
        self.assertEqual(err, "not installed here, so that tests are left out, each by name; for them: sudo apt-get install fish \n")
        self.assertEqual(self.held("home/installed"), b"update -qq\ninstall -y -qq --no-install-recommends fish\n" if self.user == 0 else None)
        self.assertEqual(said, told(used))


class Demo(Clone, Place):
    def test_it_fails_where_the_program_does(self):
        """Where none is built, where info fails, and where any other of its calls does nothing."""
        self.clone()
        self.script("clone/tools/try-unproved", f'shift 3\nexec {self.path("program")} "$@"')
        for number, status in ((1, 1), (3, 1), (4, 0), (5, 0), (6, 0), (7, 0)):
            self.store("calls", b"")
            self.script("program", f"""echo >> {self.path("calls")}; [ "$(wc -l < {self.path("calls")})" != {number} ] || {{ echo "at $PWD"; exit {status}; }}
                [ "$1" != sim ] || cp "$0" "$TMPDIR/program"; exec {program()} "$@\"""")
            ran = subprocess.run(["sh", "tools/demo.sh"], cwd=self.path("clone"), env={**os.environ, "PATH": f"{self.path('stand-ins')}:{os.environ['PATH']}"},
                                 timeout=PATIENCE, capture_output=True, text=True)
            self.assertEqual((ran.returncode, number > 1 or f"\nat {self.path('clone')}/crates/stmflash\n" in ran.stdout), (1, True), (number, ran.stdout))

    def test_it_says_what_it_lacks(self):
        """Without rt one line says so, and where it comes from; nothing is built."""
        os.mkdir(self.path("bin"))
        for name in ("sh", "dirname", "python3"):
            os.symlink(shutil.which(name), self.path(f"bin/{name}"))
        ran = subprocess.run(["sh", f"{TOP}/tools/demo.sh"], env={"PATH": self.path("bin")}, capture_output=True, text=True)
        self.assertEqual((ran.returncode, ran.stdout, ran.stderr), (1, "", 'make demo: there is no rt on the path (README, "Build, install, test")\n'))


class Readme(Place):
    def test_behind_make(self):
        """`make` leaves in bin what the demo leaves in bin/unproved."""
        self.assertIn("\tmkdir -p bin && cp crates/stmflash/out/stmflash bin/stmflash\n"
                      "\tln -sf ../line/stmflash-line ../line/stmflash-trial bin\n", page("Makefile"))

    def test_the_gate_is_make_test(self):
        self.assertRegex(page(".ci/run").splitlines()[-1], r"^exec make --no-print-directory test ")
        self.assertIn("**`make test` is the gate**, which `.ci/run` calls", page())

    def test_it_is_short(self):
        lines = page().splitlines()
        self.assertLessEqual(len(lines), 130)
        self.assertLess(len(" ".join(lines[:60]).split()), 350)


class ARealBoard(Clone, LinePlace):
    """What the README says of a port: there a pseudo-terminal with a simulated board behind it."""

    def test_a_write_and_its_undo(self):
        paths = "".join(it + "\n" for block in blocks() for it in block.splitlines() if it.startswith("export "))
        (both,) = [it.replace("/dev/", self.folder + "/") for it in blocks() if "/dev/tty" in it]
        self.clone()
        os.makedirs(self.path("clone/bin/unproved"))
        for name, leads in (("stmflash", self.path("program")), *((it, f"../../line/{it}") for it in ("stmflash-line", "stmflash-trial"))):
            os.symlink(leads, self.path(f"clone/bin/unproved/{name}"))
        self.store_all({"clone/firmware.hex": HEX, "ttyUSB0.flash": COUNTING})
        board = self.board()
        os.chown(os.path.realpath(self.path("ttyUSB0")), self.user, -1)
        _, written, undone, err = self.run_blocks(paths, *(it + "\n" for it in both.splitlines()))
        self.assertEqual((written, undone, err), ("segment 1: 1 pages written\nverified 4 bytes\n", "undone 1, 1024 bytes verified\n", ""))
        self.assertEqual(board.store(), COUNTING)


class BlocksAsANormalUser(Blocks):
    user = NOBODY


class ARealBoardAsANormalUser(ARealBoard):
    user = NOBODY


class Manuals(Place):
    """What the manual pages show and name."""

    def test_examples_fit_a_terminal(self):
        """Of 80 columns, of which man takes seven at the left and one at the right."""
        for name in MANUALS:
            for block in re.findall(r"^\.nf\n(.*?)^\.fi$", page(name), re.M | re.S):
                self.each(block.splitlines(), lambda line: self.assertLessEqual(len(plain(line)), 72))

    def test_the_pages_that_they_name_are_installed(self):
        named = {it for name in MANUALS for it in re.findall(r"\b(?:[A-Z]+\.md|\w+\.schema\.json)\b", page(name))}
        self.assertEqual(INSTALLED["share/doc/stmflash/"].split(), [f"docs/{it}" for it in sorted(named)])

    def test_the_examples_run(self):
        """Those of stmflash(1) but for the last, one after the other, at a simulator that they serve."""
        first = re.findall(r"^\.SH EXAMPLES\n\.nf\n(.*?)^\.fi$", page("stmflash.1"), re.M | re.S)[0]
        os.mkdir(self.path("bin"))
        os.symlink(program(), self.path("bin/stmflash"))
        os.symlink(os.path.join(TOP, "chips.toml"), self.path("chips.toml"))
        self.store("firmware.hex", HEX)
        text = plain(first).replace("export STMFLASH_DEVICE=board\n", "until [ -S board ]; do sleep 0.05; done\nexport STMFLASH_DEVICE=board\n")
        ran = subprocess.run(["sh", "-eu", "-c", text + "wait\n"], cwd=self.folder, env={"PATH": self.path("bin") + ":" + os.environ["PATH"]},
                             timeout=PATIENCE, stdin=subprocess.DEVNULL, capture_output=True, text=True)
        self.assertEqual((ran.returncode, ran.stderr), (0, ""))
        self.assertTrue(ran.stdout.startswith("id 0412\n"), ran.stdout)
        self.assertTrue(ran.stdout.endswith("segment 1: 1 pages written\nverified 4 bytes\nundone 1\n"), ran.stdout)


class Fleet(Place):
    """Recipes of docs/LINE.md, with a stand-in for stmflash-line that prints its words."""

    def setUp(self):
        super().setUp()
        os.mkdir(self.path("bin"))
        os.mkdir(self.path("dev"))
        os.symlink(program(), self.path("bin/stmflash"))
        self.script("bin/stmflash-line", 'echo "$@"')

    def recipe(self, word):
        return next(it for it in blocks("docs/LINE.md") if word in it).replace("/dev/", "dev/")

    def run_recipe(self, text, *words):
        return subprocess.run(["sh", "-c", text, "sh", *words], cwd=self.folder, timeout=PATIENCE, stdin=subprocess.DEVNULL,
                              env={"PATH": self.path("bin") + ":" + os.environ["PATH"]}, capture_output=True, text=True, check=False)

    def test_a_board_that_was_not_done_is_listed(self):
        """One failed, and of another all was killed; an earlier call had done both."""
        for number in range(3):
            self.store_all({f"dev/ttyUSB{number}": b"", f"ttyUSB{number}.status": b"0\n"})
        # xargs ends at a child that is killed, and waits for no other: so the first board is done by then
        self.script("bin/stmflash-line", 'case $1 in *1) exit 1;; *2) until grep -q "^0$" ttyUSB0.status; do sleep 0.02; done; kill -9 $PPID;; esac')
        self.assertEqual(self.run_recipe(self.recipe("| xargs")).stdout.split(), ["ttyUSB1.status", "ttyUSB2.status"])

    def test_undo_begun(self):
        """It undoes what was begun and nothing else, and a journal that can't be read is no journal in which nothing stands."""
        text, words = self.recipe("# undo-begun PORT JOURNAL"), ("port", "journal")
        self.assertEqual(self.run_recipe(text, *words).returncode, 0)
        for journal, status, said in ((b"open 1\nimage undo first!\nend 1\n", 0, ""), (b"nonsense\n", 1, ""),
                                      (b"open 1\n", 0, "port -- stmflash undo -v --journal journal 1\n")):
            self.store("journal", b"stmjournal 3 0412 " + 12 * b"A1" + b"\n" + journal)
            ran = self.run_recipe(text, *words)
            self.assertEqual((ran.returncode, ran.stdout), (status, said), ran.stderr)
