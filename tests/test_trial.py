"""stmflash-trial: its rows hold on simulators, and each fails on a board that is planted for it; the verdict of each such board; what
it says, keeps and never sends; killed at random moments, the file that it saved gives the flash back.

STMFLASH_LONG=1 tries each planted board with both erase commands, also those that take minutes, and kills 40 times.
STMFLASH_PLANTED names the planted boards that are tried, with commas between; all of them without it.
"""

import concurrent.futures
import contextlib
import os
import pty
import random
import re
import shlex
import signal
import subprocess
import sys
import termios
import threading
import time
import tomllib
import unittest

from boards import LINE, PYTHON, LinePlace, default_signals
from hostile import Board
from place import PATIENCE, TOP, Place, Said, readable, served, text_in
from rows import Rows, bytes_of, each_named, in_parts
from served import Served
from started import Started

PLANTED = os.path.join(TOP, "tests", "planted")
sys.path.insert(0, PLANTED)

from deviations import DEVIATIONS, FOLLOWS, NONE  # noqa: E402

TRIAL = os.path.join(TOP, "line", "stmflash-trial")
FOLDER = os.path.join(TOP, "line", "trial")
# of the planted boards these alone, where there are any
SOME = set(filter(None, os.environ.get("STMFLASH_PLANTED", "").split(",")))
IS_LONG = os.environ.get("STMFLASH_LONG") == "1"
KILLS = 40 if IS_LONG else 5
# boards mostly wait: so many are tried at once
AT_ONCE = 10
# short waits where nothing is due: a late reply is waited for all the same
SAVED = ("--table", "table", "--save", "saved")
QUICK = ("--yes", "--wait", "20", "--pause", "0.2", "--baud", "4000000")
PAGES, SIZE = 8, 1024
# of the system's numbers of speeds
SPEEDS = {getattr(termios, f"B{baud}"): baud for baud in (57600, 115200, 230400, 460800, 921600, 1000000, 1500000, 2000000)}


def table(code, pages=PAGES, size=SIZE):
    erase = "page" if code == "43" else "extended"
    return f'[[chip]]\nid = 0x440\nbase = 0x08000000\npages = [[{pages}, {size}]]\nerase = "{erase}"\n'.encode()


def run(folder, *words, **settings):
    ran = subprocess.run([sys.executable, TRIAL, *words], cwd=folder, env={"PATH": os.environ["PATH"], **settings}, stdin=subprocess.DEVNULL, capture_output=True, timeout=PATIENCE)
    return Said(ran.returncode, ran.stdout, ran.stderr)


def rows_of(said):
    """The result of each row, by its name; and the verdict."""
    lines = said.out.decode().splitlines()
    found = {line.split()[0]: re.match(r"holds|differs|not tried", line[18:])[0] for line in lines if re.match(r"\S+ +(holds|differs|not tried)\b", line)}
    return found, lines[-1] if lines else ""


@contextlib.contextmanager
def planted(folder, name, *words):
    """A planted board on the socket `board` of a folder, whose flash is the file `flash`."""
    call = [sys.executable, PLANTED, "board", "--plant", name, "--flash", "flash", *words]
    with subprocess.Popen(call, cwd=folder, stdin=subprocess.DEVNULL) as board:
        try:
            until = time.monotonic() + PATIENCE
            while not os.path.exists(os.path.join(folder, "board")):
                if board.poll() is not None or time.monotonic() > until:
                    raise AssertionError("the planted board doesn't start")
                time.sleep(0.01)
            yield board
        finally:
            board.kill()


def program_rows():
    return run(TOP, "--rows").out.decode()


def row_names():
    return [line.split("|")[1].strip() for line in program_rows().splitlines()[2:]]


def at_terminal(folder, answers, *call, **settings):
    """Runs a call of Python on a terminal at which each of these texts of it is answered by a text, and what is done before it; its
    status, what it said, and what is left of the answers."""
    process, terminal = pty.fork()
    if process == 0:
        default_signals()
        os.chdir(folder)
        os.execve(call[0], call, {"PATH": os.environ["PATH"], **settings})
    said, left, until = b"", list(answers), time.monotonic() + PATIENCE
    # when all of them have ended a read is a fault
    with contextlib.suppress(OSError):
        while time.monotonic() < until and readable([terminal], PATIENCE) and (came := os.read(terminal, 65536)):
            said += came
            if left and left[0][0] in said:
                question, act, text = left.pop(0)
                said = said.replace(question, b"?", 1)
                act()
                os.write(terminal, text)
    os.close(terminal)
    return os.waitstatus_to_exitcode(os.waitpid(process, 0)[1]), said.decode(), left


def until_told(test, started, text, on="stderr"):
    """Reads on until a trial that was started has told this."""
    while text not in getattr(started, on).readline():
        test.assertIsNone(started.poll())


class TrialPlace(Served):
    def trial(self, *words, **settings):
        return run(self.folder, *SAVED, *words, **settings)

    def planted(self, name="none"):
        """A planted board of the table."""
        self.store("table", table("44"))
        self.clear("board")
        return planted(self.folder, name, "--pages", str(PAGES))

    def tried(self, name, *words, **settings):
        """What a trial says of a planted board, to which nothing was sent that may not be."""
        with self.planted(name) as board:
            said = self.trial("--device", "board", *words, **settings)
            self.assertEqual(board.wait(PATIENCE), 0)
        return said


class Boards(Place):
    """Each planted board, and none."""

    def try_board(self, name, code):
        """What is wrong with the trial of a planted board; nothing where all is right."""
        deviation = DEVIATIONS[name]
        folder = f"{name}-{code}"
        os.mkdir(self.path(folder))
        # a board that answers late has few blocks
        pages, size = (4, 256) if deviation.is_long else (PAGES, SIZE)
        self.store(f"{folder}/table", table(code, pages, size))
        with planted(self.path(folder), name, "--pages", str(pages), "--size", str(size), "--erase", code) as board:
            before = self.held(f"{folder}/flash")
            said = run(self.path(folder), "--device", "board", *SAVED, *QUICK, "--reset", f"kill -USR1 {board.pid}", *deviation.words)
            status = board.wait(PATIENCE)
        return [f"{name}, erased by {code}: {fault}" for fault in faults(deviation, said, status, before, self.held(f"{folder}/flash"), code)]

    def try_all(self, boards):
        boards = [board for board in boards if not SOME or board[0] in SOME]
        with concurrent.futures.ThreadPoolExecutor(AT_ONCE) as pool:
            found = list(pool.map(lambda board: self.try_board(*board), boards))
        self.assertEqual([fault for each in found for fault in each], [])

    def test_each_is_found_and_judged(self):
        # what needs a hand is in a test of its own
        names = [name for name, deviation in DEVIATIONS.items() if "power" not in deviation.rows]
        self.assertGreater(len(names), 43)
        self.try_all([(name, "44") for name in names if IS_LONG or not DEVIATIONS[name].is_long])

    def test_erased_by_43(self):
        names = [name for name, deviation in DEVIATIONS.items() if not {"power", "settle-erase"} & set(deviation.rows)]
        some = ("none", "erases-two-pages", "erases-before-check", "absent-page-wraps", "loses-while-busy", "76-before-an-ack")
        self.try_all([(name, "43") for name in (names if IS_LONG else some)])


def faults(deviation, said, board_status, before, after, code):
    found, verdict = rows_of(said)
    differ = {name for name, held in found.items() if held == "differs"}
    return [fault for is_so, fault in (
        (said.err, f"it said {said.err.decode()}"),
        (board_status != 0, f"the board ended with {board_status}: what is never sent was sent"),
        (deviation.rows and not differ & set(deviation.rows), f"not found: {sorted(differ)} differ"),
        (not deviation.rows and differ, f"{sorted(differ)} differ"),
        (not verdict.startswith(deviation.verdict), f"its verdict is {verdict!r}"),
        *((True, f"{it!r} isn't told, but {said.out.decode()}") for it in deviation.told if code == "44" and it not in said.out.decode()),
        (said.status != (0 if deviation.verdict == FOLLOWS else 1), f"the status is {said.status}"),
        (before != after and not deviation.is_lasting, "its flash isn't what it was")) if is_so]


class Words(TrialPlace):
    def test_what_is_found_replaces_no_other_file(self):
        """A link and a pipe stay, and so does whatever has a name of that kind; a name that is no text is told as far as it is one."""
        self.store("real.new", b"mine")
        os.symlink("real", self.path("link"))
        os.mkfifo(self.path("pipe"))
        reader = os.open(self.path("pipe"), os.O_RDONLY | os.O_NONBLOCK)
        self.addCleanup(os.close, reader)
        for name, held in (("link", lambda: self.held("real")), ("pipe", lambda: os.read(reader, 1 << 16))):
            words = ("--only-read", "--part", b"a\xffb", "--out", name, "--save", b"saved \xff" + name.encode(), *QUICK[1:])
            said = self.tried("none", *words, PYTHONIOENCODING="utf-8:strict", LC_ALL="C", PYTHONCOERCECLOCALE="0", PYTHONUTF8="0")
            self.assertEqual((said.status, said.err), (0, b""), said.out.decode())
            self.assertEqual(tomllib.loads(held().decode())["part"], "a\ufffdb")
            self.assertRegex(said.out.decode(), rf"saved in (saved \\udcff{name}): .* `stmflash write -v -f '\1'`")
        self.assertTrue(os.path.islink(self.path("link")))
        self.assertFile("real.new", b"mine")
        self.remove("real.new")

    def test_a_part_of_the_flash_is_no_file(self):
        """A disk that has no room for all of it, and a signal; what came meanwhile under that name is another's. And one that is whole is on the disk, with its name."""
        text = "import resource, faults, saved, trial; resource.setrlimit(resource.RLIMIT_FSIZE, (4096, 4096))\n" \
               "def cut(it):\n    print(sys.argv[2], saved.os.path.isdir(f'/proc/self/fd/{it}') or saved.os.fstat(it).st_size)\n    if sys.argv[2] == '1': raise faults.Ended('a signal')\nsaved.os.fsync = cut\n" \
               "try:\n    trial.write_anew(sys.argv[1], 8192 * 'a') if sys.argv[2] == 'text' else saved.store(sys.argv[1], bytes(int(sys.argv[2])))\n" \
               "except (faults.Ended, OSError) as ended:\n    print(ended)"
        self.store("came", b"kept")
        for name, size, why, held in (("part", "8192", "the flash couldn't be saved: File too large", None), ("cut", "1", "1 1\na signal", None), ("cut", "text", "[Errno 27] File too large", None),
                                      ("came", "1", "the flash couldn't be saved: File exists", b"kept"), ("whole", "2", "2 2\n2 True", bytes(2))):
            self.assertEqual(of_modules(text, self.path(name), size), why + "\n")
            self.assertEqual((self.held(name), [it for it in os.listdir(self.folder) if "." in it]), (held, []))

    def test_progress(self):
        said, count = self.tried("silent", "--progress", *QUICK), len(row_names())
        self.assertEqual(said.err.decode().splitlines(), [f"row {n + 1} of {count}: {name}" for n, name in enumerate(row_names())])


class Ports(LinePlace):
    """Through stmflash-line, on a pseudo-terminal with a simulated board behind it."""

    WORDS = (*SAVED, *QUICK)
    before = random.Random(5).randbytes(32768)
    begins = {"ttyUSB0.flash": before}
    # rows before the first change that take their time
    BEFORE = "loss-up,read-again,refuse-pair,settle-ask,pause"

    def interrupted(self, *call):
        """Runs a trial on a terminal at which Ctrl-C is pressed in the midst of its changes; its status, and what it said. One that had
        ended before is begun anew."""
        for _ in range(5):
            pressed = (b": write-4", lambda: None, b"\x03")
            status, said, _ = at_terminal(self.folder, [pressed], PYTHON, *call, *self.WORDS, "--skip", self.BEFORE, TMPDIR=self.path("temporary"))
            if status:
                break
            self.remove("saved")
        return status, said

    def test_a_ctrl_c_puts_back(self):
        """The terminal sends it to each program there, and stmflash-line hands it on."""
        board = self.board()
        for call, due in (((LINE, "ttyUSB0", "--", sys.executable, TRIAL), 130), ((TRIAL, "--port", "ttyUSB0"), 1)):
            with self.subTest(call=call):
                status, said = self.interrupted(*call)
                self.assertEqual(status, due, said)
                self.assertRegex(said, r"put-back +holds")
                self.assertIn("don't use, because the trial wasn't ended: signal SIGINT", said)
                self.assertTrue(self.held("saved") == board.store() == self.before)
                self.remove("saved", "trial.toml")

    def test_killed_it_gives_the_port_back(self):
        self.board()
        started = self.start("--port", "ttyUSB0", *self.WORDS, line=(TRIAL,))
        until_told(self, started, b"saved in ", "stdout")
        started.kill()
        started.wait()
        for folder in os.listdir(self.path("temporary")):
            # stmflash-line has removed its socket, and what is left is empty
            self.until(lambda folder=folder: not os.listdir(self.path(f"temporary/{folder}")), "the socket is left")
            os.rmdir(self.path(f"temporary/{folder}"))


class FastBoard(Board):
    """A board on a pseudo-terminal that knows its port's speed, and answers up to `fastest`; above `right` it reads wrong bytes. It is
    connected anew where the file `reset` has come."""

    def __init__(self, test, fastest, right):
        super().__init__(test=test, fastest=fastest, right=right, speed=None, master=test.plain(), is_over=threading.Event())
        serving = threading.Thread(target=self.serve)
        serving.start()
        test.addCleanup(serving.join)
        test.addCleanup(self.is_over.set)

    def serve(self):
        while not self.is_over.is_set():
            # while nobody has the port open a read fails
            with contextlib.suppress(OSError):
                if readable([self.master], 0.05):
                    for byte in os.read(self.master, 4096):
                        os.write(self.master, self.feed(byte))

    def feed(self, byte):
        if self.test.is_there("reset"):
            self.test.remove("reset")
            self.speed = None
            self.reset()
        is_first, self.speed = self.speed is None, self.speed or SPEEDS[termios.tcgetattr(self.master)[4]]
        if self.speed > self.fastest:
            return b"" if is_first else b"\xc3"
        replies = super().feed(byte)
        return replies if self.speed <= self.right or len(replies) < 256 else replies[:1] + bytes(len(replies) - 1)


class Asked(Started):
    """Each case of trial.rows, and of tried.rows."""

    def set_nothing(self):
        super().set_nothing()
        self.answers = []

    def placed(self, told):
        return super().placed(told).replace("{python}", sys.executable).replace("{trial}", TRIAL).replace("{top}", TOP).replace("{pid}", str(getattr(getattr(self, "board_there", None), "pid", "")))

    def run_words(self, words):
        """Runs a call; on a terminal where something is answered there."""
        if words == "parts":
            return Said(0, of_modules(PARTS, FOLDER).encode(), b"")
        if not self.answers:
            return super().run_words(words)
        status, said, left = at_terminal(self.folder, self.answers, PYTHON, TRIAL, *shlex.split(words)[1:])
        self.assertEqual(left, [], said)
        return Said(status, said.encode(), b"")

    def lose_power(self):
        # it has to have heard what was sent
        time.sleep(0.5)
        self.board_there.send_signal(signal.SIGUSR2)
        time.sleep(0.2)

    def does(self, sign, told, name, *more):
        if sign == "planted":
            self.board_there = self.enterContext(planted(self.folder, name, "--pages", str(PAGES)))
        elif sign == "simulated":
            self.simulator = Place.start(self, *served(name, table="chips"), "--clients", "2")
            self.leave(self.reach("board", self.simulator))
        elif sign == "over":
            self.assertEqual(self.board_there.wait(PATIENCE), 0)
        elif sign == "fast":
            FastBoard(self, int(name), int(*more))
        elif sign in ("answers", "loses"):
            question, text = told.split(" = ")
            self.answers.append((question.encode(), self.lose_power if sign == "loses" else lambda: None, bytes_of(text)))
        elif sign == "same":
            self.assertTrue(self.held(name) == self.held(*more), f"{told} differ")
        else:
            super().does(sign, told, name, *more)


class Played(Asked):
    """The first, in parts."""


class Tried(Asked):
    """The second, a test for each title."""


in_parts(Played, "trial.rows", 2)
each_named(Tried, "tried.rows", Rows.play_apart)


class Told(TrialPlace):
    def test_the_file(self):
        """What it has, and that no byte of the flash, no path and no name of a file is in it, also where reads went wrong."""
        # a byte that no code, address, count or number has
        self.store("flash", b"\xd7" * PAGES * SIZE)
        for name in ("none", "flips-a-bit-now-and-then", "any-count", "loses-each-10000th-down", "read-protected"):
            with self.subTest(name=name), self.planted(name) as board:
                words = ("--save", "kept-here", "--out", "found.toml", "--part", 'an "F0"', "--reset", f"kill -USR1 {board.pid}")
                self.trial("--device", "board", *words, *QUICK)
                self.assertEqual(board.wait(PATIENCE), 0)
            text = self.held("found.toml").decode()
            found = tomllib.loads(text)
            self.assertEqual((found["trial"], found["part"], found["id"], found["version"], found["baud"]), (1, 'an "F0"', 0x440, 0x31, 4000000))
            self.assertEqual([row["name"] for row in found["row"]], row_names())
            self.assertLessEqual({row["result"] for row in found["row"]}, {"holds", "differs", "not tried"})
            for word in ("D7", "d7", "215", "/", "kept-here", "found.toml", "kill"):
                self.assertNotIn(word, text)
            self.clear("kept-here")

    def test_the_table_of_the_page(self):
        """It has of each row its name, what has to hold, and what it means where it differs; nothing else."""
        rows = [line.strip("|").split("|") for line in program_rows().splitlines()]
        table = "".join("|" + "|".join((row[0], row[1], row[4])) + "|\n" for row in rows)
        self.assertIn("\n\n" + table + "\n", text_in("docs", "TRIAL.md"))

    def test_the_boards_of_the_page(self):
        """Each planted board, in the list of its verdict; and how many they are."""
        part, told = part_of("TRIAL.md", "Boards that do otherwise"), {}
        for verdict, names in re.findall(r"^The verdict is `([^`]+)` on:\n\n((?:- .*\n)+)", part, re.M):
            told.update((name, (verdict, does)) for name, does in re.findall(r"^- `([^`]+)`: (.*)$", names, re.M))
        self.assertEqual(told, {name: (deviation.verdict, deviation.does) for name, deviation in DEVIATIONS.items()})
        self.assertIn(f"`tests/planted`, {len(DEVIATIONS) - 1} of them,", part)

    def test_each_row_fails_on_a_planted_board(self):
        self.assertEqual(NONE.rows, ())
        self.assertEqual({row for deviation in DEVIATIONS.values() for row in deviation.rows}, set(row_names()))


def of_modules(text, *words, status=0):
    """What a text of Python prints that uses modules of the trial, and ends so."""
    text = f"import sys; sys.dont_write_bytecode = True; sys.path[:0] = [{FOLDER!r}, {os.path.dirname(FOLDER)!r}]\n{text}"
    ran = subprocess.run([sys.executable, "-c", text, *words], capture_output=True, text=True, preexec_fn=default_signals, check=False)
    assert (ran.returncode, ran.stderr) == (status, ""), ran
    return ran.stdout


PARTS = """
from types import SimpleNamespace as Of
import builtins, glob, itertools, line as ways, re, rows_asking, rows_changing, rows_ending, rows_reading, rows_stopping, saved, settling, socket, speeds, told, trial
from board import Board
from model import Model
from settling import limit_of
made = Board.__new__(Board)
made.words, made.compare, made.other, made.page = Of(pages=(5,)), lambda pages=None: [2] if pages else [9, 2, 5], 5, 5
def tell(act, of):
    try: print(act(of))
    except Exception as fault: print(type(fault).__name__, fault, getattr(of, 'harm', ''), sep='; ')
tell(lambda it: it.expect('it', [2]), made)
for kept, wrong in ((None, []), (b'', []), (b'', [3])):
    tell(rows_reading.read_again.act, Of(saved=kept, compare=lambda _: wrong, model=Of(starts=[0]), words=Of(pages=[]), harm=''))
print(limit_of(Of(code=0x44, page=7), 'erase'), made.both())
ids = [it for held in rows_reading.SIZE_REGISTERS.values() for it in held]
print(len(ids) - len({*ids}))
asking = trial.Trial.__new__(trial.Trial)
asking.words, asking.progress = Of(yes=False, only_read=False, save='saved', pages=[1], skip=(), patient=False), Of(clear=lambda: None)
asking.board = Of(model=True, saved=b'', is_touched=True, harm=None, usual_time=lambda _: 11)
for answer in (' Yes ', 'no'):
    builtins.input = lambda _: answer
    tell(lambda it: it.ask(), asking)
settling.settle = lambda *_: settling.Settled(2, True, False)
line = Of(read=lambda *words: print(*words) if words[0] or not hasattr(of_line, 'code') else None)
of_line = Of(line=line, wait=0.05, put=lambda cut: [0x79] * (len(cut) // 2), drain=lambda: None, talk=lambda *_: None, facts={}, is_touched=False)
tell(lambda it: settling.cut_and_settle(it, [[0x11], [0x11, 0xEE]], 'ask'), of_line)
for held in itertools.product(itertools.product((False, True), repeat=2), repeat=2):
    ends, forgotten = iter([settling.Settled(2, *it) for it in held]), []
    settling.settle, of_line.facts = lambda *_: next(ends), {}
    of_line.model, of_line.page, of_line.code, of_line.expect = Of(forget=forgotten.append), 3, 0x44, lambda _: None
    try: odd = not settling.cut_and_settle(of_line, [[], []], 'erase')
    except settling.Odd: odd = True
    print(held, odd, of_line.facts, len(forgotten)) if (odd, of_line.facts, len(forgotten)) != (
        not (held[0][0] and held[1][0]), {'loses_while_busy': True} if any(it[1] for it in held) else {}, sum(it != (True, False) for it in held)) else None
asking.dead, asking.broken, trial.recover = None, Of(intent='erase'), lambda it, intent: print(it is asking.board, intent)
for row in (trial.BACK, Of(name='x', changes='x')): tell(lambda it: it.need(row), asking)
asking.need = asking.regain = lambda row: None
def unasked(): raise settling.Differs('a byte came')
asking.board.hush, asking.ended, well = unasked, None, Of(act=lambda _: 'well', means='x', name='x')
for trial.TOLD in ((), (well,)): tell(lambda it: (it.tried(well).result, it.may_end), asking)
slow = Of(options={}, refusal=None)
for named, count in (([], 32), ([], 1), ([], 256), ([], 257), ([3, 7], 32), ([255], 300), ([256], 300), ([32], 32)):
    tell(lambda it: rows_asking.choose_pages(named, it), count)
gone = ways.Line.__new__(ways.Line)
gone.words, gone.companion, gone.buffer, (gone.socket, _) = Of(reset='', port='P', wiring='W'), None, bytearray(), socket.socketpair()
def closed(): raise ways.Refused('the port has gone')
gone.open = closed
for act in (gone.reset, lambda: gone.read(1, 9, 9), lambda: gone.write(b'a')): tell(lambda _: act(), None)
gone.socket, far_end = socket.socketpair(); gone.socket.send(b'a'); far_end.close(); tell(lambda _: gone.take(), None)
def nobody(_): raise EOFError
builtins.input = nobody
for gone.words in (Of(reset='false', port='P', wiring='W'), Of(reset='', port='P', wiring='')): tell(lambda _: gone.reset(), None)
for ids, erases, erase in (([0x440], 0x44, 'extended'), ([0x440, 0x441], 0x44, 'extended'), ([0x441], 0x44, 'extended'), ([0x440], 0x44, 'page')):
    told_ids, known = itertools.cycle(ids), [{'id': 0x440, 'base': 0, 'pages': [[4, 1024]], 'erase': erase}]
    asked = Of(write=len, read=lambda *_: bytes([0x79, 1, *next(told_ids).to_bytes(2, 'big'), 0x79]))
    tell(rows_asking.identify.act, Of(line=asked, drain=bytes, facts={}, codes=[erases], version=1, words=Of(pages=[], chips=known)))
def differs(*_): raise settling.Differs('it')
settling.settle = differs
for resets, restart in ((False, None), (True, differs), (True, int)):
    tell(lambda it: settling.recover(it, 'ask'), Of(code=0x44, line=Of(can_reset=lambda: resets), restart=restart))
def is_reply(name):
    of_one = Of(model=1, times={'get': [0], name: [0.25]}, usual_time=lambda it: 0.25 * (it == name), facts={}, options={}, refusal=None)
    try: return not rows_ending.reply_time.act(of_one)
    except settling.Differs: return True
names = {it for path in glob.glob(sys.argv[1] + '/*.py') for it in re.findall(r'(?:talk|note_time)\\("([^"]+)"', open(path).read())}
print(len(names) > 10, *sorted(it for it in names if not is_reply(it)), sep='; ')
makes, made = ways.tempfile.mkdtemp, []
ways.tempfile.mkdtemp = lambda **how: made.append(makes(**how)) or made[-1]
for fault in (ways.Refused, KeyboardInterrupt, ways.Ended):
    def opened(_): raise fault
    ways.Line.open = opened
    try: ways.Line(Of(port='P'))
    except fault: print(glob.glob(made[-1]))
for seconds in (1.0004, 0.3, 61): rows_ending.need_wait(slow, seconds) or print(slow)
rows_ending.put_back, rows_ending.is_back = lambda it, _: it.changed, lambda it, page: page not in it.left
for changed, left, harm in (([], [], ''), ([1], [], ''), ([1, 7], [7], ''), ([1, 7], [], ''), ([1, 7], [], 'x')):
    tell(rows_ending.give_back.act, Of(changed=changed, left=left, harm=harm, words=Of(pages=[1])))
for given in (Of(wiring='W', reset=''), Of(wiring='', reset='R'), Of(wiring='', reset='')):
    speeds.Line, speeds.asked, done, given.chips = lambda _: Of(reset=lambda: done.append('reset'), close=lambda: done.append('closed')), lambda *_: done.append('asked'), [], ()
    speeds.tried(given) or print(*done)
slow.refusal = None
for row in (rows_reading.save, rows_ending.reply_time): print(*told.judge(slow, [told.Found(row, told.DIFFERS, '', row.means)], 'a signal'), sep='; ')
def contacted(*came):
    left, of = iter([*came, *[b''] * 12]), Of(wait=0.05, drain=bytes, greeting=b'y', options={}, was_contacted=False, refusal=None)
    of.line = Of(write=len, read=lambda *_: next(left))
    tell(rows_asking.contact.act, of) or print(of.was_contacted, of.greeting, of.options, of.refusal)
for came in ((b'', b'\x1f'), (b'y', b'', b'\x1f'), (b'y', b'y', b'\x1f'), (b'y', b'yy', b'\x1f'), (b'y.', b'', b'\x1f'), (b'yy', b'', b'\x1f'), 12 * (b'.',)): contacted(*came)
for act, of in ((rows_asking.get_version.act, Of(codes=[0])), (rows_reading.size_register.act, Of(model=Of(number=1))), (Board.hush, Of(line=Of(read=lambda *words: print(*words) or b'y'), wait=1)), (Board.drain, Of(line=Of(read=print), wait=1)), (rows_asking.quiet.act, Of(line=Of(read=print))),
                (rows_reading.read_sizes.act, Of(page=0, model=Of(starts=[0], sizes=[1024]), read=lambda at, count: ([1] * count, [2] * count)))): tell(act, of)
for came in (b'', b'ab', b'abc'): tell(lambda it: speeds.answer(it, b'', 3), Of(write=len, read=lambda *_: came))
for frame in ('21DE', '43BCFF', '44BBFFFF'): tell(lambda it: [*map(it.feed, bytes.fromhex(frame))], Model(0x440, known[0], 1, [0x21, 0x43, 0x44]))
sent = []
said = Of(model=Of(starts=[0]), page=0, code=0x44, step=sent.append, address=lambda at, flip=0: [flip], erase_frame=lambda page, flip=0: [flip], put=id, hush=int, erase=int, fill=int,
          talk=lambda name, data, *_: sent.append(data), expect=lambda *_: 0, both=list, line=Of(reset=int, read=lambda *_: b'.'), connect=int, words=Of(every_byte=True), blocks=lambda _: [0, 256], write=lambda at, data: print(at, len(data)), usual_time=lambda _: 0.05)
for row in (rows_asking.refuse_address, rows_asking.refuse_complement, rows_changing.refuse_erase): row.act(said)
print(sent == [*(it for code in (0x11, 0x31) for bit in range(8) for it in (code, [1 << bit])), *([code, code ^ 0xFF ^ 1 << bit] for code in (0, 2, 0x11, 0x31, 0x44) for bit in range(8)), 0x44, [1], 0x44, [0x40]])
rows_stopping.cut_and_settle, rows_changing.time = lambda _, cuts, intent: (len(cuts), intent), Of(monotonic=itertools.cycle((0, 0.4, *3 * (0, 1))).__next__)
for act in (rows_stopping.settle_write.act, *2 * [rows_changing.ack_late.act], rows_changing.write_gap.act): tell(act, said)
for count in (1, 256): said.model.sizes, said.code = [1] * count, 0x43; tell(rows_changing.page_absent.act, said)
for said.code, facts in ((0x43, {}), (0x44, {'loses_while_busy': True})):
    said.facts, said.options, said.model.sizes = {'erase_seconds': 1.0, **facts}, {}, [1, 1]
    tell(rows_ending.erase_time.act, said) or print(said.options)
said.model.reset, rows_stopping.need_reset, sent[:] = int, lambda _: None, []
rows_stopping.fresh_other.act(said) or print(sent)
booted = ways.Line.__new__(ways.Line)
booted.words, booted.taken, booted.buffer, (booted.socket, far_end) = Of(reset='true'), 0, bytearray(b'old'), socket.socketpair()
far_end.send(b'boot') and booted.reset() or print(booted.buffer, booted.read(1, 0, 0))
ways.time, ways.os.environ['PATH'] = Of(monotonic=itertools.count().__next__, sleep=lambda _: print('slept')), ''
for act in (lambda: ways.connect('/none', None), lambda: ways.start_companion(Of(folder='/none', port='P', baud=1, wiring=''), 'S')): tell(lambda _: act(), None)
rows_reading.time, saved.rewrite, saved.is_back = Of(monotonic=itertools.count(0, 100).__next__), differs, lambda *_: False
tell(rows_reading.save.act, Of(model=Of(size=8192), read=lambda at, count: (bytes(count), 0), progress=Of(show=id), words=Of(patient=False, save='')))
saved.put_page_back(Of(compare=print), 5, lambda _, intent: print(intent))
lost = settling.Settling(Of(wait=0.05, put=lambda it: [0x1F] * (it[0] == 0x7F), byte_time=0, progress=Of(show=id), drain=lambda: print('drained') or b'', model=Of(rest=[]), line=Of(read=lambda *words: print(*words) or b'\x1f')), 2, 16)
lost.has_lost = True; lost.send(1); lost.byte = 0x7F; print(lost.run())
"""

# each row, and each call that changes something, on a board of the model whose line ends where the flash was changed first
FIRST_CHANGE = """
from types import SimpleNamespace as Of
import itertools, board, rows, rows_asking, rows_reading, saved
from faults import Differs, Ended, NotTried
from model import Model
codes, chip, changed = [0, 1, 2, 0x11, 0x31, 0x44], {'id': 0x440, 'base': 0x08000000, 'pages': [[2, 1024], [4, 512]], 'erase': 'extended'}, set()
rows_asking.time.sleep, rows_asking.BATCHES, rows_reading.saved.store = lambda _: None, (256,), lambda *_: None
words = Of(wait=50, baud=115200, pages=[1, 3], map=True, pause=0, every_byte=False, patient=False, by_hand=True, save='', chips=[chip])
def model():
    made = Model(0x440, chip, 0x31, codes)
    made.flash = before[:]
    return made
def line_to(device, look):
    came = bytearray()
    def write(data):
        for byte in data:
            came.extend(it or 0 for it in device.feed(byte))
            look()
    return Of(write=write, read=lambda count, *_: bytes(came.pop(0) for _ in range(min(count, len(came)))), drop=came.clear, reset=device.reset, can_reset=lambda: True)
calls = [(row.name, row.act, row.changes if row.intent != 'ask' else 'nothing') for row in rows.ROWS if row not in rows.TOLD and row is not rows.BACK]
calls += [(name, lambda it, name=name, words=words: getattr(it, name)(*words), 'P') for name, words in (('erase', (3,)), ('write', (3072, b'abcd')), ('fill', (1,)))]
for erased_from in (4096, 2048):
    before = [it % 251 if it < erased_from else 255 for it in range(4096)]
    for name, act, changes in calls:
        device = model()
        def look():
            if device.flash != before: raise Ended('at once')
        it = board.Board(line_to(device, look), words, Of(show=lambda _: None))
        it.version, it.codes, it.model, it.code, it.page, it.other, it.saved = 0x31, codes, model(), 0x44, 3, 1, bytes(before)
        try: act(it)
        except (Differs, Ended, NotTried): pass
        if device.flash != before:
            changed.add(name)
            if not it.is_touched or changes == 'nothing': print(name, 'has changed what it did not say')
print(*sorted({name for name, _, changes in calls if changes != 'nothing'} - changed))
# what stands in a block, and what was saved of it: a page is erased where it has to be, and just what is missing is written, over erased bytes
for blocks in itertools.product(((1, 1), (255, 1), (2, 1), (255, 255), (2, 255)), repeat=2):
    before, kept = ([at // 256 % 7 if at >= 512 else blocks[at // 256][which] for at in range(4096)] for which in (0, 1))
    device, done = model(), []
    def note():
        if None in device.flash: print(blocks, 'written over')
    it = board.Board(line_to(device, note), words, Of(show=lambda _: None))
    it.model, it.code, it.saved, act = model(), 0x44, bytes(kept), it.step
    it.step = lambda code: (done.append(code), act(code))
    saved.put_page_back(it, 0, None)
    is_erased = any(now not in (255, due) for now, due in blocks)
    due = [0x44] * is_erased + [0x31] * (sum(due != 255 and (is_erased or now != due) for now, due in blocks) + 2 * is_erased)
    if device.flash != kept or [code for code in done if code != 0x11] != due: print(blocks, done)
it.fill(1) or print(len({bytes(device.flash[at:at + 256]) for at in range(1024, 2048, 256)}))
"""
# each way to give these words, with a terminal and without
FLAGS = """
import contextlib, io, itertools, line, progress, words
class Stream(io.StringIO):
    def isatty(self): return is_terminal
taken, words.read_chips = 0, lambda *_: ((), ())
for is_terminal, *given in itertools.product((False, True), *(('', it) for it in (
        '--device=D', '--port=P', '--wiring=W', '--reset=R', '--yes', '--only-read', '--speeds', '--progress', '--quiet'))):
    sys.stdin = Stream()
    with contextlib.suppress(SystemExit), contextlib.redirect_stderr(Stream()):
        it = words.read([*filter(None, given)], '.')
        way, shown = line.Line.__new__(line.Line), progress.Progress(it, 1)
        taken, way.words = taken + 1, it
        for text, is_so in (('no board, or two', bool(it.device) == bool(it.port)), ('a wiring of no port', it.wiring and not it.port),
                            ('changes unasked', not (it.yes or it.only_read or is_terminal)), ('a hand', it.by_hand != (is_terminal and not it.yes)),
                            ('speeds without a reset', it.speeds and not way.can_reset()), ('changes at a speed', it.speeds and not it.only_read),
                            ('shown though quiet', it.quiet and (shown.is_live or shown.is_listed)), ('shown twice', shown.is_live and shown.is_listed)):
            if is_so: print(text, *given)
print(taken)
"""


class Parts(unittest.TestCase):
    def test_what_is_changed_was_noted_before(self):
        """It is put back whatever ends the trial then; and a row that says that it changes nothing doesn't."""
        # and these change something on boards that do otherwise alone
        self.assertEqual(of_modules(FIRST_CHANGE), "erased-byte refuse-complement refuse-pair\n4\n")

    def test_words_beside_one_another(self):
        self.assertEqual(of_modules(FLAGS), "272\n")


class Companion(Place):
    def test_what_it_is_told(self):
        """stmflash-line gets the port, the speed, a socket, and the wiring if there is one; and time for what a hand has to do."""
        self.store("stmflash-line", b"import sys; print(*sys.argv[1:])\n")
        text = "from types import SimpleNamespace as Words\nfrom line import start_companion\n" \
               "for wiring in ('', 'dtr-reset'):\n" \
               "    start_companion(Words(folder=sys.argv[1], port='P', baud=57600, wiring=wiring), 'S').wait()"
        self.assertEqual(of_modules(text, self.folder).splitlines(), ["P --baud 57600 --idle 0 --socket S", "P --baud 57600 --idle 0 --socket S --wiring=dtr-reset"])


class Premises(unittest.TestCase):
    """Each premise of HEADLINE and each rule of MODEL is in the list of docs/TRIAL.md, with rows that there are, or with what a hand has to do."""

    def setUp(self):
        self.listed = {}
        for line in part_of("TRIAL.md", "What each premise and each rule has").splitlines():
            cells = [cell.strip() for cell in line.strip("|").split("|")]
            if len(cells) == 2 and not cells[0].startswith(("---", "Premise")):
                self.listed[cells[0]] = cells[1]

    def test_each_is_listed(self):
        due = {opening(cell) for cell in cells_of(part_of("HEADLINE.md", "Premises"))} | rules()
        self.assertGreater(len(due), 40)
        self.assertEqual(set(self.listed), due)

    def test_each_has_a_row_or_a_hand(self):
        names, named = set(row_names()), set()
        for rule, held in self.listed.items():
            with self.subTest(rule=rule):
                rows = set(re.findall(r"`([^`]+)`", held))
                named |= rows
                self.assertLessEqual(rows, names)
                self.assertTrue(rows or re.match(r"By hand: .{20}|No board: .{20}", held), held)
        self.assertEqual(names - named, {"get-version"})


def part_of(page, title):
    return text_in("docs", page).split(f"\n## {title}\n")[1].split("\n## ")[0]


def cells_of(text):
    """The first cell of each row of the tables of a text, without their heads."""
    rows = re.findall(r"^\| (.*?) \|", text, re.M)
    heads = re.findall(r"^\| (.*?) \|.*\n\|---", text, re.M)
    return [cell for cell in rows if cell not in heads]


def sentences_of(text):
    """The sentences of a text's paragraphs, but for tables."""
    paragraphs = re.split(r"\n\n", "\n".join(line for line in text.splitlines() if not line.startswith(("|", "```"))))
    words = [" ".join(paragraph.split()) for paragraph in paragraphs]
    return [sentence for text in words for sentence in re.split(r"(?<=[.:]) (?=[A-Z`*])", text) if sentence]


def opening(sentence):
    """A sentence by its first words: the list in TRIAL.md is read beside the page."""
    return " ".join(sentence.split()[:8]).rstrip(".,:;")


def rules():
    """The first words of each rule of MODEL: rows of the tables of phases and verdicts, and sentences about what a device is and does."""
    found = set()
    for title in ("What a device has", "Verdicts", "Effects", "What a stop leaves", "What a loss of power leaves"):
        part = part_of("MODEL.md", title)
        found |= {opening(cell) for cell in cells_of(part)} | {opening(sentence) for sentence in sentences_of(part)}
    return found


class Ends(TrialPlace):
    """Signals and kills: what was changed is put back, by the trial or by what it saved."""

    before = random.Random(3).randbytes(32768)

    def started(self, *words):
        call = [sys.executable, TRIAL, "--device", "board", *SAVED, "--yes", "--wait", "20", *words]
        started = subprocess.Popen(call, cwd=self.folder, env={}, stdin=subprocess.DEVNULL, stdout=subprocess.PIPE, stderr=subprocess.PIPE, preexec_fn=default_signals)
        self.addCleanup(started.communicate)
        self.addCleanup(started.kill)
        return started

    def start_trial(self, pause="0.2", *more):
        """A trial of a simulator whose flash is `before`, once it has saved that."""
        self.store("flash", self.before)
        self.serve(1)
        started = self.started("--pause", pause, *more)
        until_told(self, started, b"saved in ", "stdout")
        # it is on the disk before anything is changed
        self.assertTrue(self.held("saved") == self.before)
        return started

    def signalled(self, number):
        """A trial to which a signal came in its midst. One that had ended before it came, as on a busy machine, is begun anew."""
        for _ in range(5):
            started = self.start_trial("0", "--progress")
            # the row behind those that have changed something
            until_told(self, started, b"write-4")
            started.send_signal(number)
            out, err = started.communicate(timeout=PATIENCE)
            self.assertServed()
            if started.returncode != 0:
                break
            self.remove("saved", "flash", "flash.line")
        return started.returncode, out, err

    def test_a_signal_puts_back(self):
        for number in (signal.SIGTERM, signal.SIGINT):
            status, out, err = self.signalled(number)
            self.assertEqual(status, 1)
            self.assertNotIn(b"Traceback", err)
            self.assertRegex(out.decode(), r"(?m)^put-back +holds")
            self.assertTrue(out.decode().endswith(f"don't use, because the trial wasn't ended: signal {number.name}\n"), out)
            self.assertTrue(self.held("flash") == self.before)
            self.remove("saved", "flash", "flash.line")

    def test_a_later_signal_ends_everything(self):
        """One that comes at once is taken for the same."""
        text = "import os, signal, time\nfrom types import SimpleNamespace as Words\nimport trial\n" \
               "signal.signal(signal.SIGHUP, signal.SIG_IGN)\nheld = object.__new__(trial.Trial)\nheld.signalled, held.may_end = None, False\n" \
               "with trial.signals(held.stop):\n" \
               "    for _ in range(3): os.kill(os.getpid(), signal.SIGINT)\n" \
               "    print(held.ended, flush=True)\n    held.signalled -= 1\n    os.kill(os.getpid(), signal.SIGINT)\n    print('goes on')"
        self.assertEqual(of_modules(text, status=-signal.SIGINT), "signal SIGINT\n")

    def test_a_reader_that_goes_away_ends_nothing(self):
        """What was changed is put back though nobody reads what is said, on either stream."""
        started = self.start_trial("0", "--progress")
        started.stdout.close()
        until_told(self, started, b"write-4")
        started.stderr.close()
        self.assertEqual(started.wait(PATIENCE), 0)
        self.assertServed()
        found = {row["name"]: row["result"] for row in tomllib.loads(self.held("trial.toml").decode())["row"]}
        self.assertEqual(found["put-back"], "holds")
        self.assertTrue(self.held("flash") == self.before)

    def test_a_signal_ends_a_row_in_its_midst(self):
        with self.planted("version-of-2-bytes"):
            started = self.started(*QUICK[3:], "--only-read", "--progress", "--pause", "60")
            until_told(self, started, b": pause\n")
            self.until_it_waits(started)
            started.send_signal(signal.SIGTERM)
            out, _ = started.communicate(timeout=min(PATIENCE, 50))
        self.assertEqual(started.returncode, 1)
        self.assertRegex(out.decode(), "(?m)^pause +not tried +signal SIGTERM$")

    def test_killed_the_saved_file_puts_back(self):
        """At random moments: the board is reset, and the file is written."""
        seed = time.time_ns()
        chance = random.Random(seed)
        self.before = chance.randbytes(32768)
        changed = 0
        for turn in range(KILLS):
            with self.subTest(turn=turn, seed=seed):
                started = self.start_trial()
                time.sleep(chance.uniform(0.2, 6.5))
                started.kill()
                started.wait()
                self.assertServed()
                changed += self.held("flash") != self.before
                # a reset
                self.remove("flash.line")
                self.assertEqual(self.use("write", "-v", "-f", "saved").status, 0)
                self.assertTrue(self.held("flash") == self.before, "the flash isn't what it was")
                self.remove("saved", "journal")
        self.assertGreater(changed, 0, seed)
