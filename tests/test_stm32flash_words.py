"""line/stm32flash: what it refuses, and that what it does can be undone. tools/beside-stm32flash has it beside the real
one."""

import contextlib
import io
import itertools
import os
import random
import re
import shlex
import shutil
import signal
import subprocess
import sys
import threading
import unittest
from unittest import mock

from boards import REAL, OnPorts, end_with
from place import PATIENCE, TABLE, TOP, Place, Said, readable, text_in
from rows import Rows, bytes_of, cases, each_named, in_parts

import image
from stmflash_line import journals as places
from stmflash_line.tied import tied
from as_stm32flash import actions, board as boards, call, hex_text, journals, line, sequence, words
from as_stm32flash.fault import Failed, Fault
from as_stm32flash.journal_text import Owner, owner_of

WORDS = os.path.join(TOP, "line", "stm32flash")
# a table of a chip that tells its board
TELLING = TABLE + b"unique = [0x1FFFF7E8, 12]\n"


class Told(OnPorts):
    """Cases that are told as text (tests/stm32flash.rows says how)."""

    # a short one, which stmflash's own follows where it fails
    wait = "100"
    begins = {"image": b"new"}
    unsaid, how, opened = None, {}, None

    def set_nothing(self):
        super().set_nothing()
        self.how, self.opened = {}, None

    def name(self, name):
        """The name of a journal of the port, also while no board is there."""
        return os.path.join(".local", "state", "stmflash", "ports", places.named_by("ttyUSB0", self.path("ttyUSB0")), name)

    def placed(self, told):
        return super().placed(told).replace("{port}", self.name("")[:-1]).replace("{fd}", str(self.opened))

    def run_words(self, words):
        words = shlex.split(words)
        if words[0] == "stmflash-line":
            return self.ended(self.start(*words[1:], reads=self.given is not None, **self.settings(**self.variables)), self.given)
        # a file in the place of none to read, or of a pipe
        files = {"stdout": subprocess.PIPE, "stderr": subprocess.PIPE, **({"stdin": subprocess.DEVNULL} if self.given is None else {"input": self.given})}
        ran = subprocess.run([WORDS, *words], cwd=self.folder, env=self.settings(**self.variables), timeout=PATIENCE, check=False, **{**files, **self.how})
        return Said(ran.returncode, ran.stdout, ran.stderr)

    def does(self, sign, told, name, *more):
        if sign == "keep":
            self.put(self.name(name), bytes_of(told.partition(" ")[2]))
        elif sign == "stream":
            self.how[name] = self.enterContext(open(self.path(*more), "rb" if name == "stdin" else "ab"))
        elif sign == "opened":
            file = self.enterContext(open(self.path(name), *more))
            file.seek(0, os.SEEK_END)
            self.opened, self.how["pass_fds"] = file.fileno(), [file.fileno()]
        elif sign == "closes":
            self.how["preexec_fn"] = lambda: [os.close(int(it)) for it in (name, *more)]
        elif sign == "once":
            # bytes that come but once
            os.mkfifo(self.path(name))
            writing = threading.Thread(target=self.store, args=(name, bytes_of(" ".join(more))))
            writing.start()
            self.addCleanup(writing.join)
        elif sign == "kept":
            self.assertEqual(sorted({*os.listdir(self.path(self.name("")))} - {"last"}), told.split())
        elif sign == "reader":
            os.mkfifo(self.path(name))
            self.reader = os.open(self.path(name), os.O_RDONLY | os.O_NONBLOCK)
            self.addCleanup(os.close, self.reader)
        elif sign == "came":
            self.assertEqual(os.read(self.reader, 4096), bytes_of(told))
        elif sign == "stops":
            started = self.start(*more[1:], line=(WORDS,), **self.settings())
            self.until(lambda: b"\nprogram " in (self.held(self.name("journal")) or b""), "nothing is written")
            self.assertEqual(end_with(started, getattr(signal, f"SIG{name}")), int(more[0]))
        else:
            super().does(sign, told, name, *more)


class Played(Told):
    def test_each_call(self):
        self.play_all(cases("stm32flash.rows"))


class Doing(Told):
    """Files that are opened, closed or full: a test for each title."""


each_named(Doing, "handed.rows")
in_parts(Played, "back.rows", 2)
in_parts(Played, "ports.rows", 2)
in_parts(Played, "unchanged.rows", 2)


class Words(unittest.TestCase):
    @unittest.skipIf(REAL is None, "stm32flash is not installed")
    def test_what_the_real_ones_help_has(self):
        """Each option is taken as it is there, and each example, but for two that docs/SWITCH.md names."""
        ran = subprocess.run([REAL, "-h"], capture_output=True, text=True, timeout=PATIENCE, check=False)
        told = ran.stdout + ran.stderr
        self.assertEqual(sorted(letter + ":" * bool(value) for letter, value in re.findall(r"^\t-(\w)( \w)?", told, re.M)),
                         sorted(re.findall("\\w:?", words.OPTIONS)))
        refused = []
        for example in re.findall(r"^\t\t\S*stm32flash (.*)$", told, re.M):
            try:
                asked = words.read(shlex.split(example))
                sequence.refuse_late(asked.entry(), asked.leave())
            except Fault as fault:
                refused.append(str(fault))
        self.assertEqual([re.search("I2C|GPIO line 2", text)[0] for text in refused], ["I2C", "GPIO line 2"])


def header_of(word):
    """The header of a journal that was put aside, by the word for it."""
    if ":" in word:
        return f"stmjournal {word.replace(':', ' ')}"
    if word.startswith("#"):
        return f"stmjournal 3 0412 {int(word[1:]):024X}"
    byte, _, chip = word.partition("@")
    return f"stmjournal 3 {chip or '0412'} {12 * byte}" if re.fullmatch("[AB][12]", byte) else "" if word == "none" else word


class Dropping(Rows):
    """Which of the journals that were put aside are dropped."""

    def setUp(self):
        super().setUp()
        with mock.patch.dict(os.environ, XDG_STATE_HOME=self.path("kept-")):
            self.journals = journals.Journals("/dev/ttyUSB0")
        self.journals.make()
        # a copy that a user has made is none
        self.store(self.journals.next_kept() + ".old", b"")
        self.told = ""

    def placed(self, told):
        return re.sub(r"\{(kept|ended)\}", lambda it: f"{self.journals.folder}/{it[1]}-0000", super().placed(told))

    def aside(self, word):
        """Puts one aside, as a call does; what it told."""
        header, _, size = word.partition("+")
        self.store(self.journals.next_kept(), f"{header_of(header)}\n".encode() + b"." * (int(size or 0) << 19))
        with contextlib.redirect_stderr(io.StringIO()) as told:
            self.journals.drop_old()
        return told.getvalue()

    def does(self, sign, told, name, *more):
        if sign == "told":
            self.assertEqual(self.told, self.told if told == ".." else f"stm32flash: {told}\n")
            self.assertNotEqual(self.told, "")
            self.told = ""
            return
        self.assertEqual(self.told, "")
        if sign == "aside":
            *before, self.told = map(self.aside, (name, *more))
            self.assertEqual("".join(before), "")
        elif sign in ("room", "most"):
            self.enterContext(mock.patch.object(journals, sign.upper(), int(told)))
        elif sign == "refuses":
            self.enterContext(mock.patch.object(journals.os, "remove", side_effect=PermissionError(13, "Permission denied")))
        elif sign == "ends":
            self.assertEqual(list(self.journals.set_apart(Owner("0412", 12 * name)).values()), [Owner(*more)])
        else:
            due = [it for word in told.split() for ends in [word.split("-")] for it in range(int(ends[0]), int(ends[-1]) + 1)]
            self.assertEqual([int(path[-6:]) for path in self.journals.numbered(sign)], due)

    def test_each_case(self):
        self.play_all(cases("dropping.rows"))

    def test_a_folder_that_cant_be_read_isnt_taken_for_an_empty_one(self):
        with mock.patch.object(journals.os, "listdir", side_effect=PermissionError(13, "Permission denied")):
            self.assertRaisesRegex(Fault, "Permission denied; journals are kept there", self.journals.kept)

    def test_the_header_is_behind_what_is_void(self):
        self.store("held", f"stmjour!\n{header_of('A1')}\nopen 1\n".encode())
        self.assertEqual(owner_of(self.path("held")), Owner("0412", "A1" * 12))


def asked_for(*given):
    """How stmflash-line is asked for the line of a call of these words: the port, the speed, the sequences, and the chip of GPIO lines."""
    with mock.patch.multiple(call, tools=mock.Mock(), chips=mock.Mock(), Journals=mock.Mock()), mock.patch.object(call.line, "use") as use, \
            contextlib.redirect_stdout(io.StringIO()):
        call.outside("here", [*given])
    return use.call_args.args[:4]


def waits(names, slowest, whole=103, fails=(), grows=0):
    """The sessions of these names, one behind another, each with its wait: the slowest answer took so many seconds, these sessions of all fail,
    and the journal grows by so many bytes each time that it is looked at."""
    sizes, asked = itertools.count(0, grows), []
    board = boards.Board(mock.Mock(files=()), mock.Mock(**{"size.side_effect": lambda: next(sizes)}), whole, lambda: slowest)

    def run(words, *_):
        asked.append((words[0], int(words[words.index("--wait") + 1])))
        if len(asked) in fails:
            raise Failed("device does not follow the protocol")
        return ""

    board.run = run
    for name in names:
        with contextlib.suppress(Failed):
            board.use(name)
    return asked


def tries(given, written=True, stays=False, is_large=False):
    """How often a write is done and undone, of which so many may be done again, and that fails by these; and whether it ended well. `written`:
    it has changed something, `stays`: that can't be undone, `is_large`: the journal of before is put aside."""
    retries, *failing = given
    board, results = mock.Mock(), iter([*map(Failed, failing), "done"])
    board.journals.is_large.return_value, board.is_unfinished.return_value, board.undoable.return_value = is_large, False, 1
    board.put_aside.side_effect = lambda: setattr(board.undoable, "return_value", 0)

    def change():
        board.undoable.return_value += written
        result = next(results)
        if result != "done":
            raise result

    def undo():
        if stays:
            raise Failed("device does not follow the protocol")
        board.undoable.return_value -= 1

    act, board.undo.side_effect, ended = mock.Mock(side_effect=change), undo, False
    with contextlib.redirect_stderr(io.StringIO()) as told, contextlib.suppress(Fault):
        actions.Actions(words.Words(action="w", retries=retries), board, None, None).change(act)
        ended = True
    assert told.getvalue().count(": the flash is as before, and it is done again\n") == act.call_count - 1, told.getvalue()
    return act.call_count, board.undo.call_count, ended


class Parts(Place):
    """What needs no board."""

    def test_each_start_loads_what_it_needs(self):
        """What takes long to load stays out of what doesn't need it."""
        heavy = {"argparse", "ctypes", "dataclasses", "hashlib", "inspect", "json", "shutil", "socket", "subprocess", "tempfile", "tomllib"}
        own = {"as_stm32flash.actions", "as_stm32flash.board", "as_stm32flash.image", "as_stm32flash.crc", "stmflash_line.far",
               "stmflash_line.gpio_lines", "stmflash_line.model", "stmflash_line.watch"}
        inside = "from as_stm32flash import call; from as_stm32flash.actions import Actions; from as_stm32flash.board import Board"
        for text, needed in (
                ("from as_stm32flash import call", set()),
                (inside, {"ctypes", "subprocess", "as_stm32flash.actions", "as_stm32flash.board"}),
                ("from stmflash_line import command, session, wake, words", {"ctypes", "shutil", "socket", "subprocess"})):
            with self.subTest(text=text):
                told = subprocess.run([sys.executable, "-I", "-S", "-c", f"import sys; sys.path.insert(0, {os.path.join(TOP, 'line')!r}); "
                                       f"sys.dont_write_bytecode = True; {text}; print(*sys.modules)"], capture_output=True, check=True)
                self.assertEqual((heavy | own) & set(told.stdout.decode().split()) - needed, set())

    def test_what_was_stopped_is_waited_for(self):
        """An erase may still run: as long as stmflash waits, whatever the line's own wait is."""
        for unfinished, given, count, wait in ((True, 103, 1, 500), (True, 2000, 1, 2000), (False, 103, 1, None), (False, 103, 2, 500)):
            board = boards.Board(None, None, given)
            with mock.patch.object(board, "is_unfinished", return_value=unfinished), mock.patch.object(board, "use") as use:
                board.undo(count=count)
            use.assert_called_once_with("undo", str(count), wait=wait)

    def test_the_journal_of_a_port(self):
        """The port has it on the disk; one that is large is put aside before a write."""
        synced = []
        with mock.patch.dict(os.environ, XDG_STATE_HOME=self.folder):
            made = journals.Journals("/dev/ttyS0")
        made.make()
        with mock.patch.object(places.os, "fsync", lambda it: synced.append((os.readlink(f"/proc/self/fd/{it}"), os.readlink(made.last)))):
            made.take_board("A1")
        self.assertEqual(synced, [(made.folder, made.live)])
        for size, is_large in ((8 << 20, False), ((8 << 20) + 1, True)):
            self.store(made.live, bytes(size))
            board = mock.Mock(journals=made)
            actions.Actions(words.Words(action="o"), board, None, None).change(lambda: None)
            self.assertEqual(board.put_aside.call_count, int(is_large))

    def test_the_inside_ends_with_the_call(self):
        text = f"import os, signal, sys, time; sys.dont_write_bytecode = True; sys.path.insert(0, {os.path.join(TOP, 'line')!r})\n" \
               "from as_stm32flash import line\nfrom stmflash_line.tied import tied\n" \
               "child = line.Child(lambda: time.sleep(1000), {}, tied())\nprint(child.process, flush=True)\n" \
               "time.sleep(0.5)\nos.kill(os.getpid(), signal.SIGKILL)"
        with subprocess.Popen([sys.executable, "-c", text], stdout=subprocess.PIPE) as started:
            child = int(started.stdout.readline())
            # its output ends with the last process that has it
            if not readable([started.stdout], PATIENCE):
                os.kill(child, signal.SIGKILL)
                self.fail("the inside goes on")

    def test_the_inside_is_as_a_program_that_was_started(self):
        """It has no file but the three, no handler of its parent's, ignores what that does, as behind nohup, and has its settings and its body's status."""
        for number in (*line.SIGNALS, signal.SIGCHLD):
            self.addCleanup(signal.signal, number, signal.signal(number, lambda *_: None))
        reader, writer = os.pipe2(os.O_NONBLOCK)
        for end in (reader, writer):
            self.addCleanup(os.close, end)
        self.addCleanup(signal.set_wakeup_fd, signal.set_wakeup_fd(writer))

        def body():
            has_files = any(os.path.exists(f"/proc/self/fd/{end}") for end in (reader, writer))
            handlers = [signal.getsignal(number) for number in (signal.SIGTERM, signal.SIGHUP, signal.SIGCHLD)]
            is_free = not signal.pthread_sigmask(signal.SIG_BLOCK, ())
            is_plain = handlers == 3 * [signal.SIG_DFL] and signal.getsignal(signal.SIGINT) == signal.default_int_handler and signal.set_wakeup_fd(-1) == -1
            return 40 + has_files + 2 * (not is_plain) + 4 * (not is_free) + 8 * (os.environ != {"STMFLASH_DEVICE": "board"})

        with mock.patch.dict(os.environ, STMFLASH_DEVICE="other", STMFLASH_BAUD="other's"):
            child = line.Child(body, {"STMFLASH_DEVICE": "board"}, tied())
        child.wait(PATIENCE)
        self.assertEqual((child.poll(), child.returncode), (40, 40))
        self.assertNotEqual(os.environ.get("STMFLASH_DEVICE"), "board")
        for end, number in ((line.Child.terminate, signal.SIGTERM), (line.Child.kill, signal.SIGKILL)):
            child = line.Child(lambda: readable([], PATIENCE / 10), {}, tied())
            self.assertRaises(subprocess.TimeoutExpired, child.wait, 0.01)
            end(child)
            # and once it has ended nobody's, who may have its number
            self.assertEqual((child.wait(), end(child), child.returncode), (None, None, -number))
        with mock.patch.object(line.os, "fork", side_effect=BlockingIOError(11, "no room")), mock.patch("stmflash_line.wake.Wake"), \
                mock.patch("stmflash_line.session.use_port", lambda given, _: given.command({})), contextlib.redirect_stderr(io.StringIO()) as told:
            self.assertEqual((line.use("P", 9600, None, None, body), told.getvalue()), (1, "stmflash-line: stm32flash: no room\n"))
        self.assertEqual(signal.pthread_sigmask(signal.SIG_BLOCK, ()), set())
        signal.signal(signal.SIGHUP, signal.SIG_IGN)
        with mock.patch.object(sys, "excepthook", lambda kind, *_: self.store("told", kind.__name__.encode())):
            child = line.Child(lambda: 1 // (signal.getsignal(signal.SIGHUP) != signal.SIG_IGN), {}, tied())
        self.assertEqual((child.wait(PATIENCE), child.returncode, self.held("told")), (None, 1, b"ZeroDivisionError"))

    def test_the_slowest_answer_up_to_now_is_told(self):
        for heard in ((), *itertools.permutations((0.25, 0.5, 3.0))):
            def play(given, _, heard=heard):
                for seconds in heard:
                    given.heard(seconds)
                child = given.command({})
                child.wait(PATIENCE)
                return child.returncode

            with mock.patch("stmflash_line.session.use_port", play), mock.patch("stmflash_line.wake.Wake"):
                self.assertEqual(line.use("P", 9600, None, None, lambda slowest: int(slowest() * 4)), 12 * bool(heard))

    def test_what_a_hex_text_means(self):
        """As the second model has it: records of each kind in any order; and it at another place, up to an end."""
        chance = random.Random(1)
        kinds = ((0, lambda: chance.randbytes(chance.randint(0, 20))), (2, lambda: chance.randbytes(2)), (4, lambda: bytes([0, chance.randint(0, 3)])),
                 (3, lambda: bytes(4)), (5, lambda: bytes(4)))
        for turn in range(300):
            chosen = [kinds[0], *chance.choices(kinds, (5, 1, 2, 1, 1), k=chance.randint(0, 7))]
            text = b"".join(image.record(kind, chance.choice((0, 4, 0x40, 0xFF00)) * (kind == 0), data()) for kind, data in chosen) + image.record(1, 0, b"")
            try:
                due = image.read_hex(text)
            except image.ImageFault:
                # two bytes at one place: that is for stmflash to see
                continue
            with self.subTest(turn=turn, text=text):
                pieces = hex_text.read(text)
                start, end = hex_text.span(pieces)
                self.assertEqual((start, end), (min(due), max(due) + 1) if due else (0, 0))
                for by, last in ((0, end), (3, end + 3), (0x1FFF0, 0x20000 + start)):
                    self.assertEqual(image.read_hex(hex_text.moved(pieces, by, last)), {at + by: byte for at, byte in due.items() if at + by < last})

    def test_without_the_modules_of_stmflash_line(self):
        shutil.copy(WORDS, self.folder)
        shutil.copytree(os.path.join(TOP, "line", "as_stm32flash"), self.path("as_stm32flash"))
        ran = subprocess.run([self.path("stm32flash"), "-h"], capture_output=True, timeout=PATIENCE, check=False)
        self.assertEqual((ran.returncode, ran.stderr), (1, b"ERROR: stmflash_line, which stm32flash is made of, isn't there: install stmflash\n"))

    def test_what_is_beside_a_link_to_it_is_none_of_its_programs(self):
        for name, named in (("stm32flash", WORDS), ("stmflash", "/bin/false")):
            os.symlink(named, self.path(name))
        ran = subprocess.run([self.path("stm32flash"), "-m", "8n1", "ttyUSB0"], env={"PATH": self.path("none")}, cwd=self.folder, capture_output=True, timeout=PATIENCE, check=False)
        self.assertTrue(ran.stderr.startswith(b"ERROR: stmflash isn't there"), ran)

    def test_a_call_of_stmflash_ends_with_a_fault_of_ours(self):
        board = boards.Board.__new__(boards.Board)
        board.tools, board.settings = mock.Mock(stmflash=self.path("stmflash")), os.environ
        text = f"trap 'touch {self.folder}/ended; exit' TERM\necho reading page 1 >&2\nfor i in $(seq 100); do sleep 0.1; done\n"
        self.store("stmflash", f"#!/bin/sh\n{text}".encode())
        os.chmod(board.tools.stmflash, 0o755)
        with mock.patch.object(boards, "follow", side_effect=lambda stream, _: stream.readline().fails):
            self.assertRaises(AttributeError, board.run_once, ["info"])
        self.assertTrue(self.is_there("ended"))
        with mock.patch.object(board, "run_once", side_effect=[Failed("journal is in use"), "done"]):
            self.assertEqual(board.run(["log"]), "done")

    def test_a_ctrl_c_says_what_stands(self):
        with contextlib.redirect_stderr(io.StringIO()) as told:
            self.assertEqual(call.ended(mock.Mock(side_effect=KeyboardInterrupt)), 1)
        self.assertIn("that didn't end is undone by the next call at this port, and one that did stands\n", told.getvalue())

    def test_a_go_that_fails_behind_its_write_is_done_alone(self):
        for printed in ("segment 1: 1 pages written\nkept 1\n", ""):
            with self.subTest(printed=printed):
                board = mock.Mock()
                board.kept.side_effect = Failed(boards.NO_PROTOCOL, printed)
                done = actions.Actions(words.Words(action="w", start_at=0), board, None, mock.Mock(base=0x08000000))
                with contextlib.suppress(Failed) if not printed else contextlib.nullcontext():
                    done.write_and_start(None, None, "")
                    self.assertNotEqual(printed, "", "a write that failed is told")
                    self.assertTrue(done.start(done.start_address()))
                    board.put_aside.assert_called_once_with()
                    board.use.assert_called_once_with("go", "0x08000000")

    def test_what_starts_a_program(self):
        """-g, or -R where -i says nothing of the way out, also not that nothing is moved."""
        for address, given in ((1, {"start_at": 0}), (4, {"start_at": 4}), (4, {"start_at": 4, "reset": True}), (1, {"reset": True}), (None, {}),
                               (1, {"reset": True, "sequence": "rts"}), (None, {"reset": True, "sequence": "rts:"})):
            asked = words.Words(action="w", **given)
            self.assertEqual(actions.Actions(asked, None, None, mock.Mock(base=1)).start_address(), address)

    def test_a_write_that_stands_is_not_done_again(self):
        for printed, times in (("segment 1: 1 pages written\nkept 1\n", 1), ("", 2)):
            with self.subTest(printed=printed):
                board = boards.Board(None, mock.Mock(**{"size.return_value": 0}), 100)
                board.hint = "of the first"
                with mock.patch.object(board, "session", side_effect=Failed(boards.NO_PROTOCOL, printed)) as done:
                    self.assertRaises(Failed, board.use, "write")
                self.assertEqual((done.call_count, board.hint), (times, "of the first" * (times == 1)))

    def test_what_stands_there_stays_until_all_is_read(self):
        """Also raw bytes that are read into a name of HEX."""
        synced, reads = [], actions.Actions(None, None, None, None)
        self.store("out.hex", b"before")
        with mock.patch.object(reads, "fetch", lambda *_, out: (out.write(b"read"), out.flush())), \
                mock.patch.object(os, "fsync", lambda file: synced.append((self.raw("out.hex"), os.fstat(file.fileno()).st_size))):
            reads.fetch_file(None, self.path("out.hex"))
        self.assertEqual((synced, self.raw("out.hex"), sorted(os.listdir(self.folder))), ([(b"before", 4)], b"read", ["out.hex", "table"]))

    def test_the_manual_page_has_every_option(self):
        page = text_in("line", "stmflash-as-stm32flash.1").replace("\\", "")
        options = ["-" + letter for letter in words.OPTIONS if letter != ":"] + ["--" + name for name in words.OWN]
        self.assertEqual([option for option in options if not re.search(rf"\.(B|BI|BR) {option}\b", page)], [])
