"""Rows: cases that are told as text, and how they are played (tests/stated.rows and tests/uses.rows say how one is written)."""

import concurrent.futures
import os
import re
import resource
import shlex
import shutil
import time

from place import COUNTING, WAIT, Said, is_slow, is_unproved, program, text_in
from served import Served

from hex_text import text_of

# a part of a file's bytes, and how often it comes; and how many of all before it are left
PART = re.compile(r'("(?:[^"\\]|\\.)*"|<[\d+-]+|[0-9A-F]+|(?:counting|digits|hex)(?::\d+:\d+)?|segments)(?:\*(\d+))?')

# what the proved program says of itself
PROOF = "proved by rattle logic dac8208d650f15bf"
# what stands in what a call prints and says: all of it as a regular expression; its first line, and its last
FORMS = {"prints": ("out", "{}"), "says": ("err", "{}"), "first": ("err", "{}\n.*"), "last": ("err", "(.*\n)?{}\n"), "line": ("out", "(.*\n)?{}\n.*")}


def part(told):
    if told == "counting":
        return COUNTING
    if told.startswith(("counting", "digits", "hex")):
        kind, start, length = told.split(":")
        counted = bytes(i % 251 for i in range(int(start), int(start) + int(length)))
        if kind == "hex":
            return text_of(counted, 0x08000000 + int(start), range(0, len(counted), 16))
        return counted if kind == "counting" else counted.hex().upper().encode()
    if told == "segments":
        return b"".join(b"open %d\nend %d\n" % (k, k) for k in range(1, 65536))
    if told.startswith('"'):
        return told[1:-1].encode().decode("unicode_escape").encode("latin-1")
    return bytes.fromhex(told)


def bytes_of(told):
    """The bytes that parts tell; None where there is no file."""
    if told == "none":
        return None
    parts = PART.findall(told)
    if PART.sub("", told).strip():
        raise ValueError(f"no bytes: {told}")
    made = b""
    for one, times in parts:
        made = made[:count_of(one[1:])] if one.startswith("<") else made + part(one) * int(times or 1)
    return made


def count_of(told):
    """A number, or what is added to one and taken from it."""
    return sum(map(int, re.findall(r"[+-]?\d+", told)))


def named(text, names):
    """A text with what its names in capitals stand for."""
    return re.sub(r"\$([A-Z]+)", lambda it: names.get(it[1], it[0]), text)


def odd(text):
    """A text with each character that is told by its number."""
    return re.sub(r"\{x([0-9A-F]+)\}", lambda it: chr(int(it[1], 16)), text)


def spread(title, lines):
    """A case for each value of its names, one after another."""
    at = next((at for at, line in enumerate(lines) if line.startswith("each ")), None)
    if at is None:
        yield title, [(*line.split(" ", 1), "")[:2] for line in lines]
        return
    _, names, values = lines.pop(at).split(" ", 2)
    runs = [(value, re.match(r"(\d+)\.\.(\d+)(?= |$)", value)) for value in values.split(" | ")]
    for value in (f"{it}{value[run.end():]}" if run else value for value, run in runs for it in (range(int(run[1]), int(run[2]) + 1) if run else (0,))):
        given = dict(zip(names.split("/"), value.split(" / ")))
        yield from spread(f"{title} ({value})", [named(line, given) for line in lines])


def cases(page):
    """Each case of a page: its title, and its lines as their sign and what is behind it."""
    # (a program that is run by another one may be held up for as long as the default is)
    names, first = {"WAIT": WAIT if is_unproved() else "400", "PROOF": "not proved" if is_unproved() else PROOF}, []
    for block in re.sub(r"(?m)^#.*\n", "", text_in("tests", page)).strip().split("\n\n"):
        title, *lines = named(block, names).split("\n")
        if title.startswith("let "):
            for _, name, told in (line.split(" ", 2) for line in (title, *lines)):
                names[name] = named(told, names)
        elif title == "begin":
            first = lines
        else:
            yield from spread(title, first + lines)


class Rows(Served):
    # what a call says of which nothing is told
    unsaid = b""
    chips = text_in("tests", "stated.toml").encode()

    def begin(self):
        """A folder with the chips alone; what the case before has left is ended."""
        self.doCleanups()
        self.setUp()
        self.store_all({"table": self.chips, "chips": self.chips})
        self.noted = {}
        self.set_nothing()

    def set_nothing(self):
        """What was said of a call is said of no other."""
        self.memory, self.variables, self.given = None, {}, None

    def placed(self, told):
        """A line with what its names in braces stand for."""
        return told.replace("{here}", self.folder).replace("{bad}", "\udcff")

    def path(self, name):
        return super().path(odd(name))

    def put(self, name, data):
        """Stores a file; None: neither a file nor a folder is there."""
        if data is None and os.path.isdir(self.path(name)) and not os.path.islink(self.path(name)):
            shutil.rmtree(self.path(name))
        else:
            os.makedirs(os.path.dirname(self.path(name)), exist_ok=True)
            self.store(name, data)

    def answer(self, replies):
        """Listens at `board`, and answers this to the first byte, or closes the line at once where it is nothing."""
        listener = self.listen("board")

        def hear():
            line, _ = listener.accept()
            with line:
                if replies:
                    line.recv(1)
                    line.sendall(replies)
                    while line.recv(4096):
                        pass

        self.beside(listener, hear)

    def ask(self, sent, due):
        """Sends bytes to the served simulator, over one line for all of a case."""
        if self.joined is None:
            self.joined = self.reach("board")
        self.joined.sendall(bytes_of(sent))
        found = b""
        while len(found) < len(bytes_of(due)):
            found += self.joined.recv(4096)
        self.assertEqual(found, bytes_of(due))

    def run_words(self, words):
        """Runs a call, with as much memory as the case gives it, its variables, and what it reads."""
        at = r"--table table --device sim:\1:flash --journal journal"
        most = self.memory

        def limit():
            # a program that is built with checks on memory takes more of it to begin with, and says itself what it is refused
            if most is not None and not is_slow():
                resource.setrlimit(resource.RLIMIT_AS, (most, most))

        checks = f"allocator_may_return_null=1:max_allocation_size_mb={most // 2000000}" if most else ""
        variables = {**self.variables, **({"ASAN_OPTIONS": checks} if checks else {})}
        began = time.monotonic()
        words = map(odd, shlex.split(re.sub(r"(?<!\S)@(\w{4})(?!\S)", at, words)))
        said = self.call(*words, before=limit, variables=variables, given=self.given)
        self.seconds = time.monotonic() - began
        said = said._replace(out=re.sub(rb'(?<="milliseconds":)\d+', b"0", said.out or b""), err=re.sub(rb", \d+ s left", b"", said.err or b""))
        return said._replace(err=re.sub(rb"(?m)^==\d+==.*\n", b"", said.err)) if checks else said

    def expect(self, due, sign, told):
        """What is due of a call, with one line more; None: its words are refused."""
        told = odd(told)
        if sign == "=":
            return None if told == "usage" else due._replace(status=int(told))
        if sign in ("out", "err"):
            return due._replace(**{sign: bytes_of(told)})
        if sign in FORMS:
            name, form = FORMS[sign]
            return due._replace(**{name: re.compile(f"(?s)\\A{form.format(told if form == '{}' else re.escape(told))}\\Z")})
        if sign in ("times", "lines"):
            first, last, text = re.fullmatch(r"(\d+)-(\d+) (.*)", told).groups()
            told = "\n".join(text.replace(r"\n", "\n").replace("##", str(it + 1)).replace("#", str(it)) for it in range(int(first), int(last) + 1))
        name = "out" if sign in (">", "lines") else "err"
        return due._replace(**{name: (getattr(due, name) or b"") + f"{told}\n".encode()})

    def compare(self, one, due):
        """A call said what is due."""
        if due is None:
            # `clap` refused the words
            self.assertEqual((one.status, one.out), (2, b""))
            self.assertRegex(one.err, rb"(?s)\A(?!stmflash: ).{11}")
            return
        due = due._replace(**{name: getattr(one, name) for name in ("out", "err") if getattr(due, name) is None})
        if isinstance(due.out, bytes) and b" TIME\n" in due.out:
            one = one._replace(out=re.sub(rb" \d{4}(-\d\d){2}T[\d:]{8}Z\n", b" TIME\n", one.out))
        for name in (it for it in ("out", "err") if isinstance(getattr(due, it), re.Pattern)):
            self.assertRegex(getattr(one, name).decode(errors="replace"), getattr(due, name))
            due = due._replace(**{name: getattr(one, name)})
        self.assertEqual(one, due)

    def play(self, lines):
        """Does what the lines of a case say, in their order; what a call said is compared once all its lines were read."""
        said, due, self.joined = (), None, None
        for sign, told in [*lines, ("", "")]:
            told = self.placed(told)
            if sign == "or":
                said.append(self.run_words(told))
            elif sign in ("=", ">", "!", "times", "lines", "out", "err", *FORMS):
                due = self.expect(due, sign, told)
            else:
                for one in said:
                    self.compare(one, due)
                if said:
                    said = ()
                    self.set_nothing()
                if sign == "$":
                    said, due = [self.run_words(told)], Said(0, self.unsaid, self.unsaid)
                elif sign:
                    self.does(sign, told, *told.split(" "))
        if self.joined is not None:
            self.joined.close()

    def does(self, sign, told, name, *more):
        """What a line says that is no call, nor of one."""
        rest = told.partition(" ")[2]
        if sign == "file":
            self.put(name, bytes_of(rest))
        elif sign in ("folder", "pipe"):
            (os.mkdir if sign == "folder" else os.mkfifo)(self.path(told))
        elif sign in ("link", "second"):
            os.symlink(*more, self.path(name)) if sign == "link" else os.link(self.path(*more), self.path(name))
        elif sign == "leads":
            self.assertEqual(os.readlink(self.path(name)), *more)
        elif sign == "mode":
            self.assertEqual(os.stat(self.path(name)).st_mode & 0o7777, int(*more, 8))
        elif sign == "chmod":
            os.chmod(self.path(name), int(*more, 8))
        elif sign == "adds":
            self.add(name, bytes_of(rest))
        elif sign == "lists":
            self.assertEqual(sorted(os.listdir(self.path(name))), sorted(more))
        elif sign == "set":
            self.variables = dict(odd(word).split("=", 1) for word in shlex.split(told))
        elif sign == "reads":
            self.given = bytes_of(told)
        elif sign == "has":
            self.assertFile(name, bytes_of(rest))
        elif sign == "shows":
            self.assertRegex(self.held(name).decode(), rf"(?s)\A{rest}\Z")
        elif sign == "raw":
            self.assertRegex(self.raw(name).decode(errors="replace"), rf"(?s)\A{rest}\Z")
        elif sign == "notes":
            self.noted[name] = self.held(name)
        elif sign == "stays":
            self.assertFile(name, self.noted[name] + bytes_of(rest))
        elif sign == "begins":
            self.assertEqual(self.held(name)[:len(bytes_of(rest))], bytes_of(rest))
        elif sign == "serve":
            count, *words = [*more, "1"]
            self.serve(int(count), table="chips", number=name, more=words[:-1])
        elif sign == "left":
            self.leave(self.joined)
            self.joined = None
        elif sign == "served":
            self.assertServed(self.joined)
            self.joined = None
        elif sign == "answer":
            self.answer(bytes_of(told))
        elif sign == "listens":
            self.listener = self.listen(name)
            self.listener.setblocking(False)
        elif sign == "unasked":
            with self.listener.accept()[0] as line:
                self.assertEqual(line.recv(1), b"")
        elif sign == "nobody":
            self.assertRaises(BlockingIOError, self.listener.accept)
        elif sign == "took":
            self.assertGreaterEqual(self.seconds, float(name))
            self.assertLess(self.seconds, float(*more))
        elif sign == "memory":
            self.memory = int(told)
        elif sign == "~":
            self.ask(*told.split(" = "))
        else:
            raise ValueError(f"no sign: {sign}")

    def play_all(self, found):
        """Plays cases, or each of a page; of the title alone that STMFLASH_ROW is, where it is set."""
        alone = os.environ.get("STMFLASH_ROW")
        for title, lines in found:
            if alone not in (None, title.replace(" ", "_")):
                continue
            # (what runs a program of another processor is refused memory itself, and reads the program)
            if program().endswith("-under-qemu") and any(sign == "memory" or told == "lseek" for sign, told in lines):
                continue
            with self.subTest(title=title):
                self.begin()
                self.play(lines)

    def play_apart(self, found, at_once=12):
        """The same, so many at once, each by a test of its own."""
        def play(lines):
            test = type(self)(self._testMethodName)
            try:
                test.setUp()
                test.begin()
                test.play(lines)
                test.tearDown()
            finally:
                assert test.doCleanups(), "what the case has begun doesn't end"

        with concurrent.futures.ThreadPoolExecutor(at_once) as pool:
            for title, played in [(title, pool.submit(play, lines)) for title, lines in found]:
                with self.subTest(title=title):
                    played.result()


def in_parts(kind, page, count):
    """Makes so many tests of a page, each of some of its cases; of the one that STMFLASH_ROW is each plays that, wherever it stands by now."""
    for number in range(count):
        part = slice(None) if "STMFLASH_ROW" in os.environ else slice(number, None, count)
        setattr(kind, f"test_{page.split('.')[0]}_{number}", lambda self, part=part: self.play_all([*cases(page)][part]))


def each_named(kind, page, how=Rows.play_all):
    """Makes a test of each title of a page, named by it, of the case or the cases that it has."""
    def play(title):
        return lambda self: how(self, [(it, lines) for it, lines in cases(page) if it == title or it.startswith(f"{title} (")])

    titles = {}
    for block in re.sub(r"(?m)^#.*\n", "", text_in("tests", page)).strip().split("\n\n"):
        if not block.startswith(("let ", "begin\n")):
            name = "test_" + re.sub(r"\W+", "_", (title := block.split("\n")[0]).replace("'", ""))
            assert titles.setdefault(name, title) == title, f"two titles of {page} make {name}"
            setattr(kind, name, play(title))
