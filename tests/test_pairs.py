"""Two flags together: what both do, or why they are refused; of each subcommand, each flag that its help names, beside those that
change what another one means.

What a flag does shows beside the same call without it. One that leaves something as it is, as the flash, the journal or what is told,
leaves it so beside another one too; so of two flags each does what it does alone. What both change is joined line by line, or said
here. A flag that the help names and no row here has fails. Where a variable stands for a flag, it does the same, alone and where a call goes another way.
"""

import json
import os
import re
import shutil
import tomllib

from place import UNIQUE, WAIT, text_in
from served import Served

NUMBER = re.compile(r"\d+")
TABLE = b'[[chip]]\nid = 0x410\nbase = 0x08000000\npages = [[4, 256]]\nerase = "page"\nunique = [0x1FFFF7E8, 12]\n'
# what stands 16 bytes behind the first is the same, and the end is blank
FLASH = bytes(range(16)) * 40 + b"\xff" * 384
HEADERS = (b"stmjournal 3 0410 %s\n" % UNIQUE.encode(), b"stmjournal 2 0410\n")
JOURNAL = b"open 1\npage 2 %s\nend 1\n" % (b"AA" * 256)
PLACE, FOLDER = "journal", f"journals/{UNIQUE}.journal"
ON = ("--table", "table", "--device", "sim:0410:flash")
TABLES = tomllib.loads(text_in("tests", "pairs.toml"))
CALLS, FLAGS, REFUSED = ({name: tuple(words.split()) for name, words in TABLES[it].items()} for it in ("calls", "flags", "refused"))
BESIDE, VARIABLES, NOT_BOTH = TABLES["beside"], TABLES["variables"], TABLES["not_both"]


class Pairs(Served):
    def begin(self, name, flags):
        shutil.rmtree(self.folder)
        os.makedirs(self.path("journals"))
        head = HEADERS["--no-board" in flags]
        for file, data in (("table", TABLE), ("flash", FLASH), ("flash.line", b"fresh\n"), ("flash.board", f"unique {UNIQUE}\n".encode()),
                           ("image", FLASH[:300] if name == "verify" else b"\x55" * 300),
                           *((it, head + JOURNAL * (name not in ("go", "protect"))) for it in (PLACE, FOLDER))):
            self.store(file, data)

    def flags(self, name):
        """The flags of a subcommand, as its help names them, and the one that it leaves out."""
        found = re.findall(r"^ +(-\w|--[\w-]+)(?=[ ,])", self.call(name, "--help").out.decode(), re.M)
        self.assertIn("-h", found)
        return [it for it in found if it != "-h"] + ["--fresh", "a socket"] * ("--device" in found)

    def came(self, name, *flags, by=None):
        """What comes of a call with these flags, part by part; for one of them its variable may stand."""
        if (flags, by) not in self.known:
            words, variables = [], {"STMFLASH_" + by[2:].upper().replace("-", "_"): VARIABLES[by]} if by else {}
            for flag in flags:
                asked = () if flag == by else FLAGS[flag] if flag in FLAGS else REFUSED[flag]
                words += [it for it in asked if it not in words or not it.startswith("--")]
            self.begin(name, [it for it in flags if it != by or not any([by, other] in TABLES["behind"] for other in flags)])
            used, other = (FOLDER, PLACE) if "--journals" in flags else (PLACE, FOLDER)
            untouched = self.held(other)
            before = on(name)
            if "a socket" in flags:
                self.serve(1, number="0410")
                before = ("--table", "table", "--device", "board", *(() if "--wait" in words else ("--wait", WAIT)))
            said = self.call(name, *before, *(("--journal", PLACE) if used == PLACE else ()), *words, *(() if "--all" in flags else CALLS[name]),
                             variables=variables)
            if "a socket" in flags:
                if said.status == 2:
                    self.leave(self.connect())
                self.assertServed()
            self.assertFile(other, untouched)
            journal = self.held(used)
            for head in HEADERS:
                journal = journal and journal.replace(head, b"")
            # how many bytes came, and how long it takes, another word may change
            err = re.sub(rb"\d+ bytes of replies|, \d+ s left|no answer yet.*\n", b"", said.err)
            out = re.sub(rb'(?<="milliseconds":)\d+', b"0", said.out)
            self.known[flags, by] = {"status": said.status, "out": out, "err": sorted(err.splitlines()), "flash": self.held("flash"),
                                 "line": self.held("flash.line"), "journal": journal, "file": self.held("out"), "kept": self.held("kept")}
        return self.known[flags, by]

    def assertPair(self, name, one, two):
        """Of a pair each does what it does alone; or both are refused."""
        none, first, second, both = (self.came(name, *flags) for flags in ((), (one,), (two,), (one, two)))
        if two in NOT_BOTH.get(one, ()):
            self.assertEqual((both["status"], both["flash"], both["line"]), (2, FLASH, b"fresh\n"))
            self.assertIn(NOT_BOTH[one][two], str(both))
            return
        # the second asks for what the first does
        if FLAGS[one] and set(FLAGS[one]) <= set(FLAGS[two]):
            first = none
        for part in none:
            if part == "out" and "--json" in (one, two):
                # whatever number is told in words is one of the answer's
                told = second if one == "--json" else first
                answers = json.dumps([json.loads(line) for line in both[part].splitlines()])
                self.assertLessEqual(set(NUMBER.findall(told[part].decode())), set(NUMBER.findall(answers)), part)
            elif part == "file" and both[part] and {one, two} == {"--hex", "-S"}:
                self.assertEqual(memory(both[part]), {at: byte for at, byte in memory(first[part]).items() if 0x10 <= at < 0x310}, part)
            elif part == "err" and {one, two} == {"-v", "--progress"}:
                # what is read again has lines of its own, and is counted
                bare = [{re.sub(rb", \d+ of .*", b"", line) for line in it[part]} for it in (both, second if one == "-v" else first)]
                self.assertLessEqual(bare[1], bare[0], part)
            elif part == "journal" and none[part] and None in (first[part], second[part]):
                self.assertIsNone(both[part])
            elif none[part] in (first[part], second[part]):
                self.assertEqual(both[part], second[part] if first[part] == none[part] else first[part], part)
            else:
                self.assertEqual(sorted(lines(both[part])), sorted(joined(*map(lines, (none[part], first[part], second[part])))), part)

    def assertRefused(self, name, why, flag):
        """A call that is refused by one word is so beside another one too, and changes nothing."""
        alone, both = self.came(name, why), self.came(name, why, flag)
        self.assertNotEqual(alone["status"], 0)
        for part in ("status", "flash", "journal", "file", "kept"):
            self.assertEqual(both[part], alone[part], part)
        told = [json.loads(line)["says"].encode() for line in both["out"].splitlines()] if flag == "--json" else both["err"]
        # a hint is in front, where there is one
        self.assertIn(alone["err"][-1].removeprefix(b"stmflash: ") if flag == "--json" else alone["err"][-1], told)

    def assertPairs(self, name):
        self.known = {}
        flags = self.flags(name)
        self.assertEqual([flag for flag in flags if flag not in FLAGS], [], "these have no row")
        for flag in flags:
            self.assertEqual((flag, self.came(name, flag)["status"]), (flag, 0), self.came(name, flag))
        for at, one in enumerate(BESIDE):
            for two in flags if one in flags else ():
                if two not in BESIDE[:at + 1]:
                    with self.subTest(one=one, two=two):
                        self.assertPair(name, one, two)
        for flag in flags:
            others = sorted({*TABLES["other_ways"], *(word for variable, word in TABLES["behind"] if variable == flag)})
            for beside in ((), *((it,) for it in others if it in flags and it != flag)) if flag in VARIABLES else ():
                with self.subTest(variable=flag, beside=beside):
                    counts = beside if [flag, *beside] in TABLES["behind"] else (flag, *beside)
                    self.assertEqual(self.came(name, flag, *beside, by=flag), self.came(name, *counts))
        for why in REFUSED if "a socket" in flags else ():
            for flag in flags:
                if not {flag, *FLAGS[flag]} & {"--no-board", "--in-session", "a socket", REFUSED[why][0]}:
                    with self.subTest(why=why, flag=flag):
                        self.assertRefused(name, why, flag)

    def test_what_a_subcommand_does_not_have(self):
        """Each subcommand has a row; sim has none of these words. What another one has is refused, and nothing is done."""
        commands = re.findall(r"^  (\w+) ", self.call("--help").out.decode().split("Options:")[0], re.M)
        self.assertEqual(sorted({*commands} - {"help", "sim"}), sorted(CALLS))
        for name in commands:
            for flag in set(BESIDE[:-1]) - set(self.flags(name)) if name != "help" else ():
                with self.subTest(name=name, flag=flag):
                    self.begin(name, ())
                    said = self.call(name, *on(name), "--journal", PLACE, *FLAGS[flag], *CALLS.get(name, ()))
                    self.assertEqual((said.status, bool(said.out), self.held("flash.line")), (2, flag == "--json", b"fresh\n"))

    # (tools/mutants looks for these two in the file; the others are made below)
    def test_of_write(self):
        self.assertPairs("write")

    def test_of_erase(self):
        self.assertPairs("erase")


for name in CALLS.keys() - {"write", "erase"}:
    setattr(Pairs, f"test_of_{name}", lambda self, name=name: self.assertPairs(name))


def on(name):
    """The words of a subcommand's device."""
    return () if name in TABLES["alone"] else ON


def memory(text):
    """What stands where in HEX."""
    return {int(line[3:7], 16) + at: line[9 + 2 * at:11 + 2 * at]
            for line in text.decode().split() if line[7:9] == "00" for at in range(int(line[1:3], 16))}


def lines(part):
    return part if isinstance(part, list) else (part or b"").splitlines()


def joined(none, first, second):
    """The lines of both, without those that either leaves out."""
    return [it for it in none if it in first and it in second] + [it for it in dict.fromkeys(first + second) if it not in none]
