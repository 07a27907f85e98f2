"""The walk of docs/INSIDE.md, step by step: its session runs over a served simulator, each byte that the page tells goes over the line
in the page's order, and each call that it names is reached from one that it named before."""

import collections
import glob
import os
import re

from place import TOP, text_in
from served import Served

# a step of a table; its calls, and their files
STEP = re.compile(r"^\| (\d+)\. ([^|]*) \|([^|]*)\|")
FILE = re.compile(r"`((?:[\w/]+/)?\w+\.rt)`")
CALL = re.compile(r"`((?:\w+::)?[a-z_]+)`")
# what is sent and answered: `> 7F < 79`, also several pairs of one kind
BYTES = re.compile(r"([<>]) ((?:[0-9A-F]{2}(?: |$|(?=`)))+)")


def page():
    return text_in("docs", "INSIDE.md")


def steps():
    """Each step of the walk: its number, its calls, the files that it names, and what it does."""
    folder = ""
    for line in page().split("\n## Why it can be undone")[0].splitlines():
        if row := STEP.match(line):
            called, _, told = row[2].partition(" (")
            files = []
            for name in FILE.findall(told):
                folder = os.path.dirname(name) or folder
                files.append(os.path.join(folder, os.path.basename(name)))
            yield int(row[1]), CALL.findall(called), files, row[3]


def calls_by_function():
    """Which names each function calls, over the code of all crates that a program is made of; those of one name are one."""
    made = collections.defaultdict(set)
    for crate in os.listdir(os.path.join(TOP, "crates")):
        if crate.endswith("_tests") or crate == "stm_rows":
            continue
        for path in glob.glob(os.path.join(TOP, "crates", crate, "src", "**", "*.rt"), recursive=True):
            _, *functions = re.split(r"\bfn (?=\w)", re.sub(r"//.*", "", text_in(path)))
            for function in functions:
                name, body = re.match(r"(\w+)([^\0]*)", function).groups()
                made[name].update(re.findall(r"\b(\w+)\s*(?:::<[^>]*>)?\(", body))
    return made


def reached(made, begun):
    """All that is called by these, and by what they call."""
    found, left = set(), list(begun)
    while left:
        for name in made.get(left.pop(), ()):
            if name in made and name not in found:
                found.add(name)
                left.append(name)
    return found


def told_bytes(text):
    """The frames that a text tells, each with its sign."""
    return [(sign, bytes.fromhex(data)) for told in re.findall(r"`([<>][^`]*)`", text) for sign, data in BYTES.findall(told)]


class Inside(Served):
    def test_the_session_is_that_of_the_page(self):
        """What it prints, its journal, and each byte that the page tells, in the page's order."""
        said, exchange = self.session()
        self.assertTold(said, "segment 1: 1 pages written\nverified 5 bytes\n")
        lines = [line.strip() for line in page().split("The journal is now\n\n")[1].split("\n\n")[0].splitlines()]
        self.assertEqual([line[:14] if line.startswith("page") else line for line in self.held("board.journal").decode().splitlines()],
                         [line[:14] if line.startswith("page") else line for line in lines])
        frame = re.search(r"^    > ([0-9A-F ]+?)  .*\n    < (79)", page(), re.M)
        due = []
        for number, _, _, does in steps():
            due += told_bytes(does)
            if number == 23:
                due += [(">", bytes.fromhex(frame[1])), ("<", bytes.fromhex(frame[2]))]
        self.assertGreaterEqual(len(due), 25)
        at = 0
        for sign, data in due:
            # a frame is one run of what was sent, and a reply begins one of what came
            found = [place for place in range(at, len(exchange)) if exchange[place][0] == sign
                     and (exchange[place][1] == data if sign == ">" else exchange[place][1].startswith(data))]
            self.assertTrue(found, f"{sign} {data.hex(' ').upper()} behind {exchange[at - 1]}")
            at = found[0] + 1

    def session(self):
        """Runs the page's commands over a served simulator: what was said, and all bytes, each run of them with its sign."""
        os.symlink(os.path.join(TOP, "chips.toml"), self.path("chips.toml"))
        self.store("settings.bin", b"hello")
        words = re.search(r"^    \$ stmflash (write .*)$", page(), re.M)[1].split()
        self.serve(1, table="chips.toml")
        exchange = []
        with self.between(lambda replies: tell(exchange, "<", replies), "board.sock", lambda came: tell(exchange, ">", came)):
            return self.call(*words, "--wait", "2000"), exchange

    def test_each_call_is_made_behind_those_before_it(self):
        """Each function that a step names is reached from the one that was named before it, or from one above."""
        made, count = calls_by_function(), 0
        before = ["main"]
        for number, calls, files, _ in steps():
            for name in [call.rpartition("::")[2] for call in calls if files and call != "main"]:
                with self.subTest(step=number, call=name):
                    self.assertTrue(name in made, "there is no such function")
                    self.assertTrue(any(name in reached(made, [it]) for it in before), "nothing before it leads there")
                    before.append(name)
                    count += 1
        self.assertGreaterEqual(count, 40)


def tell(exchange, sign, data):
    """Writes down what went over the line, as one run with what went the same way before it, and answers it."""
    if exchange and exchange[-1][0] == sign:
        exchange[-1] = (sign, exchange[-1][1] + data)
    elif data:
        exchange.append((sign, data))
    return data
