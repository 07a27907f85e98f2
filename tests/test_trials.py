"""tools/trials: what it refuses, and the part of docs/TRIAL.md that it makes (tests/trials.rows)."""

import os
import re
import shlex
import subprocess
import sys

from place import PATIENCE, TOP, Said, text_in
from rows import Rows, cases

TRIALS = os.path.join(TOP, "tools", "trials")
SENT = text_in("trials", "0412-22-simulator-1.toml")
DAY = re.search('date = "([^"]*)"', SENT)[1]


def run(*words):
    ran = subprocess.run([sys.executable, TRIALS, *words], stdin=subprocess.DEVNULL, capture_output=True, timeout=PATIENCE)
    return Said(ran.returncode, ran.stdout, ran.stderr)


class Trials(Rows):
    def placed(self, told):
        return super().placed(told).replace("{day}", DAY)

    def run_words(self, words):
        return run("--folder", self.path("trials"), "--table", self.path("table"), "--page", self.path("page"), *shlex.split(words)[1:])

    def does(self, sign, told, name, *more):
        if sign == "sent":
            self.store(f"trials/{name}", SENT.encode())
        elif sign == "turns":
            old, new = (it.replace("\\n", "\n") for it in told.removeprefix(f"{name} ").split(" => "))
            self.assertIn(old, self.held(name).decode())
            self.store(name, self.held(name).decode().replace(old, new, 1).encode())
        else:
            super().does(sign, told, name, *more)

    def test_each_case(self):
        self.play_all(cases("trials.rows"))

    def test_the_page_is_current(self):
        self.assertEqual(run("--check"), Said(0, b"", b""))
