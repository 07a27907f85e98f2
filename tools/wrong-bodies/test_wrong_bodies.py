"""What tools/wrong-bodies makes of edits, functions, clauses and the prover's lines, without a prover (tests/wrong_bodies.rows)."""

import contextlib
import importlib.machinery
import importlib.util
import io
import os
import pathlib
import shutil
import sys
import types
import unittest

HERE = os.path.dirname(os.path.abspath(__file__))
sys.path.append(os.path.join(HERE, "..", "..", "tests"))

from clauses import clause_of, clauses_of, score, turned
from edits import BadEdit, Edit, blamed, check_twin, is_one_word, put_together, read_edit
from functions import Functions
from judging import judge
from place import Said
from rows import Rows, cases
from verdicts import ANSWER, Finding, Verdicts


class Known(Functions):
    """Functions of which the paths alone are known."""

    def __init__(self, paths):
        self.texts, self.all, self.paths = {}, [], set(paths)


def load_main():
    loader = importlib.machinery.SourceFileLoader("wrong_bodies", os.path.join(HERE, "__main__.py"))
    made = importlib.util.module_from_spec(importlib.util.spec_from_loader("wrong_bodies", loader))
    loader.exec_module(made)
    return made


def recorded(name, paths, told):
    """What an edit comes to, or turns, or what isn't proved beside all but one, by what was printed in the check of a crate."""
    text = pathlib.Path(HERE, "recorded", f"{name}.txt").read_text(encoding="utf-8")
    verdicts, known = Verdicts(name.split("-")[0], text), Known(paths.split(","))
    edit = Edit("one.edit", {paths.split(",")[0]}, [("src/one.rt", *told.split(" => "))], None, None)
    if paths == "but":
        asked = {it.path for it in verdicts.findings}
        return verdicts.beside(asked - {told}, Known(asked))
    return ", ".join(turned(edit, told[3:], verdicts, known)) if told.startswith("as ") else judge(edit, verdicts, known)[0]


class WrongBodies(Rows):
    def begin(self):
        super().begin()
        self.lines, self.hears = [], []

    def does(self, sign, told, name, *more):
        if sign == "text":
            self.put(name, b"")
            self.text = name
        elif sign == "|":
            self.add(self.text, f"{told}\n".encode())
        elif sign == "edit":
            old, new = told.removeprefix(f"{name} {more[0]} ").split(" => ")
            self.add(name, f"file: {more[0]}\nold: {old}\nnew: {new}\n".encode())
        elif sign == "prover":
            self.lines += told.split("\\n")
        elif sign == "hears":
            self.hears.append(told.replace("\\n", "\n").split(" => "))
        else:
            super().does(sign, told, name, *more)

    def run_words(self, words):
        try:
            told = self.answer_to(*words.partition(" ")[::2])
        except BadEdit as why:
            return Said(1, b"", f"{why}\n".encode())
        return Said(0, "".join(f"{line}\n" for line in told).encode(), b"")

    def answer_to(self, call, told):
        """The lines that a part of the tool answers."""
        functions, verdicts, words = Functions(self.folder), Verdicts("tried", "\n".join(self.lines)), told.split()
        if call.startswith("tries"):
            return self.tried(words, call == "tries-harmless")
        edits = [read_edit(functions, self.path(it)) for it in words if it.endswith((".edit", ".twin"))]
        match call:
            case "paths":
                return sorted(str(it.path) for it in functions.all)
            case "owner":
                return [functions.owner(told)]
            case "functions":
                return edits[0].functions
            case "words":
                return ["one word" if is_one_word(edits[0]) else "more"]
            case "twin":
                return check_twin(*edits) or []
            case "together":
                texts, taken, left = put_together(functions, edits)
                new = [f"{file}: {line.strip()}" for file in texts for line in texts[file].split("\n") if line not in functions.texts[file].split("\n")]
                return [" ".join([which, *(it.name for it in some)]) for which, some in (("taken", taken), ("left", left))] + new
            case "blame":
                texts = dict(functions.texts)
                for file, old, new in (pair for edit in edits for pair in edit.pairs):
                    texts[file] = texts[file].replace(old, new)
                return [" ".join(blamed(edits, texts, self.lines))]
            case "judge":
                return [judge(edits[0], verdicts, functions)[0]]
            case "beside":
                return [verdicts.beside(set(words), functions)]
            case "clauses":
                found = clauses_of(told, functions)
                return [", ".join(found) if found else "none"]
            case "clause":
                path, _, goal = told.partition(" ")
                return [clause_of(Finding(path, ANSWER, goal, "a line"), functions)]
            case "turned":
                return [", ".join(turned(edits[0], told.partition(" as ")[2], verdicts, functions))]
            case "score":
                return [score([] if it == "-" else it.split(",") for it in words)]
            case "recorded":
                return [recorded(*told.split(" ", 2))]
        raise ValueError(f"no call: {call}")

    def tried(self, names, is_harmless):
        """What is said of edits of these files by a prover that is made up, how many checks that took, and what each counts as."""
        main, checks = load_main(), []

        def check(crate, functions, texts, asked, kept):
            checks.append(asked)
            lines = [said.replace("{line}", str(text[:text.index(body)].count("\n") + 1))
                     for text in texts.values() for body, said in self.hears if body in text]
            front = [it for it in lines if it.startswith("src/")]
            return "\n".join((front or lines) + ["error: refused" if front else "only=1 holes=0"]), 1

        main.check = check
        trial = main.Trial(types.SimpleNamespace(name="tried", folder=self.folder), None)
        with contextlib.redirect_stdout(io.StringIO()) as printed:
            (trial.run_harmless if is_harmless else trial.run)([self.path(name) for name in names])
        counts = sorted(f"{counts}: {', '.join(clauses)}" for counts, clauses in trial.told)
        return [*printed.getvalue().splitlines(), f"{len(checks)} checks", *counts]

    def test_each_case(self):
        self.play_all(it for it in cases("wrong_bodies.rows") if not self.is_tried(it))

    @unittest.skipUnless(shutil.which("rt"), "there is no rt")
    def test_each_case_that_is_tried(self):
        self.play_all(filter(self.is_tried, cases("wrong_bodies.rows")))

    @staticmethod
    def is_tried(case):
        return any(sign == "$" and told.startswith("tries") for sign, told in case[1])
