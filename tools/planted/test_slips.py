"""What the operators make of small texts, what is chosen of it, and how the program with switches is woven.

    python3 -m unittest discover -q -s tools/planted -t tools
"""

import os
import pathlib
import re
import tempfile
import unittest

from planted import GROUPS, Fault, is_python, reach, slips_of, slips_python, slips_rattle, switch, trees

PAGE = pathlib.Path(__file__).with_name("slips.rows")


class Slips(unittest.TestCase):
    def test_each_row(self):
        page = re.sub(r"(?m)^# .*\n", "", PAGE.read_text(encoding="utf-8"))
        for title, *lines in (block.split("\n") for block in page.strip().split("\n\n")):
            word, _, rest = title.partition(" ")
            due = "\n".join(lines).replace(r"\n", "\n")
            with self.subTest(title):
                if word == "text":
                    name, text = rest, f"{due}\n"
                    found = {what: text[:start] + new.replace("@old", text[start:end]) + text[end:] for start, end, new, what, _ in slips_of(name, text)}
                    for slipped in found.values() if is_python(name) else ():
                        compile(slipped, "", "exec")
                elif word == "none":
                    self.assertFalse([what for what in found if rest in what])
                elif word == "blocks" and is_python(name):
                    noting, names = slips_python.recording(text, 5, "noted")
                    self.assertEqual((names, [noting.count(f"_note({number})") for number in range(5, 5 + len(names))]), (rest.split(), [1] * len(names)))
                elif word == "blocks":
                    self.assertEqual([block for _, block in slips_rattle.notes(text)], rest.split())
                else:
                    self.assertIn(due, found[title])
                    self.assertNotIn(due, text)

    def test_faults_within_others_are_woven(self):
        text = "a(b);\n"
        outer = Fault(GROUPS[0], "outer", "", 0, 5, "a(b);", "if !@on { @old }", "", "", 1)
        inner = Fault(GROUPS[0], "inner", "", 2, 3, "b", "(if @on { c } else { @old })", "", "", 2)
        woven = "if !crate::planted::is_on(1) { a((if crate::planted::is_on(2) { c } else { b })); }\n"
        self.assertEqual(switch.place(text, [inner, outer]), (woven, []))
        other = inner._replace(end=6, number=3)
        self.assertEqual(switch.place(text, [outer, other]), ("if !crate::planted::is_on(1) { a(b); }\n", [other]))

    def test_a_test_that_cannot_run_here_is_left_out_and_a_row_that_fails_is_named_and_played_alone(self):
        with tempfile.TemporaryDirectory() as top:
            os.mkdir(f"{top}/tests")
            with open(f"{top}/tests/test_some.py", "w", encoding="utf-8") as file:
                file.write("import os, unittest\nclass Some(unittest.TestCase):\n"
                           "    @unittest.skip('no tool')\n    def test_one(self): pass\n    def test_two(self): pass\n"
                           "class Rows(unittest.TestCase):\n    def test(self):\n"
                           "        with self.subTest(title='a row (1)'): assert os.environ.get('STMFLASH_ROW') == 'b', \"(title='c')\"\n")
            one, both, row = "test_some.Some.test_one", "test_some.Some", "STMFLASH_ROW=a_row_(1) test_some.Rows.test"
            for test in (one, both, "STMFLASH_ROW=b test_some.Rows.test"):
                self.assertIsNone(trees.run(top, "none", test, 60))
            self.assertEqual([trees.run(top, "none", test, 60)[0] for test in (row.split()[1], row)], [row, row])
        self.assertEqual({one, both} & trees.left_out, {one})

    def test_numbers_are_told_as_ranges(self):
        self.assertEqual(reach.told({1, 2, 3, 7, 9, 10}), "1-3,7,9-10")
        self.assertEqual(reach.read_numbers("1-3,7,9-10"), {1, 2, 3, 7, 9, 10})
