"""Lines of JSON beside the schema and the page that names them (tests/answers.rows has what each tells, tests/names.rows how names are quoted)."""

import json
import re
import unittest

import answers
from place import Place, text_in


class Json(Place):
    def lines(self, said, status=0):
        """The objects that were told, each in a line of its own."""
        self.assertEqual(said.status, status)
        self.assertTrue(said.out.endswith(b"\n"))
        return [json.loads(line) for line in said.out.split(b"\n")[:-1]]

    def test_refused_words(self):
        """What the words' own reader says, whole; and of help nothing but the help."""
        said = self.call("nonsense", "--json")
        told, = self.lines(said, 2)
        self.assertEqual((told["fault"], told["says"], told["status"]), ("usage", said.err.decode(), 2))
        self.assertTrue(self.call("--help", variables={"STMFLASH_JSON": "1"}).out.startswith(b"Flashes"))

    def test_the_pages_have_each_name(self):
        """docs/FORMATS.md and the schema name each answer and fault that the program has, and no other."""
        parts = text_in("docs", "FORMATS.md").split("\n### Answers\n")[1].split("\n### Faults of a call\n")
        kinds = [kind["properties"] for kind in json.loads(text_in(answers.PAGE))["oneOf"]]
        for file, part, member in zip(("told_json.rt", "fault_name.rt"), parts, ("answer", "fault")):
            named = set(re.findall(r'=>\s+"([a-z_]+)",', text_in("crates", "stm_work", "src", file)))
            rows = [line.split("|")[1] for line in part.splitlines() if line.startswith("| `")][1:]
            self.assertEqual({name for row in rows for name in re.findall("`([a-z_]+)`", row)}, named)
            firsts = [kind[member] for kind in kinds if member in kind]
            self.assertEqual({name for first in firsts for name in first.get("enum", [first.get("const")])}, named)

    @unittest.skipUnless(answers.IS_HERE, "python3-jsonschema is not installed")
    def test_the_schema_takes_no_other_line(self):
        """Of what a call printed, one without a member, with another one, or with one of another kind; each other test's lines it takes."""
        answers.checked().check_schema(answers.checked().schema)
        told = self.lines(self.use("info", "--json")) + self.lines(self.use("info", "--json", device="nowhere"), 1)
        self.assertEqual(len(told), 2)
        for line in told:
            wrong = [{name: line[name] for name in line if name != left} for left in line] + [{**line, "more": 1}]
            self.each(wrong + [{**line, name: [line[name]]} for name in line],
                      lambda other: self.assertEqual(len(answers.others(json.dumps(other).encode() + b"\n")), 1))
