"""tools/gate goes on behind a step that failed, and fails; what of its steps goes on beside what. tests/run gives a test that hears a
board within a time a second turn. tools/weight refuses what is heavier than its record."""

import collections
import concurrent.futures
import contextlib
import importlib.machinery
import importlib.util
import io
import os
import re
import shlex
import shutil
import subprocess
import sys
import threading
import time
import types
import unittest.mock

from place import TOP, Place, text_in


def script(*names):
    """A script of the repository, as a module, without a file beside it."""
    path = os.path.join(TOP, *names)
    with unittest.mock.patch.object(sys, "dont_write_bytecode", True):
        loader = importlib.machinery.SourceFileLoader("_".join(names), path)
        made = importlib.util.module_from_spec(importlib.util.spec_from_loader(loader.name, loader))
        loader.exec_module(made)
    return made


GATE = script("tools", "gate")
# waits for a file, for a minute at most
AWAIT = "for i in $(seq 600); do [ ! -e {0} ] || exit 0; sleep 0.1; done; exit 1"
# fails where another one of the same text goes on
SINGLE = "mkdir {0}/single && sleep 0.2 && rmdir {0}/single"


def shell(text, *more):
    """A step that is a text of the shell's."""
    return GATE.Step(shlex.join(["sh", "-c", text]), *more)


class Room(Place):
    def named(self, name):
        """The path of a file there, as a shell reads it."""
        return shlex.quote(self.path(name))

    def put(self, name, text):
        """Writes a file there, and answers its path."""
        os.makedirs(os.path.dirname(self.path(name)), exist_ok=True)
        self.store(name, text.encode())
        return self.path(name)


class Gate(Room):
    def run_steps(self, *steps):
        """What the gate says of these steps, and its status. What a step says that waits isn't among it: it is said at once."""
        said = io.StringIO()
        with unittest.mock.patch.object(GATE, "steps", lambda jobs, without: list(steps)), \
                unittest.mock.patch.object(sys, "argv", ["gate"]), contextlib.redirect_stdout(said), \
                self.assertRaises(SystemExit) as ended:
            GATE.main()
        return said.getvalue(), ended.exception.code

    def test_goes_on_behind_a_step_that_failed(self):
        said, status = self.run_steps(GATE.Step("true"), GATE.Step("false"), GATE.Step("test 1"))
        self.assertEqual(status, 1)
        self.assertIn("gate: failed,   0.0 min,   0.0 of processor: false\n", said)
        self.assertIn("gate: 2 steps passed, 1 failed, in  0.0 min,   0.0 of processor\n", said)

    def test_tells_last_how_what_failed_ended_whether_it_waits_or_computes(self):
        steps = [shell(f"seq 30 | sed s/^/{name}/; echo end of {name} >&2; exit {status}", goes)
                 for name, goes, status in (("a", GATE.WAITS, 1), ("b", GATE.COMPUTES, 2), ("c", GATE.WAITS, 0))]
        said, _ = self.run_steps(*steps)
        last = said.split("failed, in")[1]
        for name, (words, _, _) in zip("ab", steps):
            self.assertIn(f"gate: the end of what {words} said:\n{name}20\n{name}21\n", last)
            self.assertIn(f"{name}30\nend of {name}\n", last)
        self.assertNotIn("end of c", last)

    def test_tells_the_time_of_what_a_step_calls_and_not_of_the_one_beside_it(self):
        busy = "import os; at = os.times().user\nwhile os.times().user < at + 3.2: pass"
        made = self.named("made")
        said, _ = self.run_steps(shell(shlex.join([sys.executable, "-c", busy]) + f"; touch {made}"), shell(AWAIT.format(made), GATE.COMPUTES))
        self.assertRegex(said, r"gate: passed,   [0-9.]+ min,   0\.1 of processor: sh -c '/")
        self.assertRegex(said, r"gate: passed,   [0-9.]+ min,   0\.0 of processor: sh -c 'for")

    def test_ends_well_where_each_step_does(self):
        self.assertEqual(self.run_steps(GATE.Step("true"), GATE.Step("test 1"))[1], 0)

    def test_a_step_that_computes_goes_on_beside_one_that_waits(self):
        here, there = self.named("here"), self.named("there")
        steps = shell(f"touch {here}; " + AWAIT.format(there), GATE.COMPUTES), shell(f"touch {there}; " + AWAIT.format(here))
        self.assertEqual(self.run_steps(*steps)[1], 0)

    def test_two_that_wait_never_go_on_together(self):
        steps = [shell(SINGLE.format(self.folder) + f" # {number}") for number in range(3)]
        self.assertEqual(self.run_steps(*steps, GATE.Step("true", GATE.COMPUTES))[1], 0)

    def test_nothing_goes_on_beside_a_step_that_is_alone_and_none_passes_it(self):
        steps = [shell(SINGLE.format(self.folder) + f" # {number}", goes)
                 for number, goes in enumerate((GATE.COMPUTES, GATE.ALONE, GATE.ALONE, GATE.COMPUTES))]
        said, status = self.run_steps(*steps)
        self.assertEqual(status, 0)
        self.assertEqual("".join(line[-2] for line in said.splitlines() if re.match("gate: (beside others: )?sh", line)), "001233")

    def test_begins_a_step_behind_the_one_that_it_waits_for(self):
        made = self.named("made")
        makes = shell(f"sleep 0.3; touch {made}", GATE.COMPUTES)
        self.assertEqual(self.run_steps(shell(f"test -e {made}", GATE.WAITS, makes.words), makes)[1], 0)

    def test_a_step_that_computes_has_the_lowest_priority(self):
        self.assertEqual(self.run_steps(shell('test "$(nice)" = 19', GATE.COMPUTES), shell(f'test "$(nice)" = {os.nice(0)}'))[1], 0)

    def test_what_a_step_beside_another_says_is_one_piece_after_that(self):
        """The one that waits ends once the last one goes on, and so after the one that says something."""
        made = self.named("made")
        steps = shell(AWAIT.format(made)), shell("echo one; sleep 0.1; echo two >&2", GATE.COMPUTES), GATE.Step(f"touch {made}", GATE.COMPUTES)
        said, _ = self.run_steps(*steps)
        self.assertRegex(said, r"(?s)gate: beside others: touch.*gate: sh -c 'echo one[^\n]*'\none\ntwo\ngate: touch [^\n]*\ngate: passed")

    def test_each_step_of_the_gate_that_waits_for_another_names_one(self):
        every = GATE.steps("2", ["fish"])
        names = [step.words for step in every]
        self.assertEqual(len(set(names)), len(names))
        for step in every:
            self.assertIn(step.behind, ["", *names])
            # what the demo makes is used behind it alone
            if GATE.UNPROVED in step.words:
                self.assertEqual(step.behind, "sh tools/demo.sh")

    def test_what_the_lists_of_rows_leave_out_is_there(self):
        for name in ("web", "windows"):
            ran = subprocess.run([os.path.join(TOP, name, "rows"), "--list"], capture_output=True, text=True)
            self.assertIn("test_log.Log.", ran.stdout + ran.stderr, name)

    def test_a_step_without_its_tools_is_left_out_where_the_call_names_them(self):
        """They are among those that CI installs. Here sh has nothing else but what its first lines call."""
        os.symlink(shutil.which("dirname"), self.path("dirname"))
        installed = set(text_in("tools", "packages").replace('"', " ").split())
        for script in ("arm64", "web", "windows"):
            needs = re.findall(r"([\w-]+):\S", re.search(r"for need in ((?:.|\n)*?);", text_in(script, "try"))[1])
            self.assertLessEqual(set(needs), installed)
            for named, status in ((needs[:1], 0), (needs[1:], 1)):
                ran = subprocess.run(["/bin/sh", os.path.join(TOP, script, "try"), *named], env={"PATH": self.folder}, capture_output=True, text=True)
                self.assertEqual((ran.returncode, ran.stdout[:10]), (status, "left out: "), ran.stderr)

    def test_a_second_turn_is_for_a_test_that_failed_and_hears_a_board(self):
        runs = script("tests", "run")
        with unittest.mock.patch.object(runs, "run", lambda path, name: "again"), contextlib.redirect_stdout(io.StringIO()):
            for name, faults, came in (("test_line.A.b", ["late"], "again"), ("test_line.A.b", [], None), ("test_undo.A.b", ["no"], None)):
                ran = runs.Ran("program", name, faults, [], 0.0, 0.0)
                self.assertEqual(runs.run_again("program", ran), came or ran)

    def test_a_thread_that_goes_on_behind_its_test_is_a_fault(self):
        runs, over = script("tests", "run"), threading.Event()
        leaves = unittest.FunctionTestCase(threading.Thread(target=over.wait, name="a thread").start)
        with unittest.mock.patch.object(unittest.defaultTestLoader, "loadTestsFromName", lambda _: leaves), unittest.mock.patch.dict(os.environ):
            self.assertEqual(runs.run("program", "it").faults, ["it: a thread goes on behind it"])
            over.set()

    def test_more_tests_of_a_quick_program_go_on_at_once_than_of_others(self):
        runs, lock, going = script("tests", "run"), threading.Lock(), collections.Counter()
        most = collections.Counter()

        def run(path, name):
            kind = "quick" if path == "quick" else "others"
            with lock:
                going[kind] += 1
                most[kind] = max(most[kind], going[kind])
            time.sleep(0.02)
            with lock:
                going[kind] -= 1
            return runs.Ran(path, name, [], [], 0.0, 0.0)

        names = [f"test_undo.A.b{number}" for number in range(12)] + ["test_giving_up.A.b"]
        with unittest.mock.patch.object(runs, "run", run), unittest.mock.patch.object(runs, "AT_ONCE", {True: 3, False: 2}), \
                concurrent.futures.ThreadPoolExecutor(20) as pool, contextlib.redirect_stdout(io.StringIO()) as said:
            ended = runs.run_all(pool, ["quick", "slow-unproved"], ["brief"], names)
        self.assertEqual(len(said.getvalue().splitlines()), 3 * len(names) - 1)
        self.assertEqual(most, {"quick": 3, "others": 2})
        self.assertEqual({path: [test.name for test in tests] for path, tests in ended.items()},
                         {"quick": names, "slow-unproved": names, "brief": names[:-1]})


class Mutants(unittest.TestCase):
    """tools/mutants: which faults a sample has, and by which tests each is looked for."""

    def test_a_sample_is_of_the_seed_and_stays_while_faults_come(self):
        mutants = script("tools", "mutants")
        make = lambda group, name: mutants.planted.Fault(group, name, "", 0, 0, "", "", "", "")
        faults = [make(group, f"{group} {number}") for group in mutants.planted.GROUPS for number in range(50)]
        names = {it.name for it in mutants.sampled(faults, 12, "a")}
        self.assertEqual(collections.Counter(name.split()[0] for name in names), {"program": 4, "companions": 4, "layers": 2, "packages": 2})
        self.assertNotEqual(names, {it.name for it in mutants.sampled(faults, 12, "b")})
        self.assertEqual(names, {it.name for it in mutants.sampled(faults[::-1], 12, "a")})
        # one that comes takes the place of one at the most
        for number in range(20):
            self.assertIn(len(names - {it.name for it in mutants.sampled([make("program", f"new {number}"), *faults], 12, "a")}), (0, 1))

    def test_of_a_block_there_is_one_by_the_seed_and_none_by_hand(self):
        mutants = script("tools", "mutants")
        make = lambda block, number: mutants.planted.Fault("program", f"{block} {number}", "x.rt", 0, 0, "", "", block, "named" * (block == "c"))
        faults = [make(block, number) for block in "abc" for number in range(50)]
        one, other = ({it.name for it in mutants.of_blocks(faults, seed)} for seed in "12")
        self.assertEqual((sorted(it[0] for it in one), len(one | other)), (["a", "b"], 4))
        self.assertEqual(one, {it.name for it in mutants.of_blocks([it for it in faults[::-1] if it.name not in other], "1")})

    def test_a_fault_is_looked_for_by_the_test_that_found_it_and_then_by_some_that_reach_it(self):
        mutants = script("tools", "mutants")
        looking = mutants.Looking.__new__(mutants.Looking)
        looking.found, looking.most = {"it": "c"}, 25
        looking.reach = types.SimpleNamespace(of=lambda fault: ["a", "gone", "b", "c", "d"], tests=["a", "gone", "b", "c", "d", "e"], seconds={"a": 10, "b": 10, "c": 10})
        looking.there = {*"abcde", "a.new", "e.new"}
        fault = mutants.planted.Fault("program", "it", "x.rt", 0, 0, "", "", "", "")
        self.assertEqual([looking.tests_of(it) for it in (fault, fault._replace(name="other"), fault._replace(test="named"))], [["c", "a", "b"], ["a", "b"], ["named"]])
        # what was recorded isn't there any more, or was there not yet
        self.assertEqual(looking.reaching(fault), [*"abcd", "a.new"])


class KeptModule(Room):
    """tools/unproved.py: what the demo made of the whole program is taken for 64-bit ARM where it is of the same text."""

    def test_a_module_is_taken_for_the_very_text_that_it_is_of(self):
        unproved, top, kept = script("tools", "unproved.py"), self.path("top"), self.path("kept")
        self.put("top/crates/one/src/lib.rt", "one")
        self.assertFalse(unproved.is_kept(kept, top))
        unproved.keep(self.put("module", "a module"), kept, top)
        self.assertEqual(text_in(kept), "a module")
        self.assertTrue(unproved.is_kept(kept, top))
        # what a build leaves is no text of it
        self.put("top/crates/one/out/made", "made")
        self.assertTrue(unproved.is_kept(kept, top))
        with unittest.mock.patch.object(unproved, "kit_name", lambda: b"another kit"):
            self.assertFalse(unproved.is_kept(kept, top))
        for name, text in (("top/crates/one/src/lib.rt", "other"), ("top/crates.txt", "one:")):
            unproved.keep(self.put("module", "a module"), kept, top)
            self.put(name, text)
            self.assertFalse(unproved.is_kept(kept, top))


class Weight(Room):
    """tools/weight, of a checkout that has one file of each kind."""

    # each file with its group and its kind
    FILES = {"crates/stm_wire/src/a.rt": "core, src", "crates/stm_weak/specs/A.antt": "laws beside, specs",
             "crates/stmflash/proofs/a/Answers.antt": "program, proofs", "crates/stm_tests/src/b.rt": "tests and benches, src",
             "tests/a.py": "beside, Python", "tools/a": "beside, Python", "tools/b": "beside, sh", "Makefile": "beside, sh",
             "arm64/a.c": "beside, C", "docs/A.md": "words, by hand"}
    # these have no record
    MADE = {"docs/B.md": "<!-- made by tools/b -->\n", "CHANGELOG.md": "", "LICENSE": ""}
    FIRST = {"tools/a": "#!/usr/bin/env python3\n", "tools/b": "#!/bin/sh\n"}

    def setUp(self):
        super().setUp()
        subprocess.run(["git", "init", "-q", self.folder], check=True)
        for path in (*self.FILES, *self.MADE):
            self.lay(path, 3)
        self.assertEqual(self.weigh("--record").returncode, 0)

    def lay(self, path, lines):
        self.put(path, self.MADE.get(path, "") + self.FIRST.get(path, "") + "word\n" * lines)

    def weigh(self, *words):
        return subprocess.run([sys.executable, os.path.join(TOP, "tools", "weight"), *words, self.folder], capture_output=True, text=True)

    def test_what_is_heavier_fails_by_its_group_and_kind(self):
        self.assertEqual((self.weigh("--check").returncode, self.weigh("--check").stderr), (0, ""))
        for path, group in self.FILES.items():
            with self.subTest(path=path):
                self.lay(path, 4)
                ran = self.weigh("--check")
                self.assertEqual(ran.returncode, 1)
                self.assertRegex(ran.stderr, rf"^weight: {group}: (\d+), and its record is \d+ \(tools/weight.toml\)\n$")
                self.lay(path, 3)
        for path in self.MADE:
            self.lay(path, 40)
        self.assertEqual(self.weigh("--check").returncode, 0)

    def test_the_record_falls_and_never_rises(self):
        for lines, records, status in ((9, True, 1), (1, True, 0), (2, False, 1)):
            self.lay("tests/a.py", lines)
            if records:
                self.weigh("--record")
            self.assertEqual(self.weigh("--check").returncode, status, lines)
