#!/usr/bin/env python3
"""Tries the wrong bodies crates/NAME/wrong-bodies/*.edit, many in one check: the prover must refuse each, in its own function.

    python3 tools/wrong-bodies [--built] [--by-hand | --harmless] [CRATE..]

When an edit counts as refused, what says nothing, and why, is in docs/GATE.md. An edit is a file as `rt must-fail` reads it: a line
`file: src/NAME.rt`, then pairs of lines `old: TEXT` and `new: TEXT`, each old text just once in its file. Its twin, where it has one, is a
file NAME.twin beside it, of the same form. Of each refused edit it is told which clauses it turns, in parentheses: those whose goals aren't
proved for it. In the end each clause is told with the number of edits that turn it; an edit that turns two counts for both.

--built takes the libraries below a crate as `rt ci` left them, and builds none. --by-hand tries those of `wrong-bodies/by-hand` too, and
--harmless those of `wrong-bodies/harmless` alone. The status is 0 where each edit was refused, or says nothing as it says itself, and 1
where one wasn't or couldn't be tried; of harmless ones it is 0 where each is proved or says nothing.
"""

import glob
import os
import re
import sys
import tempfile

sys.dont_write_bytecode = True
HERE = os.path.dirname(os.path.abspath(__file__))
sys.path[:0] = [HERE, os.path.dirname(HERE)]

from clauses import score, turned
from edits import BadEdit, blamed, check_twin, put_together, read_edit
from functions import Functions
from judging import BAD, FAILED, GONE, PASSED, REFUSED, WAITS, judge
from kit import begin, check, rt, share_work
from simulator import words_of
from verdicts import Verdicts


# the front end refuses a text before any proof
FRONT_END = re.compile(r"src/\S+:\d+:\d+: error\[")
# what an edit counts as: refused, of no word as it says itself, or neither
WELL, OPEN, NOT = "refused", "that say nothing, as they say themselves", "not"
# and one that means the same as the body: proved, of no word, or counted as refused, which it mustn't be, or not tried
SAME, SILENT, FALSELY = "proved", "that say nothing", "falsely refused, or not tried"


class CannotTry(Exception):
    """A check says nothing of its edits."""


class Trial:
    """What is tried of a crate, and what came of it."""

    def __init__(self, crate, kept):
        self.crate, self.kept, self.functions, self.told = crate, kept, Functions(crate.folder), []
        # which clauses each edit turned when it was tried last, by its name
        self.turned = {}

    def say(self, counts, name, text):
        """Tells what came of an edit, and takes down what it counts as, with the clauses that refused it."""
        self.told.append((counts, self.turned[name] if counts == WELL else []))
        print(f"{self.crate.name}/{name}: {text}", flush=True)

    def read(self, path):
        _, why = rt.read_edit(path, self.crate.folder)
        if why:
            raise BadEdit(why)
        return read_edit(self.functions, path)

    def read_all(self, paths):
        """The edits that can be read, with their twins by name."""
        edits, twins = [], {}
        for path in paths:
            try:
                edit = self.read(path)
                if edit.twin:
                    twins[edit.name] = self.read(edit.twin)
                    check_twin(edit, twins[edit.name])
                edits.append(edit)
            except BadEdit as why:
                self.say(NOT, os.path.basename(path), f"BAD EDIT: {why}")
        return edits, twins

    def try_together(self, edits):
        """What the prover says of as many edits as go together, by name, and the edits that are left."""
        texts, taken, left = put_together(self.functions, edits)
        asked = {path for edit in taken for path in edit.functions}
        said, status = check(self.crate, self.functions, texts, asked, self.kept)
        lines = said.rstrip("\n").split("\n")
        errors = [it for it in lines if FRONT_END.match(it) or rt.unread(it, texts)]
        bad = blamed(taken, texts, errors)
        if bad:
            return {name: (BAD, line) for name, line in bad.items()}, left + [it for it in taken if it.name not in bad]
        if errors or status not in (0, 1) or not lines[-1].startswith("only="):
            raise CannotTry((errors or lines[-1:])[0][:200])
        verdicts = Verdicts(self.crate.name, said)
        strange = verdicts.beside(asked, self.functions)
        if strange:
            raise CannotTry(f"what no edit touches isn't proved: {strange[:200]}")
        came = {edit.name: judge(edit, verdicts, self.functions) for edit in taken}
        self.turned.update({edit.name: turned(edit, came[edit.name][0], verdicts, self.functions) for edit in taken})
        return came, left

    def try_all(self, edits):
        """What came of each edit, by its name: tried with others, and in the end alone."""
        came, waiting, together = {}, edits, True
        while waiting:
            now = waiting if together else waiting[:1]
            try:
                results, left = self.try_together(now)
            except CannotTry as why:
                if together:
                    together = False
                    continue
                results, left = {now[0].name: (WAITS, f"it can't be tried: {why}")}, []
            again = [it for it in now if it.name in results and results[it.name][0] in (WAITS, GONE) and together]
            came.update({name: it for name, it in results.items() if name not in {edit.name for edit in again}})
            if together:
                # what may wait for a callee's proof is tried with fewer, until that settles nothing
                together, waiting = len(again) < len(results), left + again
            else:
                waiting = waiting[1:]
        return came

    def run(self, paths):
        edits, twins = self.read_all(paths)
        came = self.try_all(edits)
        asked = [twins[edit.name] for edit in edits if edit.name in twins and came[edit.name][0] == FAILED]
        of_twins = self.try_all(asked)
        for edit in edits:
            kind, why = came[edit.name]
            spare = "; its line `# says nothing` can go" if edit.reason else ""
            by = f" ({', '.join(self.turned.get(edit.name, ()))}{spare})"
            twin = of_twins.get(twins[edit.name].name) if edit.name in twins else None
            if kind in (BAD, PASSED):
                self.say(NOT, edit.name, f"BAD EDIT: {why[:200]}" if kind == BAD else "NOT REFUSED")
            elif kind in REFUSED:
                self.say(WELL, edit.name, f"refused, {kind}{by}: {why[:160]}")
            elif twin and twin[0] == PASSED:
                self.say(WELL, edit.name, f"refused, and its twin is proved{by}: {why[:160]}")
            elif edit.reason:
                self.say(OPEN, edit.name, f"says nothing, as it says: {edit.reason}")
            else:
                self.say(NOT, edit.name, f"SAYS NOTHING: {f'its twin: {twin[0]}: {twin[1]}' if twin else f'{kind}: {why}'}"[:240])
        return self.told

    def run_harmless(self, paths):
        """Of edits that mean the same as the body: whether each is proved, says nothing, or counts as refused."""
        edits, _ = self.read_all(paths)
        came = self.try_all(edits)
        for edit in edits:
            kind, why = came[edit.name]
            counts = SAME if kind == PASSED else SILENT if kind in (FAILED, GONE) else FALSELY
            word = "says nothing" if counts == SILENT else "REFUSED" if kind in REFUSED else "NOT TRIED"
            self.say(counts, edit.name, "proved, as it is to be" if counts == SAME else f"{word}, {kind}: {why[:160]}")
        return self.told


def try_crate(crate, edits, is_harmless):
    """Says of each edit of the crate whether it was refused, and returns what each counts as."""
    with tempfile.TemporaryDirectory(prefix="wrong-bodies-") as room:
        os.mkdir(f"{room}/kept")
        begin(crate, f"{room}/kept")
        trial = Trial(crate, f"{room}/kept")
        return trial.run_harmless(edits) if is_harmless else trial.run(edits)


def main():
    options = words_of(__doc__)
    rt.rtlib.guarded()
    share_work()
    crates = [it for it in rt.rtlib.crates_below(os.getcwd()) if not options.crate or it.name in options.crate]
    folders = ("wrong-bodies/harmless",) if options.harmless else ("wrong-bodies", *["wrong-bodies/by-hand"] * options.by_hand)
    edits = {it.name: sorted(edit for folder in folders for edit in glob.glob(f"{it.folder}/{folder}/*.edit")) for it in crates}
    crates = [it for it in crates if edits[it.name]]
    for below in {it.name: it for crate in crates for it in crate.below()}.values():
        if not options.built and below.build_rlib(["--jobs", "1"], anew=False):
            sys.exit(f"tools/wrong-bodies: {below.name} isn't built")
    work = lambda crate: lambda given, jobs: try_crate(crate, edits[crate.name], options.harmless)
    tasks = {(it.name, "edits"): ([], it.count(rb"\n"), rt.need(it), work(it)) for it in crates}
    told = [it for counts in rt.in_lanes(tasks).values() for it in counts]
    counts = [it for it, _ in told]
    if not options.harmless:
        print("tools/wrong-bodies: refused by clause: " + (score(clauses for _, clauses in told) or "none"))
    kinds = (SAME, SILENT, FALSELY) if options.harmless else (WELL, OPEN, NOT)
    print("tools/wrong-bodies: " + ", ".join(f"{counts.count(it)} {it}" for it in kinds))
    sys.exit(1 if NOT in counts or FALSELY in counts else 0)


if __name__ == "__main__":
    main()
