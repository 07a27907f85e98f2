"""Which clauses an edit turns: the names of the clauses whose goals aren't proved for it any more.

A goal's name says what it is of. `returns-then-found-clause-honest` is the clause `honest` of the function's own `ensures`, and
`put-requires-clause-fits` is what a callee asks for. A goal as `returns`, without a clause, covers each clause of the function:
that is the only one where there is one, and else none can be told from the others.
"""

import collections
import re

from edits import body_of
from judging import IS_FALSE
from verdicts import ANSWER, FALSE, OPEN

CLAUSE = re.compile(r"-clause-(\w+)$")
ENSURES = re.compile(r"\bensures\b\s*(\w*)\s*\{")
# what isn't a clause of the function's own, in the order in which it is looked for
OTHERS = (
    (re.compile(r"-requires(?:-|$)"), "what a callee requires"),
    (re.compile(r"-(?:init|preserved|smaller)(?:-|$)"), "a loop's invariant"),
    (re.compile(r"^invariant_of-"), "a type's invariant"),
    (re.compile(r"^(?:overflow|nonzero|bounds|slice_bounds|offset_bounds)(?:_|-|$)"), "bounds of a number or an index"),
)
# a lone clause that has no name; several that a goal has together; a goal of a closure or a cycle in the function; an error of no goal
NO_NAME, WHOLE, WITHIN, NO_GOAL = "a clause without a name", "one of several clauses", "a closure or a cycle", "a goal without a name"


def clauses_of(path, functions):
    """The names of the clauses that a function ensures, as they stand in its source; '' for one without a name."""
    heads = [functions.texts[it.file][it.start:body_of(functions.texts[it.file], it.start) or it.start] for it in functions.all if it.path == path]
    return ENSURES.findall(heads[0]) if heads else []


def clause_of(finding, functions):
    """What a goal is of: a clause's name, or one of the kinds above."""
    if not finding.goal:
        return NO_GOAL
    if other := next((name for form, name in OTHERS if form.search(finding.goal)), None):
        return other
    if clause := CLAUSE.search(finding.goal):
        return clause[1]
    named = clauses_of(finding.path, functions)
    return WITHIN if finding.path not in functions.paths else (named[0] or NO_NAME) if len(named) == 1 else WHOLE


def turned(edit, kind, verdicts, functions):
    """The clauses that an edit turns, by names: those with values against them, where that is why it is refused."""
    kinds = {FALSE} if kind == IS_FALSE else {ANSWER, OPEN}
    found = [it for path in edit.functions for it in verdicts.of_function(path, functions) if it.kind in kinds]
    return sorted({clause_of(it, functions) for it in found})


def score(told):
    """How many edits turn each clause, in a line, the most first; an edit that turns two counts for both."""
    count = collections.Counter(clause for clauses in told for clause in clauses)
    return ", ".join(f"{clause} {number}" for clause, number in sorted(count.items(), key=lambda it: (-it[1], it[0])))
