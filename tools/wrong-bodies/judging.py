"""What an edit came to, by what the prover says of its own functions."""

from edits import is_one_word
from verdicts import ANSWER, FALSE, NAMES, OPEN

# refused, for certain or by itself; the rest isn't
IS_FALSE = "at values that the prover has"
ONE_WORD = "one word beside the body"
REFUSED = (IS_FALSE, ONE_WORD)
# proved: the contract lets it through; not read: it doesn't reach the prover
PASSED, BAD = "passed", "bad"
# a goal of its own fails, and may be true all the same; nothing failed but by names that went; nothing is known yet
FAILED, GONE, WAITS = "a goal may be true and lack an answer that fits", "a name went", "it wasn't tried"


def judge(edit, verdicts, functions):
    """What came of an edit, and the line of the prover's that says so."""
    found = [it for path in sorted(edit.functions) for it in verdicts.of_function(path, functions)]
    lines = {kind: [it.line for it in found if it.kind == kind] for kind in (FALSE, OPEN, ANSWER, NAMES)}
    failed = lines[ANSWER] + lines[OPEN]
    for came, said in ((IS_FALSE, lines[FALSE]), (ONE_WORD if is_one_word(edit) and not lines[NAMES] else FAILED, failed), (GONE, lines[NAMES])):
        if said:
            return came, said[0]
    if all(verdicts.is_proved(path) for path in edit.functions):
        return PASSED, ""
    said = [verdicts.of[path] for path in sorted(edit.functions) if path in verdicts.of]
    return WAITS, said[0] if said else "the prover says nothing of its function"
