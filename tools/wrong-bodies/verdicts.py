"""What the prover says of each function, read from what a check printed."""

import collections
import re

# In order of what they say of a function's contract: values at which a goal of the function is false; a goal that no answer and no search proves; an answer
# that doesn't prove its goal; and what says nothing of it, as a name that went or a callee that isn't proved.
FALSE, OPEN, ANSWER, NAMES = "false", "open", "answer", "names"

# The path is the prover's, without the crate; the goal is '' where the line names none.
Finding = collections.namedtuple("Finding", "path kind goal line")

AT_PROOF = re.compile(r"(?:\./)?proofs/(\S+)/\w+\.antt(?::\d+:\d+)?: error: (?:`([^`]*)`: )?(.*)")
AT_LEMMA = re.compile(r"(?:\./)?proofs/\w+\.antt:\d+:\d+: error: ")
NOTE = re.compile(r"note: src/\S+:\d+:\d+: it is not proved that .*?\(`([^`]+)`\)(.*)")
VERDICT = re.compile(r"fn (\S+): (.*)")
HAS_VALUES = "the facts known there allow values at which this goal is false"
# what an error says where a name went, where it stands on what is refused elsewhere, or where the file isn't read at all
GONE = re.compile(
    r"has no field|has no `|is not in scope|is no name|\(nearest: |was not admitted|not admitted|record `[^`]*`\s*$"
    r"|declarations? that depends? on|was rejected|which antt refuses|rattle does not read|is answered twice|names no goal"
)
UNCOVERED = "the borrow checker does not cover this function"
# a function whose every goal is proved, given the contracts of what it calls
PROVED = re.compile(r"proved|no holes|depends on a hole in ")


class Verdicts:
    """What a check of a crate said: the findings, and what it said of each function."""

    def __init__(self, crate, said):
        self.findings, self.of, self.lemmas = [], {}, []
        notes = []
        for line in said.split("\n"):
            proof, note, verdict = AT_PROOF.match(line), NOTE.match(line), VERDICT.match(line)
            if proof:
                kind = NAMES if GONE.search(proof[3]) else ANSWER
                self.findings.append(Finding(proof[1].replace("/", "::"), kind, proof[2] or "", line))
            elif AT_LEMMA.match(line):
                self.lemmas.append(line)
            elif note:
                notes.append((FALSE if HAS_VALUES in note[2] else OPEN, note[1], line.removeprefix("note: ")))
            elif verdict:
                path = verdict[1].removeprefix(f"{crate}::")
                self.of[path] = verdict[2]
                self.findings += [Finding(path, *it) for it in notes]
                if UNCOVERED in verdict[2]:
                    self.findings.append(Finding(path, NAMES, "", line))
                notes = []

    def of_function(self, path, functions):
        """The findings of a function that is written in `src`: its own, and those of closures, loops and cycles in it."""
        return [it for it in self.findings if functions.owner(it.path) == path or path in functions.of_cycle(it.path)]

    def is_proved(self, path):
        return PROVED.match(self.of.get(path, "")) is not None

    def beside(self, asked, functions):
        """The first line that says of a lemma, or of a function that wasn't asked, that it isn't proved in itself."""
        of_asked = {it for path in asked for it in self.of_function(path, functions)}
        return next((line for line in (*self.lemmas, *(it.line for it in self.findings if it.kind != NAMES and it not in of_asked))), None)
