"""Edits of a crate's functions, as `rt must-fail` reads them, and their twins."""

import collections
import os
import pathlib
import re

from functions import Unknown

# a word of code: a text, a path with its dots or colons, a number, an operator or a mark
WORD = re.compile(
    r"""b?"(?:[^"\\]|\\.)*"|b?'(?:[^'\\]|\\.)'|&(?:mut )?\[\]|[A-Za-z_]\w*(?:(?:::|\.)[A-Za-z_]\w*)*|\d\w*"""
    r"""|<<=|>>=|\.\.=|[-+*/%^&|=!<>]=|&&|\|\||->|=>|::|\.\.|<<|>>|\S"""
)
# the words that lead to goals of their own
WAYS = {"if", "else", "match", "=>", "?", "return", "while", "for", "loop", "break", "continue", "&&", "||"}
CLAUSE = re.compile(r"\b(requires|ensures|ghost|measure|invariant)\b[^{}]*$")

SAYS_NOTHING = re.compile(r"^# says nothing: (.+)", re.M)

# Its functions are the prover's paths; its pairs are a file, an old and a new text; its twin is a path; its reason is why it says
# nothing, where it says so itself.
Edit = collections.namedtuple("Edit", "name functions pairs twin reason")


class BadEdit(Exception):
    """An edit that can't be read, or that changes no body."""


def pairs_of(text):
    file = old = None
    for line in text.split("\n"):
        word, _, rest = line.partition(":")
        rest = rest.removeprefix(" ")
        if word == "file":
            file = rest.strip()
        elif word == "old":
            old = rest
        elif word == "new":
            yield file, old, rest


def body_of(text, start):
    """Where the body of the function begins whose header begins there: behind its parameters and its clauses."""
    at, depth = start, 0
    while at < len(text):
        one = text[at]
        if one in "([":
            depth += 1
        elif one in ")]":
            depth -= 1
        elif one == ";" and not depth:
            return None
        elif one == "{" and not depth:
            before = text[start:at]
            if not CLAUSE.search(before[max(before.rfind("}"), before.rfind(")")) + 1:]):
                return at
            braces = 1
            while braces:
                at += 1
                braces += (text[at] == "{") - (text[at] == "}")
        at += 1
    return None


def read_edit(functions, path):
    """The edit of a file that `rt` has found readable."""
    twin = path.removesuffix(".edit") + ".twin"
    name, paths, pairs, said = os.path.basename(path), set(), [], pathlib.Path(path).read_text(encoding="utf-8")
    for file, old, new in pairs_of(said):
        if file not in functions.texts:
            raise BadEdit(f"it changes {file}, which is no file of src")
        text = functions.texts[file]
        if text.count(old) != 1:
            raise BadEdit(f"an old text is in {file} {text.count(old)} times, and not once")
        try:
            function = functions.at(file, text.index(old) + len(old) - len(old.lstrip()))
        except Unknown as why:
            raise BadEdit(str(why)) from None
        body = body_of(text, function.start)
        if body is None or text.index(old) + len(old.rstrip()) <= body:
            raise BadEdit(f"it changes a contract of {function.path}, and no body")
        paths.add(function.path)
        pairs.append((file, old, new))
    reason = SAYS_NOTHING.search(said)
    has_twin = twin != path and os.path.isfile(twin)
    return Edit(name, paths, pairs, twin if has_twin else None, reason[1].strip() if reason else None)


def words_of(text):
    """The words of code in a text, without comments."""
    return WORD.findall(re.sub(r"//.*", "", text))


def is_one_word(edit):
    """Whether the edit puts one word in the place of another, adds one or takes one away, and leaves all else."""
    changed = [(one, other) for one, other in ((words_of(old), words_of(new)) for _, old, new in edit.pairs) if one != other]
    if len(changed) != 1:
        return False
    before, after = changed[0]
    same = len(os.path.commonprefix([before, after]))
    behind = max(len(before), len(after)) - same - 1
    return before[len(before) - behind:] == after[len(after) - behind:] and abs(len(before) - len(after)) <= 1


def ways_of(edit):
    """The words of an edit's new texts that lead to goals, in order."""
    return [word for _, _, new in sorted(edit.pairs) for word in words_of(new) if word in WAYS]


def check_twin(edit, twin):
    """Refuses a twin that isn't of its edit's shape."""
    news = [[words_of(new) for _, _, new in it.pairs] for it in (twin, edit)]
    for is_so, text in (
            (twin.functions != edit.functions, "is of another function"),
            (ways_of(twin) != ways_of(edit), f"has other ways through the body: {' '.join(ways_of(twin))}, and it {' '.join(ways_of(edit))}"),
            ([words_of(old) for _, old, _ in twin.pairs] == news[0], "is the body itself"), (news[0] == news[1], "is the edit itself")):
        if is_so:
            raise BadEdit(f"its twin {text}")


def put_together(functions, edits):
    """The texts with as many of the edits as have functions of their own, these edits, and those that are left."""
    texts, taken, left, touched = {}, [], [], set()
    for edit in edits:
        with_it = {file: texts.get(file) or functions.texts[file] for file, _, _ in edit.pairs}
        fits = not edit.functions & touched
        for file, old, new in edit.pairs:
            fits = fits and with_it[file].count(old) == 1
            with_it[file] = with_it[file].replace(old, new)
        if fits:
            texts.update(with_it)
            taken.append(edit)
            touched |= edit.functions
        else:
            left.append(edit)
    return texts, taken, left


def blamed(edits, texts, errors):
    """The edits in whose new texts an error of the front end lies, by name, each with its line. Where it lies in no new text, it is
    of each edit of its file."""
    found = {}
    for error in errors:
        at = re.match(r"(?:\./)?(\S+?):(\d+):", error)
        of_file = [it for it in edits if at and at[1] in [file for file, _, _ in it.pairs]]
        near = [it for it in of_file if (at[1], int(at[2])) in [
            (file, texts[file].count("\n", 0, texts[file].find(new)) + 1) for file, _, new in it.pairs]]
        for edit in near or of_file:
            found.setdefault(edit.name, error)
    return found
