"""Slips that operators make in C, JavaScript, sh, a Makefile's recipes, a unit and udev's rules, line by line.

A slip is (start, end, new, what, block), as in slips_python.py; a block is a line's function, where it has one, or the whole file.
"""

import re

NUMBER = re.compile(r"(?<![\w.'\"$#-])(\d+|0x[0-9A-Fa-f]+)(?![\w.'\"])")
# how a line begins that calls or sets something
CALLS = {
    "C": re.compile(r"^\s+(?!return\b|if\b|for\b|while\b|else\b|do\b|case\b|struct\b|static\b|const\b|let\b|throw\b|export\b|import\b|(?:\w+ )+\*?\w+ = |\w+ \w+;)[\w*(+-][^{}]*;$"),
    "sh": re.compile(r"^\s*(?!if\b|then\b|fi\b|for\b|do\b|done\b|case\b|esac\b|else\b|elif\b|while\b|until\b|set -|#|\(|\{|\}|\)|\*|;;|local\b|[^ ]*\)$|[^ ]*\) |\w+\(\) \{)[\w$@\"'./:].*$"),
    "recipe": re.compile(r"^\t(?!@echo|@test).*$"),
    "setting": re.compile(r"^[A-Z]\w+=.*$"),
}
GUARD = {"C": re.compile(r"(?<![\w])(?:if|while) \((.*)\)(?= \{$| [^()]*;$|$)"), "sh": re.compile(r"^\s*(?:el)?if (.*); then$")}
HEAD = {"C": re.compile(r"^(?:export |async |static |[\w*]+ )*\*?(\w+)\([^;]*\) \{$|^  (?:async |\*)?(\w+)\([^;]*\) \{$"), "sh": re.compile(r"^(\w+)\(\) \{$")}


def kind_of(path, text):
    """What a file is written in, as far as its slips go; nothing where it has none."""
    if path.endswith((".c", ".js", ".mjs")):
        return "C"
    if path.endswith(".rules"):
        return "rules"
    if path.endswith("Makefile"):
        return "recipe"
    if path.endswith((".service", ".socket")):
        return "setting"
    return "sh" if re.match(r"#!.*\b(ba)?sh\b", text) or path.endswith((".bash", ".sh")) else None


def of_guard(start, test, kind):
    """A condition that is turned round, and one without one of its operands."""
    if kind == "sh":
        yield start, start + len(test), test[2:] if test.startswith("! ") else f"! {test}" if " && " not in test and " || " not in test else \
            f"! {{ {test}; }}", f"not `{test}`"
        return
    yield start, start + len(test), f"!({test})", f"not `{test}`"
    for word in ("&&", "||"):
        operands = test.split(f" {word} ")
        if len(operands) == 2 and all(it.count("(") == it.count(")") for it in operands):
            for one, other in (operands, operands[::-1]):
                yield start, start + len(test), other, f"without `{one}`"


def slips(path, text):
    """Each slip of a source; of a Makefile what is installed alone."""
    kind, at, block, before, until = kind_of(path, text), 0, "", None, None
    for line in text.splitlines():
        start, at = at, at + len(line) + 1
        end, code = at - 1, line.strip()
        # a text that goes to a command
        if until:
            until = until if line != until else None
            continue
        opens = kind == "sh" and re.search(r"<< ?-?'?(\w+)'?", line)
        until = opens[1] if opens else None
        if kind == "recipe":
            block = line.split(":")[0] if re.match(r"^[\w-]+:", line) else block
            if not block.startswith("install"):
                continue
        found = kind in HEAD and HEAD[kind].match(line)
        if found:
            block = found[1] or found[2]
            if kind == "sh":
                yield end, end, "\n    return 0", "it ends at once", block
        if not code or code.startswith(("#", "//", "/*", "*", "[")) or kind is None:
            before = None
            continue
        if kind == "rules":
            for it in re.finditer(r'[A-Z][\w{}/]*[=+]=?"[^"]*",? ?', line):
                yield start + it.start(), start + it.end(), "", f"no `{it[0].strip()}`", block
            continue
        yield from ((*it, block) for it in of_line(line, start, kind))
        is_call = bool(CALLS[kind].match(line)) and not line.endswith("\\") and not (before and before[0].endswith("\\")) and code not in ("pass", ":")
        if is_call:
            indent = line[:len(line) - len(line.lstrip())]
            yield start, end, {"sh": f"{indent}:", "C": f"{indent};"}.get(kind, ""), f"no `{code}`", block
            if before and before[2] and before[1] == len(indent) and kind in ("C", "sh") and (kind == "sh" or re.search(r"\w\(", before[0] + line)):
                yield start - len(before[0]) - 1, end, f"{line}\n{before[0]}", f"`{code}` before `{before[0].strip()}`", block
        before = line, len(line) - len(line.lstrip()), is_call


def of_line(line, start, kind):
    """What may slip in a line: its condition, its limits and its constants."""
    guard = kind in GUARD and GUARD[kind].search(line)
    if guard and guard[1].count("(") == guard[1].count(")"):
        yield from of_guard(start + guard.start(1), guard[1], kind)
    if kind == "sh":
        for it in re.finditer(r"(?<=\[ )-[nz](?= )|(?<= )!?=(?= )", line):
            new = {"-n": "-z", "-z": "-n", "=": "!=", "!=": "="}[it[0]]
            yield start + it.start(), start + it.end(), new, f"`{new}` for `{it[0]}` in `{line.strip()}`"
    elif kind == "C":
        for it in re.finditer(r" (<|>)(=?) ", line):
            new = f" {it[1]}{'' if it[2] else '='} "
            yield start + it.start(), start + it.end(), new, f"`{new.strip()}` for `{it[0].strip()}` in `{line.strip()}`"
    for it in NUMBER.finditer(re.sub(r"'[^']*'|\"[^\"]*\"| //.*" if kind == "C" else "$^", lambda it: " " * len(it[0]), line)):
        old, value = it[1], int(it[1], 16 if it[1].startswith("0x") else 8 if it[1].startswith("0") and it[1].isdigit() and len(it[1]) > 1 and
                                not set(it[1]) & set("89") else 10)
        new = f"{value + 1:0{len(old)}o}" if len(old) > 1 and old[0] == "0" and old[1:2] != "x" else str(value + 1)
        yield start + it.start(1), start + it.end(1), new, f"`{old}` is {new} in `{line.strip()}`"
