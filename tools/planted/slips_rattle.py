"""Slips that operators make in Rattle, by its lines as they are formatted; and its blocks, by which it is recorded what a test reaches.

A slip is (start, end, new, what, block), as in slips_python.py. In `new` stands `@on`, which is true where the slip is on, and `@old`,
the text that is there: so many are built into one program. What the build refuses by its type is no slip.
"""

import collections
import functools
import glob
import itertools
import os
import re

TOP = os.path.dirname(os.path.dirname(os.path.dirname(os.path.abspath(__file__))))
HEAD = re.compile(r"^( *)(?:pub(?:\([a-z]+\))? )?fn (\w+)")
OPENS = re.compile(r"^ *(?:(?:\} )?else(?: if .*)?|if .*|for .*|while .*|loop|.* =>|let .* else) \{$")
# what proofs alone read
UNRUN = re.compile(r"ghost |\.record\.then\(")
STATEMENT = re.compile(r"^ +(?!let (?!_ = )|return\b|break|continue|if |match |for |while |loop|use |const |static |ghost |[})\]])[\w*&(]")
NUMBER = re.compile(r"(?<![\w.'\"])(\d[\d_]*?|0x[0-9A-Fa-f_]+?)(_?[ui](?:8|16|32|64|size))?(?![\w.'\"]|\.\d)")
BOOL = re.compile(r"(?<![\w.])(true|false)(?!\w)")
ANSWERS = (("()", "return;"), ("bool", "return false;"), ("u8", "return 0;"), ("u16", "return 0;"), ("u32", "return 0;"), ("u64", "return 0;"),
           ("usize", "return 0;"))
# types of which a value may stand where another one stood
LIKE = re.compile(r"^(&('\w+ )?(?!mut)[\w\[\]<>', ]+|u8|u16|u32|u64|usize|bool|char)$")
# an arm of a match, an `if let` or `let else`, and where in a line an expression stands alone
ARM = re.compile(r"^( *)(\S.*?) => (.*)$")
LETS = re.compile(r"^ *(?:(?:\} else )?(?:if|while) let ([^=]*[(\[][^=]*) = (.*\(.*) \{|let ([^=]*[(\[][^=]*) = (.*\(.*) else \{)$")
ALONE = re.compile(r"^ +(?:(?:let (?:mut )?\w+|[\w.]+) = |[\w|&.,:@*\x22'\[\]() ]+ => |return |\w+: )?([^=;]*[^=;,{(])[;,]?$")
# what may stand for what in such an expression
TWINS = (("from_be_bytes", "from_le_bytes"), ("from_le_bytes", "from_be_bytes"), (".min(", ".max("), (".max(", ".min("), ("split_once", "rsplit_once"),
         (" / ", " % "), (" % ", " / "), (" + 1", ""), (" - 1", ""), (".any(", ".all("), (".all(", ".any("), (".first()", ".last()"), ("Escaped(", "("))
ERROR = re.compile(r'#\[error\("((?:\\.|[^"\\])*)"\)\]')


def masked(text):
    """The text with its comments and what stands in quotes made blank, place by place."""
    return re.sub(r'//[^\n]*|b?"(?:\\.|[^"\\])*"|b?\'(?:\\.[^\']*|[^\'\\])\'', lambda it: re.sub(r"[^\n]", "\x00", it[0]), text)


@functools.cache
def options():
    """Which fields of structures and variants may be nothing: (structure, field)."""
    found, structure = set(), ""
    for path in glob.glob(os.path.join(TOP, "crates", "*", "src", "**", "*.rt"), recursive=True):
        with open(path, encoding="utf-8") as source:
            for name, field in re.findall(r"^ *(?:pub(?:\([a-z]+\))? )?(?:struct )?([A-Z]\w*)(?:<.*>)? \{$|^ +(?:pub(?:\([a-z]+\))? )?(\w+): Option<", source.read(), re.M):
                structure = name or structure
                found.add((structure, field))
    return found


def starts_of(lines):
    """Where each line begins, and where they end."""
    return [0, *itertools.accumulate(len(line) + 1 for line in lines)]


def functions(lines):
    """Each function that has a body: its name, its parameters, what it answers, and its body's lines as (first, last + 1)."""
    at = 0
    while at < len(lines):
        head = HEAD.match(lines[at])
        if not head:
            at += 1
            continue
        indent, end = head[1], at
        while end < len(lines) and not (lines[end] == indent + "{" or lines[end].endswith(" {") and not re.match(r" *(ensures|requires) ", lines[end])
                                        and lines[end].startswith((head[0], indent + ")"))) and not lines[end].endswith(";"):
            end += 1
        signature = " ".join(line.strip() for line in lines[at:end + 1])
        begun = end + 1
        if end >= len(lines) or lines[end].endswith(";"):
            at = end + 1
            continue
        while lines[end] != indent + "}":
            end += 1
        before = re.split(r" (?:ensures|requires) ", signature)[0].rstrip("{ ")
        answer = before.split(" -> ", 1)[1] if " -> " in before else "()"
        parameters = dict(re.findall(r"(?:[(,] ?)(\w+): ([^,()]+(?:<[^()]*>)?)(?=[,)])", before))
        yield head[2], parameters, answer, begun, end
        at = end + 1


def blocks(lines, begun, end, name, counts):
    """Of each line of a body the block it stands in, and where each block begins: behind which line."""
    inside, begins, stack = {}, [], []

    def begin(line, indent):
        counts[name] += 1
        stack.append((indent, f"{name}#{counts[name]}"))
        begins.append((line, stack[-1][1]))

    begin(begun - 1, -1)
    for at in range(begun, end):
        line = lines[at]
        indent = len(line) - len(line.lstrip())
        while line.strip() and stack[-1][0] >= indent:
            stack.pop()
        inside[at] = stack[-1][1]
        if OPENS.match(line):
            begin(at, indent)
    return inside, begins


def parts(test):
    """Where the operands of a condition stand, and by what they are joined; nothing where they aren't of one kind."""
    depth, cuts, words = 0, [0], set()
    for at, char in enumerate(test):
        depth += (char in "([{") - (char in ")]}")
        if depth == 0 and test[at:at + 4] in (" && ", " || "):
            words.add(test[at + 1:at + 3])
            cuts += [at, at + 4]
    cuts.append(len(test))
    return (list(zip(cuts[::2], cuts[1::2])), words.pop()) if len(words) == 1 else ([], "")


def of_test(start, test, is_loop):
    """A condition that never holds, or always, where that ends; and one without one of its operands."""
    end = start + len(test)
    if "let " in test:
        return
    found, word = parts(test)
    for a, b in found:
        yield start + a, start + b, "(@old || @on)" if word == "&&" else "(@old && !@on)", f"without `{test[a:b]}`"
    yield start, end, "((@old) && !@on)", f"never `{test}`"
    if not is_loop:
        yield start, end, "((@old) || @on)", f"always `{test}`"


def early(answer):
    """What ends a function at once, by what it answers."""
    if re.fullmatch(r"(?:\w+::)*Result(<\(\)(, .*)?>)?", answer):
        return "return Ok(());"
    return dict(ANSWERS).get(answer, "return None;" if answer.startswith("Option<") else "")


def statements(lines, plain, begun, end):
    """The statements of a body that call or set something: (first line, last line)."""
    at = begun
    while at < end:
        before = next((plain[it].rstrip("\x00 ") for it in range(at - 1, begun - 2, -1) if plain[it].strip("\x00 ")), "{")
        if STATEMENT.match(lines[at]) and plain[at].strip("\x00 ") and before.endswith((";", "{", "}")):
            indent, last = len(lines[at]) - len(lines[at].lstrip()), at
            if plain[at].endswith(("(", "{")) and not plain[at].endswith("=> {"):
                last = next((it for it in range(at + 1, end) if len(lines[it]) - len(lines[it].lstrip()) <= indent and lines[it].strip()), at)
            if plain[last].endswith(";") and ("(" in plain[at] or " = " in plain[at]):
                yield at, last
                at = last
        at += 1


def slips(text):
    for it in ERROR.finditer(text):
        yield it.start(1) - 1, it.end(1) + 1, f'"{it[1]}{{planted}}", planted = if @on {{ "~" }} else {{ "" }}', f"another text than \"{it[1]}\"", ""
    lines, plain = text.split("\n"), masked(text).split("\n")
    limits = re.findall(r"^(?:pub(?:\([a-z]+\))? )?const (\w+): u\w+ =", text, re.M)
    starts, counts = starts_of(lines), collections.Counter()
    for name, parameters, answer, begun, end in functions(lines):
        inside, _ = blocks(plain, begun, end, name, counts)
        if "const fn" in lines[begun - 1]:
            continue
        if early(answer) and end - begun > 1:
            yield starts[begun], starts[begun], f"    if @on {{\n    {early(answer)}\n    }}\n", "it ends at once", f"{name}#{counts[name] - len(set(inside.values())) + 1}"
        found = [it for it in statements(lines, plain, begun, end) if not UNRUN.search(lines[it[0]])]
        yield from ((*it, inside[at]) for at, it in of_arms(lines, plain, starts, begun, end))
        answered = plain[end - 1].strip()
        if early(answer) and re.match(r"^[\w!.]+\(", answered) and answered.endswith(")") and not answered.startswith(("Ok(", "Err(", "Some(")):
            start = starts[end] - 1 - len(lines[end - 1].lstrip())
            yield start, starts[end] - 1, f"if @on {{ {early(answer)[7:-1]} }} else {{ @old }}", f"no `{lines[end - 1].strip()}`", inside[end - 1]
        for first, last in found:
            start, stop = starts[first], starts[last] + len(lines[last])
            yield start, stop, "if !@on {\n@old\n}", f"no `{text[start:stop].strip()}`", inside[first]
        for (first, last), (then, stop) in zip(found, found[1:]):
            # two that only set something are the same either way, but for names in common
            if then == last + 1 and inside[first] == inside[then] and re.search(r"\w\(", text[starts[first]:starts[stop + 1]]):
                one, other = text[starts[first]:starts[last] + len(lines[last])], text[starts[then]:starts[stop] + len(lines[stop])]
                yield starts[first], starts[stop] + len(lines[stop]), f"if @on {{\n{other}\n{one}\n}} else {{\n@old\n}}", \
                    f"`{other.strip()}` before `{one.strip()}`", inside[first]
        for at in range(begun, end):
            line = plain[at]
            if UNRUN.search(line) or line.lstrip().startswith(("const ", "static ", "#[", "use ")):
                continue
            yield from ((*it, inside[at]) for it in of_line(line, lines[at], starts[at], answer == "bool" and at == end - 1, limits))
            yield from ((*it, inside[at]) for it in of_whole(line, lines[at], starts[at]))
            yield from ((*it, inside[at]) for it in of_field(lines, line, at, starts[at]))
            for word, kind in parameters.items():
                is_bound = any(re.search(rf"\bSome\(.*\b{word}\b.*(=>| = )", it) for it in plain[begun:end])
                use = kind.startswith("Option<") and not is_bound and re.search(rf"(?:(?<=\(|\[)|(?<=, )){word}(?=[,)])", line)
                if use and "|" not in line[:use.start()]:
                    yield starts[at] + use.start(), starts[at] + use.end(), "(if @on { None } else { @old })", f"nothing for `{word}` in `{lines[at].strip()}`", inside[at]
                others = [it for it, of in parameters.items() if of == kind and it != word]
                use = others and LIKE.match(kind) and re.search(rf"(?:(?<=\()|(?<=, )){word}(?=[,)])", line)
                if use and "|" not in line[:use.start()]:
                    yield starts[at] + use.start(), starts[at] + use.end(), f"(if @on {{ {others[0]} }} else {{ @old }})", \
                        f"`{others[0]}` for `{word}` in `{lines[at].strip()}`", inside[at]


def of_field(lines, line, at, start):
    """A field of a value that is made here, where it may be nothing."""
    field = re.match(r"^( +)(\w+)(: (?!None).*[^({])?,$", line)
    if field:
        def outer(near):
            return next((it for it in near if it.strip() and len(it) - len(it.lstrip()) < len(field[1])), "")

        of = re.search(r"\b([A-Z]\w*) \{$", outer(lines[at - 1::-1]))
        # a pattern ends otherwise
        if of and (of[1], field[2]) in options() and "=>" not in outer(lines[at + 1:]):
            value = lines[at][len(field[1]) + len(field[2]) + 2 * bool(field[3]):-1].strip() or field[2]
            yield start + len(field[1]), start + len(line) - 1, f"{field[2]}: if @on {{ None }} else {{ {value} }}", f"nothing for `{lines[at].strip()}`"


def of_arms(lines, plain, starts, begun, end):
    """An arm of a match that falls away, where another takes all, and one that has the answer of its neighbour; each with its line."""
    for first in range(begun, end):
        if not re.search(r"\bmatch .*\{$", plain[first]):
            continue
        indent, arms = len(lines[first]) - len(lines[first].lstrip()) + 4, []
        for at in range(first + 1, end):
            if lines[at].strip() and len(lines[at]) - len(lines[at].lstrip()) < indent:
                break
            arm = ARM.match(plain[at])
            if arm and len(arm[1]) == indent:
                arms.append((at, arm.span(2), arm.span(3)))
        takes = [bool(re.match(r"(_|[a-z]\w*|\((_, )*_\))$", plain[at][a:b])) for at, (a, b), _ in arms]
        for number, (at, (a, b), (c, d)) in enumerate(arms):
            what = lines[at][a:b]
            if takes[-1] and number + 1 < len(arms) and " if " not in plain[at][a:b]:
                yield at, (starts[at] + a, starts[at] + b, "@old if !@on", f"never `{what} => ..`")
            told = {lines[at][c:d - 1]}
            for beside, pattern, span in (arms[number + 1:number + 2] + arms[max(number - 1, 0):number]) * plain[at].endswith(","):
                answer = lines[beside][span[0]:span[1] - 1]
                bound = set(re.findall(r"(?<![\w.])[a-z_]\w*", plain[beside][slice(*pattern)])) & set(re.findall(r"\w+", answer))
                if plain[beside].endswith(",") and not bound and answer not in told and {answer, *told} != {"true", "false"}:
                    told.add(answer)
                    yield at, (starts[at] + c, starts[at] + d - 1, f"if @on {{ {answer} }} else {{ @old }}", f"`{answer}` for `{what}`")


def of_whole(line, told, start):
    """What may slip in a line's pattern, and in an expression that stands there alone."""
    found = LETS.match(line)
    if found and line.count("(") == line.count(")") and " match " not in line:
        (a, b), (c, d) = (found.span(1), found.span(2)) if found[1] else (found.span(3), found.span(4))
        yield start + a, start + d, f"({told[a:b]}, false) = ({told[c:d]}, @on)", f"never `{told[a:b]}` of `{told[c:d]}`"
    found = ALONE.match(line)
    if found and all(line.count(a) == line.count(b) for a, b in ("()", "[]", "{}")):
        (a, b), whole = found.span(1), found[1]
        for one, other in TWINS:
            met = re.search(re.escape(one) + r"(?!\d)" * one[-1].isdigit(), whole)
            if met:
                yield start + a, start + b, f"if @on {{ {told[a:a + met.start()]}{other}{told[a + met.end():b]} }} else {{ @old }}", f"`{other}` for `{one}` in `{told.strip()}`"
        if re.match(r"Some\(.+\)$", whole):
            yield start + a, start + b, "if @on { None } else { @old }", f"nothing for `{told[a:b]}`"
        width = re.search(r":0\d(?=[xX]\})", told[a:b])
        if width and line.endswith(")"):
            yield start + a, start + b, f"if @on {{ {told[a:b].replace(width[0], ':')} }} else {{ @old }}", f"no width in `{told.strip()}`"


def of_line(line, told, start, is_answer, limits):
    """What may slip in a line: its condition, its limits and its constants."""
    guard = re.match(r"^ *(?:\} else )?(?:if|while) (.*) \{$", line) or re.match(r"^.* if (.*) => ?.*$", line)
    if guard:
        yield from of_test(start + guard.start(1), told[guard.start(1):guard.end(1)], " while " in line)
    elif is_answer and not line.endswith(";") and re.match(r"^ +[\w!*&(]", line) and line.count("(") == line.count(")") and "{" not in line:
        yield from of_test(start + len(line) - len(line.lstrip()), told.strip(), False)
    shift = line.index("=>") if "=>" in line else 0
    for it in re.finditer(rf"(?<![\w.:])(?<!; )({'|'.join(limits) or '$^'})\b(?!:)", line[shift:]):
        yield start + shift + it.start(), start + shift + it.end(), "(if @on { @old / 2 } else { @old })", f"half of `{it[0]}` in `{told.strip()}`"
    for it in NUMBER.finditer(line, shift):
        around = line[:it.start()].rstrip()[-1:], line[it.end():].lstrip()[:1]
        if around[1] == "]" and around[0] == ";" or around[0] in ".#" or line.lstrip().startswith(("let [", "Some(", "Ok(")) and not shift and "=" in line[it.end():]:
            continue
        # the largest byte has none behind it
        value = int(it[1].replace("_", ""), 0)
        value += 1 if value != 255 else -1
        yield start + it.start(), start + it.end(), f"(if @on {{ {value}{it[2] or ''} }} else {{ @old }})", f"`{it[0]}` is {value} in `{told.strip()}`"
    if "!" not in line and line.count("(") == line.count(")"):
        for it in re.finditer(r'(?<!b)"([^"{}\\]+)"', told[shift:]):
            yield start + shift + it.start(), start + shift + it.end(), f'(if @on {{ "{it[1]}~" }} else {{ @old }})', f"another text than {it[0]} in `{told.strip()}`"
    for it in BOOL.finditer(line, shift):
        yield start + it.start(), start + it.end(), "(@old != @on)", f"not `{it[0]}` in `{told.strip()}`"


def notes(text):
    """Where each block of a source begins, and its name."""
    lines, plain = text.split("\n"), masked(text).split("\n")
    starts, counts = starts_of(lines), collections.Counter()
    for name, _, _, begun, end in functions(lines):
        if "const fn" not in lines[begun - 1]:
            for behind, block in blocks(plain, begun, end, name, counts)[1]:
                yield starts[behind + 1], block
