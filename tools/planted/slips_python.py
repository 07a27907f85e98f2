"""Slips that operators make in Python, by its syntax tree; and its blocks, by which it is recorded what a test reaches.

A slip is (start, end, new, what, block): the part of the text that is replaced, by what, what it is in words, and the block it stands in.
A block is a list of statements: its name is that of its function, and its number there.
"""

import ast
import collections

ENDS = (ast.Raise, ast.Return, ast.Continue, ast.Break)
# the methods without which a value is one of the same type, and how many elements of a list are left out in turn
CHANGES, MOST = ("strip", "rstrip", "lstrip", "lower", "upper", "removeprefix", "removesuffix", "replace", "copy", "encode"), 4
WIDER = {ast.Lt: "<=", ast.LtE: "<", ast.Gt: ">=", ast.GtE: ">"}


def blocks(tree):
    """Each block of a module: its name, its statements, and the node that has them."""
    counts = collections.Counter()

    def inside(node, name):
        if isinstance(node, (ast.FunctionDef, ast.AsyncFunctionDef, ast.ClassDef)):
            name = f"{name}.{node.name}".lstrip(".")
        for _, value in ast.iter_fields(node):
            some = [it for it in (value if isinstance(value, list) else [value]) if isinstance(it, ast.AST)]
            if some and isinstance(some[0], ast.stmt):
                counts[name] += 1
                yield f"{name}#{counts[name]}", some, node
            for it in some:
                yield from inside(it, name)

    return inside(tree, "")


def own(statement):
    """The nodes of a statement that stand in none of its blocks, and in no text with braces: there their places aren't told rightly."""
    for _, value in ast.iter_fields(statement):
        for it in value if isinstance(value, list) else [value]:
            if isinstance(it, ast.AST) and not isinstance(it, (ast.stmt, ast.ExceptHandler)):
                yield it
                yield from () if isinstance(it, ast.JoinedStr) else own(it)


class Text:
    """A source, and where its nodes stand."""

    def __init__(self, text):
        self.text, self.lines, self.at = text, text.splitlines(keepends=True), [0]
        for line in self.lines:
            self.at.append(self.at[-1] + len(line))

    def place(self, line, column):
        return self.at[line - 1] + len(self.lines[line - 1].encode()[:column].decode())

    def span(self, node):
        return self.place(node.lineno, node.col_offset), self.place(node.end_lineno, node.end_col_offset)

    def of(self, node):
        start, end = self.span(node)
        return self.text[start:end]


def is_call(statement):
    return isinstance(statement, ast.Expr) and isinstance(statement.value, ast.Call)


def has_effect(statement):
    """Whether a statement changes something beside a name of its function."""
    return is_call(statement) or isinstance(statement, (ast.Assign, ast.AugAssign)) and any(
        isinstance(it, (ast.Attribute, ast.Subscript)) and isinstance(it.ctx, ast.Store) for it in ast.walk(statement))


def of_guard(source, test, ends):
    """A condition that never holds, and always, where that changes more than what ends a block."""
    yield *source.span(test), "False", f"never `{source.of(test)}`"
    if not ends:
        yield *source.span(test), "True", f"always `{source.of(test)}`"


def of_call(source, node):
    """A call without one of its named arguments."""
    told = sorted([*node.args, *(it.value for it in node.keywords)], key=lambda it: source.span(it))
    for it in node.keywords:
        at = told.index(it.value)
        if it.arg and at:
            yield source.span(told[at - 1])[1], source.span(it)[1], "", f"no `{it.arg}` in `{source.of(node.func)}`"


def of_expression(source, node, parameters, told):
    """What may slip in an expression."""
    if isinstance(node, ast.IfExp):
        yield from of_guard(source, node.test, False)
    elif isinstance(node, ast.BoolOp):
        word = "and" if isinstance(node.op, ast.And) else "or"
        for number, it in enumerate(node.values):
            rest = f" {word} ".join(f"({source.of(other)})" for other in node.values if other is not it)
            yield *source.span(node), f"({rest})", f"without `{source.of(it)}` (guard {number + 1})"
    elif isinstance(node, ast.comprehension):
        for test in node.ifs:
            yield from of_guard(source, test, False)
    elif isinstance(node, ast.Constant) and type(node.value) in (int, float, bool):
        new = repr(not node.value) if isinstance(node.value, bool) else repr(node.value + 1)
        yield *source.span(node), new, f"`{source.of(node)}` is {new}"
    elif isinstance(node, ast.Compare) and len(node.ops) == 1:
        if type(node.ops[0]) in WIDER:
            left, right = source.of(node.left), source.of(node.comparators[0])
            yield *source.span(node), f"({left} {WIDER[type(node.ops[0])]} {right})", f"`{source.of(node)}` by one"
        for it in (node.left, node.comparators[0]):
            if isinstance(it, ast.Constant) and isinstance(it.value, str):
                yield *source.span(it), repr(it.value + "~"), f"`{source.of(it)}` is another text"
    elif isinstance(node, (ast.Tuple, ast.List)) and isinstance(node.ctx, ast.Load) and len(node.elts) > 1:
        for it in node.elts[:MOST]:
            rest = [source.of(other) for other in node.elts if other is not it]
            yield *source.span(node), f"({', '.join(rest)},)" if isinstance(node, ast.Tuple) else f"[{', '.join(rest)}]", f"no `{source.of(it)}` in `{source.of(node)}`"
    elif isinstance(node, ast.BinOp):
        yield *source.span(node), f"({source.of(node.left)})", f"`{source.of(node.left)}` for `{source.of(node)}`"
    elif isinstance(node, ast.Call):
        yield from of_call(source, node)
        inner = node.func.value if isinstance(node.func, ast.Attribute) and node.func.attr in CHANGES else node.args[0] if len(node.args) == 1 and not node.keywords else None
        if inner and not isinstance(inner, (ast.Constant, ast.GeneratorExp, ast.Starred)):
            yield *source.span(node), f"({source.of(inner)})", f"`{source.of(inner)}` for `{source.of(node)}`"
        named = [it for it in node.args if isinstance(it, (ast.Name, ast.Attribute))]
        for one, other in zip(named, named[1:]):
            if source.of(one) != source.of(other):
                yield *source.span(one), source.of(other), f"`{source.of(other)}` for `{source.of(one)}` in `{source.of(node.func)}`"
    elif isinstance(node, ast.Name) and isinstance(node.ctx, ast.Load) and node.id in parameters and node.id not in told:
        others = [it for it in parameters if it != node.id]
        if others:
            told.add(node.id)
            yield *source.span(node), others[0], f"`{others[0]}` for `{node.id}`"


def slips(text):
    tree, source = ast.parse(text), Text(text)
    parameters, told = {}, {}
    for name, statements, owner in blocks(tree):
        function = name.split("#")[0]
        if isinstance(owner, ast.FunctionDef):
            parameters[function] = [it.arg for it in owner.args.args if it.arg not in ("self", "cls")]
            told[function] = set()
            answers = any(isinstance(it, ast.Return) and it.value or isinstance(it, (ast.Yield, ast.YieldFrom)) for it in ast.walk(owner))
            if not answers and len(statements) > 2:
                at = source.span(statements[-1])[0]
                yield at, at, "return; " if not hasattr(statements[-1], "body") else \
                    "return\n" + " " * statements[-1].col_offset, "it ends before the last statement", name
        for number, statement in enumerate(statements):
            after = statements[number + 1] if number + 1 < len(statements) else None
            if has_effect(statement) or isinstance(statement, ast.Raise):
                yield *source.span(statement), "pass", f"no `{source.of(statement)}`", name
            if isinstance(statement, ast.Assign) and isinstance(owner, ast.Module) and isinstance(statement.value, ast.Constant) and isinstance(statement.value.value, str):
                yield *source.span(statement.value), repr(statement.value.value + "~"), f"another text in `{source.of(statement)}`", name
            for handler in getattr(statement, "handlers", ()):
                if handler.type:
                    yield *source.span(handler.type), "()", f"no `except {source.of(handler.type)}`", name
            # two that only set something are the same either way, but for names in common
            if after and has_effect(statement) and has_effect(after) and any(isinstance(it, ast.Call) for one in (statement, after) for it in ast.walk(one)):
                (start, middle), (then, end) = source.span(statement), source.span(after)
                new = source.of(after) + text[middle:then] + source.of(statement)
                yield start, end, new, f"`{source.of(after)}` before `{source.of(statement)}`", name
            if isinstance(statement, (ast.If, ast.While)):
                ends = isinstance(statement, ast.While) or not statement.orelse and isinstance(statement.body[-1], ENDS)
                yield from ((*it, name) for it in of_guard(source, statement.test, ends))
            for node in own(statement):
                yield from ((*it, name) for it in of_expression(source, node, parameters.get(function, ()), told.get(function, set())))


def recording(text, begin, file):
    """The source with a call before each of its blocks, which notes once that it is reached: a line of a number in a file. The numbers
    go on from `begin`; answers the source, and the blocks' names in the order of their numbers."""
    tree, names = ast.parse(text), []
    for name, statements, owner in list(blocks(tree)):
        at = int(isinstance(statements[0], ast.Expr) and isinstance(statements[0].value, ast.Constant))
        while at < len(statements) and isinstance(statements[at], ast.ImportFrom) and statements[at].module == "__future__":
            at += 1
        note = ast.parse(f"_note({begin + len(names)})").body[0]
        names.append(name)
        field = next(it for it in ("body", "orelse", "finalbody") if statements == getattr(owner, it, None))
        statements.insert(at, note)
        setattr(owner, field, statements)
    noting = ast.parse("def _note(number, noted=set()):\n"
                       "    if number not in noted:\n"
                       "        noted.add(number)\n"
                       "        import os\n"
                       "        try:\n"
                       f"            file = os.open({file!r}, os.O_WRONLY | os.O_APPEND | os.O_CREAT, 0o666)\n"
                       "            os.write(file, b'%d\\n' % number)\n"
                       "            os.close(file)\n"
                       "        except OSError:\n"
                       "            pass\n").body
    at = next((n for n, it in enumerate(tree.body) if isinstance(it, ast.Expr) and isinstance(it.value, ast.Call) and it.value.func.id == "_note"), 0)
    tree.body[at:at] = noting
    return ast.unparse(ast.fix_missing_locations(tree)) + "\n", names
