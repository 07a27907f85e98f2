"""The functions of a crate: where each stands in `src`, and the path by which the prover names it.

A free function is its module and its name. A method is the module of its type, the type and the name, wherever the `impl` stands;
one of a trait's `impl` is the module of that `impl`, the type, the trait and the types that this takes in one word, and the name.
"""

import collections
import glob
import os
import pathlib
import re

HEADER = re.compile(r"^([ \t]*)(?:pub(?:\([^)]*\))? )?(?:(?:const|unsafe|async) )*fn (\w+)", re.M)
BLOCK = re.compile(r"^(?:pub(?:\([^)]*\))? )?(?:unsafe )?(impl|trait|fn|mod)\b", re.M)
TYPE = re.compile(r"^(?:pub(?:\([^)]*\))? )?(?:struct|enum|union) (\w+)", re.M)
CYCLE = re.compile(r"#\[cycle\((\w+)\)\]")

# `start` is where its header begins in the text of its file, `cycle` the name of the cycle of calls that it belongs to, and
# `is_of_trait` says whether it stands in a trait, or in an `impl` of one
Function = collections.namedtuple("Function", "path file start cycle is_of_trait")


class Unknown(Exception):
    """A function whose path can't be told from the text."""


def module_of(file):
    """The module that a file of `src` is, '' for the root."""
    inside = file[len("src/"):-len(".rt")].split("/")
    return "::".join(it for it in inside if it not in ("lib", "main", "mod"))


def joined(*parts):
    return "::".join(it for it in parts if it)


def without_first_generics(text):
    """The text of an `impl` behind its own parameters in angle brackets."""
    text, depth = text.replace("->", "  ").lstrip(), 0
    for at, one in enumerate(text):
        depth += (one == "<") - (one == ">")
        if not depth:
            return text[at + (one == ">"):]
    return text


def words_of(type_text):
    return [it for it in re.findall(r"\w+", re.sub(r"'\w+|\w+::", " ", type_text)) if it not in ("mut", "dyn")]


def name_of(type_text):
    """The last word of a type's path, without a reference, lifetimes and what it takes."""
    return words_of(type_text.partition("<")[0])[-1]


def names_of(trait_text):
    """A trait and the types that it takes, in one word."""
    trait, _, taken = trait_text.partition("<")
    # what they take themselves goes first
    while taken != (taken := re.sub(r"<[^<>]*>", "", taken)):
        pass
    return name_of(trait) + "".join(name_of(it) for it in taken.split(",") if words_of(it))


class Functions:
    """Every function that is written in a crate's `src`."""

    def __init__(self, folder):
        files = sorted(glob.glob(f"{folder}/src/**/*.rt", recursive=True))
        self.texts = {os.path.relpath(it, folder): pathlib.Path(it).read_text(encoding="utf-8") for it in files}
        self.modules = collections.defaultdict(set)
        for file, text in self.texts.items():
            for found in TYPE.finditer(text):
                self.modules[found[1]].add(module_of(file))
        self.all = [it for file in self.texts for it in self.functions_in(file)]
        self.paths = {it.path for it in self.all if it.path}

    def functions_in(self, file):
        text = self.texts[file]
        for found in HEADER.finditer(text):
            above = text[:found.start()]
            path, is_of_trait = self.path_of(file, found)
            yield Function(path, file, found.start(), (CYCLE.findall(above[above.rfind("\n\n") + 1:]) or [None])[-1], is_of_trait)

    def path_of(self, file, header):
        """The path of the function with that header, None where it can't be told, and whether it is of a trait."""
        module, text, name = module_of(file), self.texts[file], header[2]
        if not header[1]:
            return joined(module, name), False
        blocks = [it for it in BLOCK.finditer(text, 0, header.start())]
        if not blocks or blocks[-1][1] in ("fn", "mod"):
            return None, False
        block = text[blocks[-1].start():header.start()]
        if blocks[-1][1] == "trait":
            return joined(module, re.search(r"trait (\w+)", block)[1], name), True
        said = without_first_generics(block[block.index("impl") + len("impl"):block.index("{")])
        trait, is_of_trait, of = re.split(r"\bwhere\b", said)[0].partition(" for ")
        if is_of_trait:
            return joined(module, name_of(of) + names_of(trait), name), True
        of = name_of(said)
        modules = self.modules[of] if module not in self.modules[of] else {module}
        return (joined(*modules, of, name) if len(modules) == 1 else None), False

    def at(self, file, place):
        """The function whose text holds a place of a file."""
        before = [it for it in self.all if it.file == file and it.start <= place]
        if not before:
            raise Unknown(f"no function stands there in {file}")
        if before[-1].path is None:
            raise Unknown(f"the path of a function of {file} can't be told")
        return before[-1]

    def owner(self, path):
        """The function that a path of the prover's leads to: itself, or that of a closure, a loop or a cycle in it. None where
        it's none that is written in `src`, as what is derived."""
        if path in self.paths:
            return path
        # `m::fn::f::call` is the closure that `f` of `m` gives to `call`
        before, closure, behind = path.partition("fn::")
        words = [it.partition("+")[0] for it in (before + behind).split("::")] if closure else []
        return next((it for end in range(len(words) - 1, 0, -1) if (it := "::".join(words[:end])) in self.paths), None)

    def of_cycle(self, path):
        """The functions of a cycle of calls, which the prover names `module::+cycle`."""
        module, _, name = path.rpartition("::")
        if not name.startswith("+"):
            return []
        return [it.path for it in self.all if it.cycle == name[1:] and module_of(it.file) == module]
