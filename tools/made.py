"""What the tools share that make a page of docs/: the files of the repository, definitions with their comments, and how a page is
written, or compared with what is there."""

import glob
import os
import pathlib
import re
import subprocess
import sys

from simulator import words_of

TOP = os.path.dirname(os.path.dirname(os.path.abspath(__file__)))
NAME = r"[^\s(){}\[\].,;:`\"\\]+"
USE = re.compile(r"^\s*(?:pub )?(?:ghost )?use (Rattle[\w.+\-]*)\.\{([^}]*)\}", re.M)
DEFINED = re.compile(rf"^(?:(?:pub|abbrev|record|data|unfoldable) )*({NAME})")


def text_of(*parts):
    return pathlib.Path(TOP, *parts).read_text(encoding="utf-8")


def tracked():
    """The files that git has, or would add, in their order."""
    listed = subprocess.run(["git", "ls-files", "--cached", "--others", "--exclude-standard"], cwd=TOP, capture_output=True, text=True, check=True)
    return sorted({it for it in listed.stdout.splitlines() if os.path.isfile(os.path.join(TOP, it))})


def crates():
    """The crates, as crates.txt has them: those that others use come first."""
    return [line.split(":")[0].split()[0] for line in text_of("crates.txt").splitlines() if line.strip() and not line.startswith("#")]


def sentence(text):
    return re.split(r"(?<=\.)(?<!e\.g\.)(?<!i\.e\.)\s", re.sub(r"\s+", " ", text).strip())[0]


def spec_files():
    """The text of each file of definitions, by its module."""
    found = {}
    for path in glob.glob(os.path.join(TOP, "crates", "*", "specs", "**", "*.antt"), recursive=True):
        crate, _, rest = os.path.relpath(path, os.path.join(TOP, "crates")).partition(os.sep)
        found[f"Rattle.{crate}." + rest[: -len(".antt")].replace(os.sep, ".")] = text_of(path)
    return found


def imports(text):
    """What each imported name means: a module, and the name there."""
    named = {}
    for module, names in USE.findall(text):
        for name in names.split(","):
            first, _, second = name.strip().partition(" as ")
            named[second or first] = (module, first)
    return named


def definitions(text):
    """The lines of each definition of a file by its name, with the comment above it."""
    found, name, above = {}, None, []
    for line in text.split("\n"):
        if line.startswith("--"):
            above.append(line)
        elif not line.strip():
            name, above = name if line[:1] == " " else None, []
        elif re.match(r"use |pub use |module|(?:pub )?mod ", line):
            name, above = None, []
        elif line[0] not in " \t}":
            head = DEFINED.match(line)
            if head and head[1] not in ("unfolding", "where"):
                name = head[1]
                found.setdefault(name, []).extend(above)
            above = []
            if name:
                found[name].append(line)
        elif name:
            found[name].append(line)
    return found


def finish(tool, name, text, wrong):
    """Writes a page; with --check it only says whether the page is that one. What is wrong with it is said, and ends it."""
    checks = words_of(sys.modules["__main__"].__doc__).check
    if wrong:
        sys.exit("\n".join(f"{tool}: {it}" for it in wrong))
    text = f"<!-- made by {tool}: `make pages`; not by hand -->\n{text}"
    page = os.path.join("docs", name)
    if checks:
        sys.exit(0 if os.path.exists(os.path.join(TOP, page)) and text_of(page) == text else f"{tool}: {page} is another page: make pages")
    pathlib.Path(TOP, page).write_text(text, encoding="utf-8")
