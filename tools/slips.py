"""Slips that are planted by hand, as rows of text: what each is, its file, more lines that its tool knows, the lines that stand there once
(`-`), and those in their place (`+`). A text that ends a line has a last one of its sign alone."""

import re


def read(text):
    """Of each row its name, its file, its other lines, the old text and the new one."""
    for row in re.sub(r"(?m)^#.*\n", "", text).strip().split("\n\n"):
        name, file, *lines = row.strip().split("\n")
        more = [line for line in lines if line[0] not in "-+"]
        yield name, file, more, *("\n".join(line[2:] for line in lines if line[0] == sign) for sign in "-+")
