"""Plain English: in the pages that a user reads, and in the manual pages, no sentence has more than thirty words. In these and in
every other page none has a word for which a plainer one was settled."""

import glob
import itertools
import os
import re
import subprocess
import unittest

from place import TOP, text_in


def is_made(path):
    """Whether a tool makes this page, as its first line says."""
    return text_in(path).startswith("<!-- made by ")


PAGES = ("README.md", "CONTRIBUTING.md",
         *(os.path.join("docs", f"{it}.md") for it in ("LINE", "UNDO", "FORMATS", "SWITCH", "GATE", "INSIDE",
                                                       "HEADLINE")))
# all but what a tool makes, and its head
EVERY = ("README.md", "CONTRIBUTING.md",
         *sorted(os.path.relpath(it, TOP) for it in glob.glob(os.path.join(TOP, "docs", "**", "*.md"), recursive=True)
                 if not is_made(it)))
MANUALS = ("stmflash.1", *(os.path.join("line", f"stmflash-{it}.1") for it in ("line", "trial", "as-stm32flash")))
LIMIT = 30
# words that were settled, each with what is said instead; the last of a write or an erase: a page is given back all the same
SETTLED = {r"\bstands?\b(?![-:]| for\b)": "is", r"\b(?:is|are) told\b": "prints", r"\bin the midst\b": "in the middle",
           r"\b(?:take|takes|taken|took|taking)\b[\w ,-]{0,40}? (?<!way )back\b": "undo"}
# what a program prints, and a page shows as it is outside of code: a row of a trial
PRINTED = ("what was saved stands again, byte for byte",)
# a sentence ends at one of these signs, which a bracket or a quote may follow; two dots are something left out, the dot of `e.g.`
# is no end, and neither is a semicolon or a colon
END = re.compile(r"(?<!\.)(?<!\be\.g)(?<!\bi\.e)(?<!\betc)[.!?][])}\"'*_]*(?=\s|$)")
# how an item of a list begins
ITEM = re.compile(r" *(?:[-*+]|\d+[.)]) +")
# the macros of a manual page whose arguments are text, each with what stands between two of them there
FONTS = {"B": " ", "I": " ", "SM": " ", "SB": " ", "BI": "", "IB": "", "BR": "", "RB": "", "IR": "", "RI": ""}
# the macros behind which another piece begins
BREAKS = ("SH", "SS", "PP", "P", "LP", "TP", "TQ", "IP", "HP", "RS", "RE", "nf", "fi", "EX", "EE", "sp")
# the sections of a manual page that have no sentences
NO_SENTENCES = ("SYNOPSIS", "SEE ALSO")
# A piece is what is read by itself: a paragraph, an item of a list, a cell of a table, a term. It is a list of its lines, each with its number.

def pieces_of_page(text):
    """The pieces of a page in Markdown: all but blocks of code, and the lines that rule a table."""
    fence, depth, piece = None, 0, []
    for number, line in enumerate(text.split("\n"), 1):
        bare, indent, item = line.strip(), len(line) - len(line.lstrip()), ITEM.match(line)
        alone, begun = [], []
        if fence or bare[:3] in ("```", "~~~"):
            fence = None if bare == fence else fence or bare[:3]
        elif not piece and indent >= depth + 4:
            continue
        elif bare[:1] in ("#", "|") or bare.startswith("!["):
            alone = [it for it in re.split(r"(?<!\\)\|", bare) if not re.fullmatch(r"[-: ]*", it)]
        elif item and indent < depth + 4:
            depth, begun = item.end(), [(number, line[item.end():])]
        elif bare:
            depth = depth if piece or indent >= depth else 0
            piece.append((number, bare.removeprefix("> ")))
            continue
        yield piece
        yield from ([(number, it)] for it in alone)
        piece = begun
    yield piece


def arguments(words):
    """The arguments of a macro. A quoted one may have blanks."""
    return [(quoted or word).replace('""', '"') for quoted, word in re.findall(r'"((?:[^"]|"")*)"?|(\S+)', words)]


def plain(text):
    """A text of a manual page as it is read: without changes of the font, and with the signs that its escapes mean."""
    text = re.sub(r"\\f(?:\(..|\[\w*\]|.)|\\[&/,]|\\\".*", "", text)
    return re.sub(r"\\(?:\((..)|(.))", lambda it: {"aq": "'", "e": "\\"}.get(it[1] or it[2], it[2] or "x"), text)


def pieces_of_manual(text):
    """The pieces of a manual page: all but its synopsis and its examples. A term is a piece by itself."""
    piece, section, is_example, is_term = [], "", False, False
    for number, line in enumerate(text.split("\n"), 1):
        macro, words = None, line
        if line.startswith((".", "'")):
            macro, _, words = line[1:].lstrip().partition(" ")
        if macro is None or macro in FONTS:
            said = plain(words if macro is None else FONTS[macro].join(arguments(words)))
            if is_example or section in NO_SENTENCES:
                continue
            if said.strip() and not is_term:
                piece.append((number, said))
                continue
            yield piece
            yield [(number, said)]
            piece, is_term = [], False
        elif macro in BREAKS:
            yield piece
            piece, is_term = [], macro in ("TP", "TQ")
            if macro == "SH":
                section = " ".join(arguments(words))
            elif macro == "IP":
                yield [(number, plain(it)) for it in arguments(words)[:1]]
            elif macro in ("nf", "fi", "EX", "EE"):
                is_example = macro in ("nf", "EX")
    yield piece


def as_words(text):
    """A text of Markdown, as long as it was, in which code is one word each time, and a link what is read of it."""
    text = re.sub(r"(`+)(.+?)\1(?!`)", lambda it: "x" * len(it[0]), text)
    return re.sub(r"\]\([^)\s]*\)", lambda it: "]" + " " * (len(it[0]) - 1), text)


def sentences(name, text):
    """Each sentence of a page or a manual page: the line where it begins, its words, and itself."""
    is_page = name.endswith(".md")
    for piece in (pieces_of_page if is_page else pieces_of_manual)(text):
        said = "".join(line + " " for _, line in piece)
        begins = list(itertools.accumulate((len(line) + 1 for _, line in piece), initial=0))
        read = as_words(said) if is_page else said
        for begin, end in itertools.pairwise([0, *[it.end() for it in END.finditer(read)], len(read)]):
            words = [it for it in read[begin:end].split() if re.search(r"[^\W_]", it)]
            if words:
                begin += len(read[begin:end]) - len(read[begin:end].lstrip())
                number = [number for place, (number, _) in zip(begins, piece) if place <= begin][-1]
                yield number, words, " ".join(said[begin:end].split())


def too_long(name, text):
    """What there is to say of each sentence that has too many words."""
    return [f"{name}:{number}: {len(words)} words: {said}" for number, words, said in sentences(name, text) if len(words) > LIMIT]


def unsettled(name, text):
    """Each settled word of a page or a manual page: the line of its sentence, itself, what to say, and the sentence."""
    for number, words, said in sentences(name, text):
        read = " ".join(words)
        for printed in PRINTED:
            read = read.replace(printed, "")
        for worse, better in SETTLED.items():
            if found := re.search(worse, read):
                yield number, found[0], better, said


def cut_of(name, text):
    """Where a sentence can be planted."""
    return text.index("\n\n") + 2 if name.endswith(".md") else text.index("\n.SH DESCRIPTION\n") + 17


class Plain(unittest.TestCase):
    def test_no_sentence_is_too_long(self):
        faults = [fault for name in PAGES + MANUALS for fault in too_long(name, text_in(name))]
        self.assertTrue(not faults, "\n" + "\n".join(faults))

    def test_words_that_were_settled(self):
        faults = [f"{name}:{number}: `{found}`, say `{better}`: {said}" for name in EVERY + MANUALS
                  for number, found, better, said in unsettled(name, text_in(name))]
        self.assertTrue(not faults, "\n" + "\n".join(faults))

    def test_a_word_that_was_settled_is_found(self):
        """In every page and manual page, each by its own rule; and nothing where the word means something else."""
        worse = {"Here stands a word.": "is", "Two words stand here, or there.": "is", "Whoever is told this knows it.": "prints",
                 "All are told that.": "prints", "It ended in the midst of it.": "in the middle", "It takes a write back.": "undo",
                 "What was begun, an erase, was taken back.": "undo", "It took that one back, or will.": "undo"}
        well = ("It stands for one word.", "It has stand-ins.", "A page is given back.", "Take the way back.")
        for name in EVERY + MANUALS:
            text = text_in(name)
            cut, parted = cut_of(name, text), "\n\n" if name in EVERY else "\n.PP\n"
            planted = text[:cut] + parted.join((*worse, *well)) + parted + text[cut:]
            before = [said for _, _, _, said in unsettled(name, text)]
            self.assertEqual([(said, better) for _, _, better, said in unsettled(name, planted) if said not in before], list(worse.items()), name)

    def test_what_is_printed_is_still_printed(self):
        """Each text that may have such a word is in the code of a program, and in a page."""
        code = subprocess.run(["git", "grep", "-hF", *(word for it in PRINTED for word in ("-e", it)), "--", "crates", "line"],
                              cwd=TOP, capture_output=True, text=True).stdout
        for printed in PRINTED:
            with self.subTest(printed=printed):
                self.assertIn(printed, code)
                self.assertTrue(any(printed in text_in(name) for name in EVERY))

    def test_a_sentence_that_is_too_long_is_found(self):
        """One word too many in each kind of place of each file; nothing at one word less."""
        page = ("{}\n", "- {}\n", "1. One. {}\n   more.\n", "- one\n\n  {}\n", "- one\n  - {}\n", "> {}\n", "| one | {} |\n",
                "## {}\n", "![{}](a.svg)\n", "`one two`.\n{}\n")
        manual = (".PP\n{}\n", ".TP\n.B one\n{}\n", ".TP\n{}\nOne.\n", ".PP\nOne.\n{}\n", ".PP\n.I {}\n", ".IP one\n{}\n", ".nf\none\n.fi\n{}\n")
        for name in PAGES + MANUALS:
            text, forms = text_in(name), page if name in PAGES else manual
            before = len(too_long(name, text))
            cut = cut_of(name, text)
            for form, (count, found) in itertools.product(forms, ((LIMIT, 0), (LIMIT + 1, 1))):
                with self.subTest(name=name, form=form, words=count):
                    planted = text[:cut] + form.format(" ".join(["Word"] * count) + ".") + "\n" + text[cut:]
                    self.assertEqual(len(too_long(name, planted)) - before, found)

    def test_what_a_sentence_is(self):
        """Its line and how many words it has, in Markdown and in roff."""
        page = ("# A title\n\nOne `two three` four; five [six](a.md#b). stmflash 0.2 goes\non .. to `a.\nb`. **Bold.** (Last!)\n\n"
                "    no sentence.\n\n| a | `b c` |\n|---|---|\n| one. Two | |\n\n```\nno sentence\n```\n- item, e.g. this\n"
                "  one\n\n  behind it\n\n      no sentence\n")
        self.assertEqual([(number, len(words)) for number, words, _ in sentences("a.md", page)],
                         [(1, 2), (3, 5), (3, 6), (5, 1), (5, 1), (9, 1), (9, 1), (11, 1), (11, 1), (16, 4), (19, 2)])
        manual = ('.TH A 1\n.SH NAME\na \\- b\n.SH SYNOPSIS\n.B a\nb\n.SH OPTIONS\n.TP\n.BI \\-a " B"\nSays\n'
                  '.BI "one " N " two" \\fR.\n.\\" no sentence\nAlso\n.BR a (1):\n.br\nb.\n.PP\n.nf\nno sentence\n.fi\n' 'Last \\(aqone\\(aq.\n')
        self.assertEqual([(number, len(words), said) for number, words, said in sentences("a.1", manual)],
                         [(3, 2, "a - b"), (9, 2, "-a B"), (10, 4, "Says one N two."), (13, 3, "Also a(1): b."),
                          (21, 2, "Last 'one'.")])
