"""The kit's own script, and checks by it of an edited copy of a crate."""

import importlib.machinery
import importlib.util
import os
import pathlib
import re
import shutil
import signal
import subprocess
import sys
import tempfile

# a proof that is left open, which antt takes by its statement
PROOF = """use Rattle.{crate}.proofs.{dots}.Statement.{{statement}}

pub {name}_spec : {{M : Type 1}} → statement M
{name}_spec = ?
"""
OF_A_FUNCTION = ("Answers.antt", "Invariants.antt", "Proof.antt")
# the prover knows a function by another path, as one in an `impl` of a type whose parameters are given
NO_FUNCTION = re.compile(r"has no function `([^`]+)` for this file to be the proof of")


def load_rt():
    """The kit's own script, so that an edit is read, and a crate checked, as `rt must-fail` does it."""
    path = shutil.which("rt") or sys.exit("tools/wrong-bodies: there is no rt")
    loader = importlib.machinery.SourceFileLoader("rt_script", os.path.realpath(path))
    made = importlib.util.module_from_spec(importlib.util.spec_from_loader("rt_script", loader))
    loader.exec_module(made)
    return made


rt = load_rt()


def taken_by_contract(crate, functions, asked):
    """The functions that a check of those asked takes by their contracts. One of a trait is among them where it has a proof file,
    and one in a cycle of calls isn't."""
    for it in functions.all:
        at = it.path and it.path not in asked and not it.cycle and proofs_of(crate.folder, it.path)
        if at and not os.path.isdir(re.sub(r"([^/]+)$", r"+\1", at)) and (not it.is_of_trait or os.path.isdir(at)):
            yield it.path


def proofs_of(folder, path):
    return os.path.join(folder, "proofs", *path.split("::"))


def leave_open(crate, room, path):
    """Puts a hole in the place of a function's proof, which antt then takes by its statement."""
    folder = pathlib.Path(proofs_of(room, path))
    folder.mkdir(parents=True, exist_ok=True)
    for it in OF_A_FUNCTION:
        (folder / it).unlink(missing_ok=True)
    proof = PROOF.format(crate=crate.name, dots=path.replace("::", "."), name=path.split("::")[-1])
    (folder / "Proof.antt").write_text(proof, encoding="utf-8")


def check(crate, functions, texts, asked, kept):
    """Checks these functions with these texts in place of the crate's own, and every other one taken by its contract: what was said, and the status. What is
    checked is kept in a folder for the next check. A function that the prover doesn't know by its path is proved there as ever."""
    proved = set()
    while True:
        said, status = check_beside(crate, functions, texts, asked, kept, proved)
        unknown = set(NO_FUNCTION.findall(said)) - proved
        if not unknown:
            return said, status
        proved |= unknown


def check_beside(crate, functions, texts, asked, kept, proved):
    """The same, beside functions that are proved as ever."""
    with tempfile.TemporaryDirectory(prefix=f"rt-edit-{os.getpid()}-") as room:
        for part in rt.rtlib.PARTS:
            if os.path.isdir(f"{crate.folder}/{part}"):
                shutil.copytree(f"{crate.folder}/{part}", f"{room}/{part}")
        for path, text in texts.items():
            pathlib.Path(f"{room}/{path}").write_text(text, encoding="utf-8")
        for path in taken_by_contract(crate, functions, asked):
            if path not in proved:
                leave_open(crate, room, path)
        flags = ["--jobs", "1", "--allow-holes", *(it for path in sorted(asked) for it in ("--only", path))]
        words = [rt.rtlib.RATTLE, "check", *crate.words(flags, keeps=False), "--incremental", kept]
        how = {"cwd": room, "stdin": subprocess.DEVNULL, "stdout": subprocess.PIPE, "stderr": subprocess.STDOUT, "errors": "replace"}
        # one that is killed is most likely so for memory
        for _ in range(2):
            ran = subprocess.run([*rt.rtlib.guarded(), *words], **how)
            if ran.returncode != -signal.SIGKILL:
                break
        return ran.stdout, ran.returncode


def share_work():
    """Has libraries and kept work come from any checkout on this machine that has them of the same text, where the kit can that."""
    if hasattr(rt, "share_work"):
        rt.share_work(False)


def begin(crate, kept):
    """Fills the folder with what a check of the crate kept on this machine, where one did: in any checkout, where the kit shares them, else in this one."""
    try:
        start = rt.work_for(crate) if hasattr(rt, "work_for") else f"{crate.folder}/out/incremental"
        if start and os.path.isdir(start):
            os.rmdir(kept)
            # by links, where the kit says that it never writes into a file of these
            (rt.linked if hasattr(rt, "linked") else shutil.copytree)(start, kept)
    except (OSError, shutil.Error):
        # another command may write what this one copies
        shutil.rmtree(kept, ignore_errors=True)
        os.makedirs(kept)
