"""Which chip tables are read (tests/tables.rows), where a test's folders stand for the system's."""

import os
import shutil
import subprocess
import unittest

from place import PATIENCE, Said, program
from rows import Rows, cases

MOUNT = "mount --bind etc /etc && mount --bind local /usr/local/share && mount --bind share /usr/share && exec \"$@\""


def namespace():
    """The words before a program that let it see a test's folders in the place of the system's, and nobody else."""
    return [shutil.which("unshare") or "unshare", "--map-root-user", "--mount", "sh", "-c", MOUNT, "sh"]


def can_be_seen():
    """Whether the system lets a program see other folders."""
    try:
        return subprocess.run([*namespace()[:3], "true"], capture_output=True, timeout=PATIENCE).returncode == 0
    except FileNotFoundError:
        return False


@unittest.skipUnless(can_be_seen(), "there is no unshare, or it isn't allowed")
class Tables(Rows):
    def call(self, *words, variables, **how):
        """Runs the program where it sees the tables of this test alone."""
        variables = {"PATH": os.environ.get("PATH", ""), "HOME": self.path("home"), **variables}
        ran = subprocess.run([*namespace(), program(), *words], cwd=self.folder, env=variables, timeout=PATIENCE, stdin=subprocess.DEVNULL, capture_output=True)
        return Said(ran.returncode, ran.stdout, ran.stderr)

    def test_each_table(self):
        self.play_all(cases("tables.rows"))
