"""When a segment was begun, and with the images of which files: what a journal that names its board says, and what `log` tells of it
(tests/begun.rows)."""

import datetime
import json
import os
import re
import shutil
import subprocess
import unittest

from place import PATIENCE, program
from holding import Held
from rows import each_named
from telling import TABLE

BOARD = {"flash.board": b"unique 00112233445566778899AABB\n"}
# a clock that stands, for a program that is started with this in LD_PRELOAD
CLOCK = r"""
#include <stdlib.h>
#include <sys/syscall.h>
#include <time.h>
#include <unistd.h>
int clock_gettime(clockid_t which, struct timespec *now) {
    if (which != CLOCK_REALTIME)
        return syscall(SYS_clock_gettime, which, now);
    *now = (struct timespec){atoll(getenv("SECONDS")), 0};
    return 0;
}
"""


class Noted(Held):
    begins = {"table": TABLE, **BOARD, "flash": bytes(131072), "image": b"one", "other image!": b"two"}

    def at(self, name, *words, **how):
        return self.use(name, *words, device="sim:0410:flash", **how)

    def notes(self):
        """What stands behind each line that begins a segment."""
        return re.findall(rb"^open \d+\n((?:(?:time|image) [^\n]*!\n)*)", self.raw("journal"), re.M)


class Begun(Noted):
    def does(self, sign, told, name, *more):
        if sign == "newest":
            self.newest = self.notes()[-1]
        elif sign == "carried":
            self.assertEqual(self.notes(), [self.newest])
        elif sign == "length":
            self.assertEqual(len(self.raw(name)), int(*more))
        else:
            super().does(sign, told, name, *more)

    def log(self):
        return self.call("log", "--journal", "journal").out.decode().splitlines()

    def test_a_write_and_an_erase(self):
        """The time of the PC, in UTC, and each file's name, as its words have it last."""
        before = datetime.datetime.now(datetime.timezone.utc).replace(microsecond=0, tzinfo=None)
        self.assertWell(self.at("write", "image", f"{self.folder}/other image!@0x08000400"))
        self.assertWell(self.at("erase", "9", "3"))
        after = datetime.datetime.now(datetime.timezone.utc).replace(tzinfo=None)
        one, two = self.notes()
        times = [re.match(rb"time (\S+)Z!\n", it)[1].decode() for it in (one, two)]
        for it in times:
            self.assertTrue(before <= datetime.datetime.fromisoformat(it) <= after, (before, it, after))
        self.assertEqual((one.split(b"\n")[1:], two.count(b"\n")), ([b"image image!", b"image other image!!", b""], 1))
        # a name that ends in the mark can't be told from a torn line
        self.assertEqual(self.log()[2:], ["segment 1: ended, 2 pages: 0-1", f"  time {times[0]}Z", "  image image",
                                          "segment 2: ended, 2 pages: 3 9", f"  time {times[1]}Z", "2 can be undone"])
        told = json.loads(self.call("log", "--journal", "journal", "--json").out)["segments"]
        self.assertEqual(told, [{"state": "ended", "segment": 1, "pages": [0, 1], "images": ["image"], "time": times[0] + "Z"},
                                {"state": "ended", "segment": 2, "pages": [3, 9], "images": [], "time": times[1] + "Z"}])
        self.assertWell(self.at("undo"))


each_named(Begun, "begun.rows")


@unittest.skipIf(shutil.which("gcc") is None or not os.path.exists("/usr/include/stdio.h"), "gcc or libc6-dev is not installed")
class Dates(Noted):
    """By a clock that stands."""

    def setUp(self):
        super().setUp()
        words = ["gcc", "-shared", "-fPIC", "-O1", "-xc", "-", "-o", self.path("clock.so")]
        ran = subprocess.run(words, input=CLOCK.encode(), stderr=subprocess.PIPE, timeout=PATIENCE, check=False)
        self.assertEqual(ran.returncode, 0, ran.stderr.decode())

    def test_dates(self):
        """At the ends of days, months and years, and in leap years; a clock that isn't set tells none."""
        if "-under-" in program():
            # the clock would be qemu's or wine's
            return
        starts = [(2026, 1, 1), (2026, 11, 30), (2028, 2, 29), (2028, 3, 1), (2027, 3, 1), (2100, 3, 1), (2096, 12, 31), (2400, 2, 29), (9999, 12, 31)]
        for date in starts:
            for second in (0, 86399, 3599 * 17):
                with self.subTest(date=date, second=second):
                    when = datetime.datetime(*date, tzinfo=datetime.timezone.utc) + datetime.timedelta(seconds=second)
                    self.assertTime(int(when.timestamp()), b"time " + when.strftime("%Y-%m-%dT%H:%M:%SZ!\n").encode())
        self.assertTime(int(datetime.datetime(2026, 1, 1, tzinfo=datetime.timezone.utc).timestamp()) - 1, b"")
        self.assertTime(0, b"")
        # a day past the year 9999 is its last
        self.assertTime(253402300800, b"time 9999-12-31T00:00:00Z!\n")

    def assertTime(self, seconds, line):
        self.store("journal", None)
        variables = {"LD_PRELOAD": self.path("clock.so"), "SECONDS": str(seconds)}
        self.assertEqual(self.at("erase", "3", variables=variables).status, 0)
        self.assertEqual(self.notes(), [line])
