"""How long a program waits at a device that is silent, by the times that it sets for its line (tests/silence.rows)."""

import contextlib
import itertools
import re
import struct
import time

import syncs
from place import Said
from rows import Rows, in_parts

# setsockopt, and its words for how long a read and a write wait: as many seconds, and as many millionths
SETSOCKOPT, RECEIVE_TIME, SEND_TIME, TIME = 54, 20, 21, struct.Struct("=qq")
ACK, NACK = b"\x79", b"\x1f"


def in_ms(data):
    seconds, millionths = TIME.unpack(data)
    return 1000 * seconds + millionths // 1000


def time_of(process, kind=RECEIVE_TIME):
    """How long a read, or a write, is to wait, in ms, by the call that a process is held in; None where that is another one."""
    _, _, _, option, place, *_ = syncs.call_of(process)
    if option != kind:
        return None
    with open(f"/proc/{process}/mem", "rb") as memory:
        memory.seek(place)
        return in_ms(memory.read(TIME.size))


class Timed(Rows):
    def set_nothing(self):
        super().set_nothing()
        self.clock = self.changes = None

    def call(self, *words, **how):
        """Runs the program, at a board whose replies are changed where that is said; the times that it sets are noted."""
        if self.changes is not None:
            self.serve(1, number="0410")
        with contextlib.nullcontext() if self.changes is None else self.between(self.changes):
            if self.clock is None:
                return super().call(*words, **how)
            self.times, self.writes, self.whole = [], [], int(words[words.index("--wait") + 1]) if "--wait" in words else 400
            if self.clock == "vain":
                self.note_vain(syncs.traced(self, "setsockopt,recvfrom", *words, as_hex=True))
                return Said(0, b"", b"")

            def note(_, process):
                for noted, kind in ((self.times, RECEIVE_TIME), (self.writes, SEND_TIME)):
                    noted += [it for it in [time_of(process, kind)] if it is not None]

            return syncs.call(self.folder, words, held=SETSOCKOPT, at=note, env=how["variables"])[0]

    def note_vain(self, told):
        now = None
        for line in told.splitlines():
            if told := re.search(r'SO_RCVTIMEO\w*, "([^"]*)"', line):
                now = in_ms(bytes.fromhex(told[1].replace("\\x", "")))
            elif "EAGAIN" in line:
                self.times.append(now)

    def change(self, kind, ms="0"):
        """What is made of each reply, by its number and that of its first byte."""
        count, number, pause = [0], itertools.count(), int(ms) / 1000

        def change(replies):
            count[0] += len(replies)
            if kind in ("drops", "adds"):
                is_last = replies != ACK and count[0] == 1 + 128
                return (replies[:-1] if kind == "drops" else replies + NACK) if is_last else replies
            if kind == "twice":
                # what the board sends meanwhile comes behind it
                if replies[:1] == ACK and not next(number):
                    self.line.sendall(ACK)
                    time.sleep(pause)
            elif kind == "late" or not next(number):
                time.sleep(pause)
            return replies

        return change

    def does(self, sign, told, name, *more):
        if sign == "clock":
            self.clock = name
        elif sign == "change":
            self.changes = self.change(name, *more)
        elif sign == "limits":
            self.assertEqual((str(self.times[0]), " ".join(str(it or "none") for it in self.writes)), (name, *more))
        elif sign == "waits":
            self.assertRegex("".join("short " if 1 < it < self.whole else f"{it} " for it in self.times), rf"\A{told}\Z")
        elif sign == "least":
            self.assertGreaterEqual(self.times[int(name)], int(*more))
        elif sign == "vain" and name == "first":
            self.assertEqual(self.times[0], int(*more))
        elif sign == "vain" and name == "below":
            self.assertLess(max(self.times), int(*more))
        elif sign == "vain" and name == "long":
            self.assertEqual([it for it in self.times if it >= int(*more)], [int(*more)], self.times)
        elif sign == "vain":
            (self.assertLessEqual if more[:-1] else self.assertEqual)(self.times.count(int(name)), int(more[-1]), self.times)
        else:
            super().does(sign, told, name, *more)


class Silence(Timed):
    """Each case of silence.rows."""


in_parts(Silence, "silence.rows", 4)
