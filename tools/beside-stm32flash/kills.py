"""Scripts of stm32flash's words, run unchanged over ours, and killed at random."""

import contextlib
import os
import random
import shlex
import signal
import subprocess
import time

from room import CHIP, OURS, PAGE_SIZE, PATIENCE, TABLE, WAIT, PtyBoard, Room, entry_of

SPEED = 230400
# the words of each line; a pseudo-terminal keeps no parity, which the real one looks at, so that each has -m 8n1 besides
WRITE, PRODUCTION = ("-w slow.bin -v",), ("-o -s 0 -e 8", "-w slow.bin -v", "-g 0x0")
START = ("-w slow.bin -v -g 0x0",)
ERASED = 8
SCRIPTS = {"a write": WRITE, "erase; write and verify; go": PRODUCTION, "a write that starts the program": START}
# how the flash came back behind a kill
NEXT, UNDO = "undone by the next call", "by --undo, since the calls had gone through"
NOBODY, AGAIN = "before anything was changed", "behind the script again, which went through"
KINDS = (NEXT, UNDO, NOBODY, AGAIN)


class Fault(Exception):
    pass


class Play:
    """A script at a board of its own."""

    def __init__(self, program, source, script):
        self.room, self.script = Room(program, source), script
        # it tells which it is: else a call that is to do nothing undoes nothing
        self.room.store("port.flash.board", b"unique " + 12 * b"A1" + b"\n")
        self.board = self.room.board(baud=SPEED)
        self.first = self.room.held("first")
        os.symlink(OURS, self.room.path("bin/stm32flash"))
        self.room.store("table", entry_of(CHIP))
        self.settings = self.room.settings(self.room.path("table"), WAIT)
        self.room.store("script", ("set -e\n" + "".join(f'stm32flash -m 8n1 {line} "$1"\n' for line in script)).encode())

    def wanted(self):
        """What the whole script leaves in the flash."""
        data = self.room.held("slow.bin")
        erased = max(ERASED * PAGE_SIZE, len(data)) if self.script == PRODUCTION else len(data)
        return data.ljust(erased, b"\xff") + self.first[erased:]

    def words(self):
        """The script; one of a single line is that line, so that it can be killed without the processes below it."""
        if len(self.script) > 1:
            return ["sh", "script", self.room.path("port")]
        return [self.room.path("bin/stm32flash"), "-m", "8n1", *shlex.split(self.script[0]), self.room.path("port")]

    def call(self, *words):
        """A whole call, or the script: what it said, and the flash then. Its status has to be 0."""
        called = self.words() if words == ("script",) else [self.room.path("bin/stm32flash"), "-m", "8n1", *words, self.room.path("port")]
        ran = subprocess.run(called, cwd=self.room.folder, env=self.settings, stdin=subprocess.DEVNULL, capture_output=True, timeout=PATIENCE)
        if ran.returncode:
            raise Fault(f"{' '.join(called[1:-1])}: {ran.stderr.decode().strip()}")
        return ran.stderr, self.stored()

    def stored(self):
        """The flash. A board on which a program was started stands behind a reset then."""
        flash = self.board.store()
        if (self.room.held("port.flash.line") or b"").strip() == b"gone":
            self.board.stop()
            os.remove(self.room.path("port.flash.line"))
            self.board = PtyBoard(self.room.program, self.room.path("port"), CHIP, TABLE, baud=SPEED)
        return flash

    def kill(self, moment, whole):
        """Ends the script at this moment: all of its processes, or ours alone where it is a single one."""
        started = subprocess.Popen(self.words(), cwd=self.room.folder, env=self.settings, stdin=subprocess.DEVNULL,
                                   stdout=subprocess.DEVNULL, stderr=subprocess.DEVNULL, start_new_session=True)
        time.sleep(moment)
        if whole or len(self.script) > 1:
            os.killpg(started.pid, signal.SIGKILL)
        else:
            started.kill()
        started.wait()
        # what was killed has sent something that is still on its way to the board, which nobody may use while it stores
        time.sleep(1)
        self.stored()
        self.board.renew()

    def give_back(self, again):
        """The next call, which is the script again or one that is to do nothing, and as many undos as are wanted then: who gave the flash back."""
        said, flash = self.call("script") if again else self.call()
        if again and flash != self.wanted():
            raise Fault("the script went through again, and its image isn't there")
        back = b"undone first" in said
        # the writes and erases that may stand: those of the script, or of both where it ran twice, but for one undone
        changes = sum(line != "-g 0x0" for line in self.script)
        rounds, most = 0, changes * (2 if again else 1) - back
        while flash != self.first:
            if rounds == most:
                raise Fault(f"behind {rounds} undos{' and what was undone first' if back else ''} it isn't as it was")
            _, flash = self.call("--undo")
            rounds += 1
        return AGAIN if again else NEXT if back else UNDO if rounds else NOBODY

    def close(self):
        self.board.stop()
        self.room.close()


def kill(program, source, script, moment, number):
    """One kill: who gave the flash back, and a fault, or None."""
    with contextlib.closing(Play(program, source, script)) as play:
        try:
            play.kill(moment, number % 4 > 1)
            return play.give_back(number % 2 == 1), None
        except (Fault, OSError, subprocess.SubprocessError) as error:
            return None, str(error)


def length(program, source, script):
    """How long a script takes that goes through."""
    with contextlib.closing(Play(program, source, script)) as play:
        began = time.monotonic()
        if play.call("script")[1] != play.wanted():
            raise SystemExit(f"FAILED: {script}: its image isn't there")
        return time.monotonic() - began


def kills(pool, program, source, count, seed, show):
    """Kills each script at so many moments, one in each equal part of its time. What came of it, and each fault."""
    chance, begun = random.Random(seed), []
    for name, script in SCRIPTS.items():
        whole = length(program, source, script)
        for number in range(count):
            moment = whole * (number + chance.random()) / count
            text = f"{name}, killed after {moment:.2f} of {whole:.2f} s"
            begun.append((name, text, pool.submit(kill, program, source, script, moment, number)))
            if show:
                begun[-1][2].add_done_callback(lambda one, text=text: print(f"{text}: {one.result()}", flush=True))
    ended = [(name, text, *one.result()) for name, text, one in begun]
    for name in SCRIPTS:
        found = [kind for script, _, kind, _ in ended if script == name]
        print(f"{name}: {len(found)} kills, the flash as it was " + ", ".join(f"{found.count(kind)} {kind}" for kind in KINDS if kind in found), flush=True)
    return f", {len(ended)} kills (seed {seed})", [f"{text}: {fault}" for _, text, _, fault in ended if fault]
