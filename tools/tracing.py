"""A program of which allocations are refused.

A refusal is what the program gets where the system has no memory. The program is traced (ptrace(2), Linux on x86-64), and stopped where it calls
`rattle_alloc` or `rattle_realloc`, the functions of the kit's C library by which alone it takes memory. Where they return with 0 in rax, there was none.
"""

import ctypes
import os
import signal
import struct
import sys
import tempfile

# of ptrace(2)
TRACE_ME, CONTINUE, STEP, GET_REGISTERS, SET_REGISTERS, DETACH, SET_OPTIONS = 0, 7, 9, 12, 13, 17, 0x4200
EXIT_KILL = 0x100000
# the registers of user_regs_struct, 8 bytes each: which of them are rax, rdx, rip, rsp
REGISTERS, RAX, RDX, RIP, RSP = 27, 10, 12, 16, 19
# what is returned beside rax: no place of the program
NOWHERE = 0x1000
STOP = b"\xcc"
CALLS = ("rattle_alloc", "rattle_realloc")

LIBRARY = ctypes.CDLL(None, use_errno=True)
LIBRARY.ptrace.argtypes = [ctypes.c_long, ctypes.c_long, ctypes.c_void_p, ctypes.c_void_p]
LIBRARY.ptrace.restype = ctypes.c_long


def ptrace(request, process, place=None, value=None):
    if LIBRARY.ptrace(request, process, place, value) == -1:
        raise OSError(ctypes.get_errno(), "the program can't be traced")


def places_of(program):
    """Where the calls that take memory stand, from the program's start in memory, by its table of symbols (ELF, 64 bits)."""
    with open(program, "rb") as file:
        data = file.read()
    (start,) = struct.unpack_from("<Q", data, 40)
    size, count = struct.unpack_from("<HH", data, 58)
    sections = [struct.unpack_from("<IIQQQQIIQQ", data, start + size * i) for i in range(count)]
    found = {}
    for _, kind, _, _, at, size, link, *_ in sections:
        for symbol in range(at, at + size, 24) if kind == 2 else ():
            name, *_, place, _ = struct.unpack_from("<IBBHQQ", data, symbol)
            name += sections[link][4]
            found[data[name:data.index(0, name)].decode(errors="replace")] = place
    if not all(call in found for call in CALLS):
        sys.exit(f"{program} doesn't name {' and '.join(CALLS)}")
    return [found[call] for call in CALLS]


class Traced:
    """A run of the program, stopped at each allocation."""

    def __init__(self, words, output):
        self.process = os.fork()
        if self.process == 0:
            try:
                os.dup2(output, 1)
                os.dup2(output, 2)
                ptrace(TRACE_ME, 0)
                os.execv(words[0], words)
            finally:
                os._exit(127)
        _, status = os.waitpid(self.process, 0)
        if not os.WIFSTOPPED(status):
            print(f"{sys.argv[0]}: left out: this system doesn't let a program trace its child (ptrace)")
            sys.exit()
        ptrace(SET_OPTIONS, self.process, None, EXIT_KILL)
        self.memory = os.open(f"/proc/{self.process}/mem", os.O_RDWR)
        with open(f"/proc/{self.process}/maps") as maps:
            whole = os.path.realpath(words[0])
            start = next(int(line.split("-")[0], 16) for line in maps if line.rstrip().endswith(whole))
        self.kept = {start + place: os.pread(self.memory, 1, start + place) for place in places_of(words[0])}
        for place in self.kept:
            os.pwrite(self.memory, STOP, place)

    def registers(self):
        values = (ctypes.c_ulonglong * REGISTERS)()
        ptrace(GET_REGISTERS, self.process, None, ctypes.byref(values))
        return values

    def set_registers(self, values):
        ptrace(SET_REGISTERS, self.process, None, ctypes.byref(values))

    def goes_on(self):
        """Goes on to the next allocation: None, or the status with which the program ended."""
        ptrace(CONTINUE, self.process)
        while True:
            _, status = os.waitpid(self.process, 0)
            if not os.WIFSTOPPED(status):
                os.close(self.memory)
                return status
            if os.WSTOPSIG(status) == signal.SIGTRAP:
                return None
            ptrace(CONTINUE, self.process, None, os.WSTOPSIG(status))

    def allow(self):
        """Does the first instruction of the call, which the stop stands on."""
        values = self.registers()
        values[RIP] -= 1
        place = values[RIP]
        self.set_registers(values)
        os.pwrite(self.memory, self.kept[place], place)
        ptrace(STEP, self.process)
        os.waitpid(self.process, 0)
        os.pwrite(self.memory, STOP, place)

    def refuse(self):
        """Returns from the call as where there is no memory."""
        values = self.registers()
        values[RAX], values[RDX] = 0, NOWHERE
        values[RIP] = struct.unpack("<Q", os.pread(self.memory, 8, values[RSP]))[0]
        values[RSP] += 8
        self.set_registers(values)

    def run_out(self):
        """Lets the program go, and answers the status with which it ends."""
        for place, byte in self.kept.items():
            os.pwrite(self.memory, byte, place)
        ptrace(DETACH, self.process)
        os.close(self.memory)
        return os.waitpid(self.process, 0)[1]


def run(words, first, count):
    """How a program with its words ends, of whose allocations so many are refused from the first on, counted from 1 (0: none is):
    its status, as waitpid tells it, its output, and how many allocations there were until then."""
    with tempfile.TemporaryFile() as output:
        traced = Traced(words, output.fileno())
        made = 0
        while (status := traced.goes_on()) is None:
            made += 1
            if first and first <= made:
                traced.refuse()
                if made + 1 == first + count:
                    status = traced.run_out()
                    break
            else:
                traced.allow()
        output.seek(0)
        return status, output.read(), made


def told(status, output):
    """A status, as waitpid tells it, and an output."""
    code = os.waitstatus_to_exitcode(status)
    return f"{f'signal {-code}' if code < 0 else f'status {code}'}: {output.decode(errors='replace').strip()}"
