"""Whether an object's machine code runs under Windows: nothing of it may

- keep something below its stack pointer (Linux's red zone, which Windows overwrites),
- use a segment register (data of a thread) or call the kernel by itself,
- take more than a page of stack without a touch of each page, by which Windows lets the stack grow.
"""

import os
import re
import subprocess
import sys

PAGE = 4096
HEAD = re.compile(r"^[0-9a-f]+ <(.*)>:$")
# where a function's frame stands; behind it, up to a first call or jump, it takes its stack
FRAME, ENDS = re.compile(r"mov +%rsp,%rbp$"), re.compile(r"call|j(?!ne )")
# stack that is taken at once, and in a loop, which takes a part of it in each turn
TAKES, LOOPS = re.compile(r"sub +\$0x([0-9a-f]+),%rsp$"), re.compile(r"(?:sub +\$|lea +-)0x([0-9a-f]+)(?:\(%rsp\))?,%r11$")
BELOW = re.compile(r"-0x([0-9a-f]+)\(%(rbp|rsp)(,?)")
# a place that is counted from 1 on may begin so many bytes before what is taken
ENTRY = 8
ALONE = re.compile(r"%[fg]s:|^syscall|^int ")


def faults_of(lines):
    """What a function does that Windows can't take, each with its line."""
    taken = untouched = looped = 0
    has_frame, begins = False, True
    for line in lines:
        begins = begins and not (has_frame and ENDS.match(line))
        if found := LOOPS.match(line):
            looped = int(found[1], 16)
        elif found := TAKES.match(line):
            untouched += int(found[1], 16)
            taken, looped = taken + begins * (looped or int(found[1], 16)), 0
        elif line.startswith("push"):
            taken, untouched = taken + 8 * (begins and has_frame), 0
        elif re.search(r",\(%rsp\)$|^call", line):
            untouched = 0
        has_frame = has_frame or FRAME.match(line) is not None
        if untouched > PAGE:
            yield "takes stack without a touch", line
        if ALONE.search(line):
            yield "is a thread's or calls Linux", line
        for size, register, counted in BELOW.findall("" if re.search(r"^lea.*(,%rsp|%r11)$", line) else line):
            # without a frame %rbp is any register: what is below the stack comes into it by %rsp
            if (register == "rsp" or has_frame) and int(size, 16) > taken * (register == "rbp") + ENTRY * bool(counted):
                yield "is below the stack", line


def faults(path):
    """What an object's functions do that Windows can't take, a line for each of them."""
    said = subprocess.run(["objdump", "-d", "--no-show-raw-insn", path], capture_output=True, text=True, check=True).stdout
    functions = []
    for line in said.splitlines():
        if head := HEAD.match(line):
            functions.append((head[1], []))
        elif "\t" in line:
            functions[-1][1].append(line.split("\t", 1)[1].split(" #")[0].strip())
    if not functions:
        sys.exit(f"{path} has no functions")
    return [f"{name} {what}: {line}" for name, lines in functions for what, line in list(faults_of(lines))[:1]]


def look(path):
    """Ends the program where there are such."""
    if told := faults(path):
        sys.exit("\n".join([f"{os.path.basename(path)}: {len(told)} functions do what Windows can't take:", *told[:10]]))
