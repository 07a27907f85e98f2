"""ELF files as Intel HEX, by objcopy where it is installed: what they load, at the places where it is loaded."""

import os
import re

from .faults import Fault, say
from .held import hold

MAGIC = b"\x7fELF"
# the first that is there
PROGRAMS = ("arm-none-eabi-objcopy", "objcopy", "llvm-objcopy")
# the commands of stmflash that take an image, and the flag by which its bytes are raw, whatever they are
WITH_IMAGE, RAW = ("write", "verify"), re.compile("-v*fv*|--force")
# a data record has bytes
DATA = re.compile(rb"^:(?!00)[0-9A-F]{6}00", re.M)


def begins(path, magic=MAGIC):
    """Whether a file begins with these bytes; of a pipe stmflash would miss what is read here, and a port may have nothing to read."""
    if not os.path.isfile(path):
        return False
    try:
        with open(path, "rb") as file:
            return file.read(len(magic)) == magic
    except OSError:
        return False


def hex_text(path):
    """An ELF file as a text in Intel HEX, and the program that made it."""
    # loaded for few
    import shutil
    import subprocess
    import tempfile
    typed = f"objcopy -O ihex {path} {os.path.splitext(path)[0]}.hex"
    program = next(filter(shutil.which, PROGRAMS), None)
    if program is None:
        raise Fault(f"{path}: is ELF, and there is no objcopy (sudo apt install binutils); where there is one: {typed}")
    # it puts a file of its own in the place of what it writes to, also of a pipe's name
    with tempfile.TemporaryDirectory(prefix="stmflash-elf-") as folder:
        made = os.path.join(folder, "made")
        ran = subprocess.run([program, "-O", "ihex", "--", path, made], stdin=subprocess.DEVNULL, stdout=subprocess.DEVNULL,
                             stderr=subprocess.PIPE, check=False)
        text = b""
        if os.path.exists(made):
            with open(made, "rb") as file:
                text = file.read()
    if ran.returncode or not DATA.search(text):
        told = ran.stderr.decode(errors="replace").strip().splitlines()
        raise Fault(f"{path}: is ELF, and makes no HEX: {told[-1] if told else 'it loads nothing'}; give HEX, or raw bytes with -S")
    return text, program


def with_hex(command):
    """A COMMAND with HEX in the place of each ELF file that it is to write or compare, each told; COMMAND itself without one."""
    if len(command) < 2 or not os.path.basename(command[0]).startswith("stmflash") or command[1] not in WITH_IMAGE:
        return command
    if any(map(RAW.fullmatch, command)):
        return command
    return command[:2] + [held(word) if begins(word) else word for word in command[2:]]


class Held(str):
    """The name of a file of ours, without a place on a disk; `told` is its user's."""


def held(path):
    """An ELF file as HEX."""
    text, program = hex_text(path)
    say(f"{path}: as HEX, by {program}")
    image = Held(f"/proc/{os.getpid()}/fd/{hold(text)}")
    image.told = path
    return image
