"""The command line: the options of stm32flash 0.7, and what is refused of them before a byte is sent."""

import getopt
import re

from .fault import Fault
from .sequence import known

OPTIONS = "a:b:m:r:w:e:vn:g:jkfcChuos:S:F:i:R"
OWN = ["undo", "log"]
RATES = (1200, 1800, 2400, 4800, 9600, 14400, 19200, 38400, 56000, 57600, 115200, 128000, 230400, 256000, 460800, 500000, 576000,
         921600, 1000000, 1152000, 1500000, 2000000, 2500000, 3000000, 3500000, 4000000)
ACTIONS = {"r": "memory read", "w": "memory write", "u": "write unprotect", "j": "read protect", "k": "read unprotect", "o": "flash erase", "C": "memory crc"}
# the least and the largest frames, without the count and the checksum
LEAST_RX, LEAST_TX, MOST_RX, MOST_TX = 20, 6, 256, 257
PAGES_OR_ADDRESS = "ERROR: Invalid options, can't specify start page / num pages and start address/length"
# what -h says
USAGE = """\
Usage: stm32flash [options] PORT
  what is done (one of these; without one the device is told)
    -r FILE     the flash is read into FILE; - is standard output
    -w FILE     FILE is written: Intel HEX, or raw bytes; - is standard input
    -o          pages are erased
    -C          the CRC of the flash is computed
    -u, -j, -k  write protection off; readout protection on; off, which erases the whole chip
  with which part of the flash
    -S ADDRESS[:LENGTH]   from an address on
    -s PAGE, -e COUNT     from a page on, so many pages (with -r, -o, -C)
  and then
    -v          what was written is compared
    -n COUNT    a write that differs is undone and done again, so many times (10)
    -f          FILE is raw bytes, also where it is HEX
    -g ADDRESS  the program at ADDRESS is started; 0 is the flash's start
    -R          the board is reset: by the exit sequence of -i, or the program at the flash's start is started
  the line
    -b RATE     its speed (57600)
    -m MODE     8e1
    -i [ENTRY][:[EXIT]]   how rts, dtr, brk and GPIO lines bring the board into its bootloader and out of it
    -c          no entry sequence is played
  of stmflash
    --undo PORT   the newest write or erase at this port that changed something is undone
    --log PORT    what can be undone there
See stmflash-as-stm32flash(1).
"""


class Words:
    """What a call asks for."""

    def __init__(self, **given):
        self.port = ""
        # a letter of ACTIONS, "undo", "log", or nothing
        self.action = ""
        # of -r and -w; where -r writes to a file that was opened for this process, its descriptor
        self.file, self.out = "", None
        self.baud, self.mode = 57600, "8e1"
        self.verify, self.retries = False, 10
        # where the program is started; 0 is the flash's start
        self.start_at = None
        # of -S, of which either may be left out
        self.address = self.length = None
        # of -s and -e
        self.page = self.pages = None
        self.force = self.resume = self.reset = False
        # both sequences of -i, or nothing
        self.sequence = None
        self.notes = []
        vars(self).update(given)

    def entry(self):
        """The sequence that is played at first."""
        return "" if self.resume else (self.sequence or "").partition(":")[0]

    def leave(self):
        """The sequence that is played in the end; None where there is none."""
        _, colon, text = (self.sequence or "").partition(":")
        return text if colon else None


def number(text):
    """A number as the C library reads one: 0x is hexadecimal, a leading 0 octal."""
    if not re.fullmatch(r"0[xX][0-9a-fA-F]+|0[0-7]*|[1-9][0-9]*", text):
        raise Fault(f"ERROR: {text} is no number; give it as 64, 0x40 or 0100")
    value = int(text, 8) if re.fullmatch("0[0-7]+", text) else int(text, 0)
    if value >= 1 << 32:
        raise Fault(f"ERROR: {text} is too large; give 0xffffffff at most")
    return value


def read(words):
    """What these words ask for, or None where it is the help."""
    try:
        options, rest = getopt.gnu_getopt(words, OPTIONS, OWN)
    except getopt.GetoptError as error:
        raise Fault(f"stm32flash: {error}", usage=True) from None
    asked = Words()
    for name, value in options:
        if name == "-h":
            return None
        take(asked, name.lstrip("-"), value)
    if not rest:
        raise Fault("ERROR: Device not specified", usage=True)
    if len(rest) > 1:
        raise Fault("ERROR: Invalid parameter specified", usage=True)
    asked.port = rest[0]
    if asked.verify and asked.action != "w":
        raise Fault("ERROR: Invalid usage, -v is only valid when writing", usage=True)
    if asked.action in OWN and (asked.start_at is not None or asked.reset):
        raise Fault(f"ERROR: Invalid usage, -g and -R don't go with --{asked.action}", usage=True)
    if asked.port.startswith("/dev/i2c-"):
        raise Fault(f"ERROR: {asked.port}: I2C isn't there; the real stm32flash has it")
    return asked


def take(asked, name, value):
    """One option more."""
    if name in ACTIONS or name in OWN:
        if asked.action:
            first, second = (ACTIONS.get(action, "--" + action) for action in (asked.action, name))
            raise Fault(f'ERROR: Invalid options !\n\tCan\'t execute "{first}" and "{second}" at the same time.')
        asked.action = name
        asked.file = value
    elif name in FLAGS:
        setattr(asked, FLAGS[name], True)
    elif name in TAKERS:
        TAKERS[name](asked, value)


FLAGS = {"v": "verify", "f": "force", "c": "resume", "R": "reset"}


def take_baud(asked, value):
    if value not in map(str, RATES):
        raise Fault("\n ".join(["Invalid baud rate, valid options are:", *map(str, RATES)]))
    asked.baud = int(value)


def take_mode(asked, value):
    if not re.fullmatch("[5-8][neoNEO][12]", value):
        raise Fault("Invalid serial mode")
    asked.mode = value.lower()


def take_start(asked, value):
    asked.start_at = number(value)
    if asked.start_at % 4:
        raise Fault("ERROR: Execution address must be word-aligned")


def count_of_pages(asked, value):
    if asked.address is not None or asked.length is not None:
        raise Fault(PAGES_OR_ADDRESS)
    if value.startswith("-") or number(value) > 0xFFFF:
        raise Fault("ERROR: You need to specify a page count between 0 and 0xffff")
    return number(value)


def take_range(asked, value):
    if asked.page or asked.pages:
        raise Fault(PAGES_OR_ADDRESS)
    address, colon, length = value.partition(":")
    asked.address = number(address) if address or not colon else None
    if asked.address is not None and asked.address % 4:
        raise Fault("ERROR: Start address must be word-aligned")
    asked.length = number(length) if colon else None
    if asked.length == 0:
        raise Fault("ERROR: Invalid options, can't specify zero length")


def take_frames(asked, value):
    """Frames are of 256 bytes, whatever is asked for; what stm32flash itself refuses is refused."""
    sizes = value.split(":")
    if any(size.startswith("-") for size in sizes):
        raise Fault("ERROR: Invalid negative value for option -F")
    limits = (("RX", LEAST_RX, MOST_RX), ("TX", LEAST_TX, MOST_TX))
    for size, (name, least, most) in zip(map(number, sizes), limits):
        if size < least:
            raise Fault(f"ERROR: current code cannot work with small frames.\nmin(RX) = {LEAST_RX}, min(TX) = {LEAST_TX}")
        if size != most:
            asked.notes.append(f"WARNING: Ignore {name} length in option -F")


TAKERS = {"b": take_baud, "m": take_mode, "g": take_start, "S": take_range, "F": take_frames,
          "i": lambda asked, value: setattr(asked, "sequence", known(value)),
          "n": lambda asked, value: setattr(asked, "retries", number(value)),
          "s": lambda asked, value: setattr(asked, "page", count_of_pages(asked, value)),
          "e": lambda asked, value: setattr(asked, "pages", count_of_pages(asked, value))}
