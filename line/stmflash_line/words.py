"""The words of the command line."""

import types

from .sequences import gpio_lines, read_sequence, read_wiring

# how long a client of a served socket may say nothing, in seconds, where no word says how long
IDLE = 60
# the chip of the GPIO lines, where no word says which
CHIP = "gpiochip0"
# the words of stmflash that may stand without `stmflash` and `--`; without any it is the first
SHORT = ("info", "read", "crc", "write", "verify", "erase", "undo", "log", "keep", "go", "protect")
# our options that take a value
VALUED = ("--baud", "--wiring", "--boot", "--after", "--gpio-chip", "--socket", "--idle")
USAGE = """stmflash-line [PORT] [--baud N] [HOW] [--after SEQUENCE] [--idle SECONDS] [--watch] [WORD..]
       stmflash-line [PORT] [--baud N] [HOW] [--after SEQUENCE] [--idle SECONDS] [--watch] -- COMMAND..
       stmflash-line [PORT] [--baud N] [HOW] [--after SEQUENCE] [--idle SECONDS] [--watch] --socket PATH

WORD..: a command of stmflash, as write firmware.hex; info without one

HOW, which brings the board into its bootloader: --wiring WIRING | --boot SEQUENCE [--resets] [--gpio-chip NAME]"""
EXAMPLE = """the board at the one port that there is; one with reset at DTR and BOOT0 at RTS; the same in stm32flash's notation:
  stmflash-line write -v firmware.hex
  stmflash-line /dev/ttyUSB0 --wiring dtr-reset,rts-boot0 -- stmflash write --journal board7.journal -v firmware.hex
  stmflash-line /dev/ttyUSB0 --boot '-rts&dtr,-dtr,,:rts&dtr,-dtr' --resets -- stmflash info --journal board7.journal"""


def make_parser():
    # a program that has words of its own doesn't load it
    import argparse
    parser = argparse.ArgumentParser(
        prog="stmflash-line", allow_abbrev=False, usage=USAGE, epilog=EXAMPLE,
        formatter_class=argparse.RawDescriptionHelpFormatter,
        description="Joins a serial port to a Unix socket for stmflash, and runs COMMAND with its path for every {}.")
    parser.add_argument("port", metavar="PORT", nargs="?",
                        help="a serial port, as /dev/ttyUSB0, or rfc2217://HOST:PORT, socket://HOST:PORT; the one that there is without it")
    parser.add_argument("--baud", type=int, default=115200, metavar="N", help="its speed; 115200 without it")
    parser.add_argument("--wiring", metavar="WIRING",
                        help="what reset and BOOT0 hang on: dtr-reset,rts-boot0, with inverted- before what goes through an "
                        "inverter; the board is reset into its bootloader, and in the end into its program")
    parser.add_argument("--boot", metavar="SEQUENCE", help="how RTS, DTR, break and GPIO lines are moved once the port is open: '-rts&dtr,-dtr,,:rts&dtr,-dtr'")
    parser.add_argument("--resets", action="store_true", help="--boot is a reset: it is played for each client")
    parser.add_argument("--after", metavar="SEQUENCE", help="the same for the end; also what follows ':' in --boot")
    parser.add_argument("--gpio-chip", metavar="NAME", help=f"the chip of the GPIO lines that a sequence names; {CHIP} without it")
    parser.add_argument("--watch", action="store_true", help="ends the line at the first reply that no device of the model gives, and tells it")
    parser.add_argument("--socket", metavar="PATH", help="serves this socket, one client after another, until a signal comes")
    parser.add_argument("--idle", type=int, metavar="SECONDS",
                        help="lets go of a client that has sent nothing for so long; with --socket 60 without it; 0: never")
    return parser


def read_words(words):
    """What the command line asks for."""
    own, command = parted(words)
    parser = make_parser()
    given, more = parser.parse_known_args(joined(own))
    if more and not more[0].startswith("-"):
        import shlex
        rest = [word for word in words[words.index(more[0]):] if word != "--"]
        parser.error(f"COMMAND comes behind --, as in: stmflash-line {shlex.join([given.port, '--', *rest])}")
    if more:
        parser.error(f"unrecognized arguments: {' '.join(more)}")
    given.command, given.heard = command, None
    if given.socket is not None and command or command is None:
        parser.error("either --socket PATH or -- COMMAND")
    if given.socket is None and not command:
        given.command = ["stmflash", SHORT[0]]
    if given.port == "":
        parser.error("PORT is an empty word: give a port, or leave the word out where there is one port alone")
    if given.socket == "":
        parser.error("--socket names no path")
    if not 1 <= given.baud <= 4000000:
        parser.error("--baud is 1 to 4000000")
    if given.idle is None:
        given.idle = IDLE if given.socket is not None else 0
    if given.idle < 0:
        parser.error("--idle is a number of seconds, or 0")
    try:
        settle_sequences(given)
    except ValueError as error:
        parser.error(str(error))
    return given


def parted(words):
    """Our own words, and COMMAND: what follows `--`, None where nothing does; or a word of stmflash and what follows it."""
    at = 0
    while at < len(words):
        if words[at] == "--":
            return words[:at], words[at + 1:] or None
        if words[at] in SHORT:
            return words[:at], ["stmflash", *words[at:]]
        at += 2 if words[at] in VALUED else 1
    return words, []


def of_program(port, baud, boot, chip, begin, heard):
    """The same, for a program that uses these modules itself: `begin` is called in place of COMMAND, with its settings, and
    answers the process that it has begun; `heard` is told how long each answer of the board took, in seconds."""
    given = types.SimpleNamespace(port=port, baud=baud, wiring=None, boot=boot, resets=False, after=None, gpio_chip=chip, watch=False,
                                  socket=None, idle=0, command=begin, heard=heard)
    settle_sequences(given)
    return given


def settle_sequences(given):
    """What is played, and whether it is a reset, by whichever words say so."""
    if given.wiring is not None:
        if given.boot is not None or given.resets:
            raise ValueError("--wiring says what is played, and that it resets: leave --boot and --resets out")
        entry, leave = read_wiring(given.wiring)
        given.resets = True
    else:
        if given.resets and given.boot is None:
            raise ValueError("--resets says of --boot that it resets the board")
        entry, colon, leave = (given.boot or "").partition(":")
        if colon and given.after is not None:
            raise ValueError("--after, and a ':' in --boot: one of them says how the board is left")
    given.boot = read_sequence(entry)
    given.after = read_sequence(leave if given.after is None else given.after)
    settle_lines(given)


def settle_lines(given):
    """Which chip has the GPIO lines; None where there are none."""
    lines, late = gpio_lines(given.boot), gpio_lines(given.after)
    if not late <= lines:
        # whether a line can be had is seen before a byte goes out
        first = min(late - lines)
        raise ValueError(f"GPIO line {first} is moved in the end alone: name it in --boot too, at the level that it has till then")
    if not lines:
        if given.gpio_chip is not None:
            raise ValueError("--gpio-chip names the chip of GPIO lines, and --boot names none")
        return
    if given.gpio_chip is None:
        given.gpio_chip = CHIP
    if not given.gpio_chip or given.gpio_chip.startswith("-"):
        raise ValueError(f"{given.gpio_chip!r} is no chip: gpiodetect tells those that there are")


def joined(words):
    """The words with each sequence made one with its option: it may begin with '-', which would be taken for an option."""
    words = list(words)
    for at in reversed(range(len(words) - 1)):
        if words[at] in ("--boot", "--after"):
            words[at:at + 2] = [words[at] + "=" + words[at + 1]]
    return words
