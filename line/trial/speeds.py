"""--speeds: which speeds of the line a board takes. It is reset before each, asked who it is, and read; nothing is changed."""

import sys
import time

from faults import Ended, Refused
from line import Line
from model import ACK, CONNECT, GET, GET_ID, READ, fold
from progress import put

SPEEDS = (57600, 115200, 230400, 460800, 921600, 1000000, 1500000, 2000000)
# how many blocks of 256 bytes are read at each, and how long an answer may take, in seconds
BLOCKS, PATIENCE = 64, 3


class Fails(Exception):
    """What a board does at a speed that it doesn't take."""


def run(words):
    """Tries each speed, and answers the exit status."""
    seconds, flash = {}, None
    for words.baud in SPEEDS:
        try:
            read, seconds[words.baud] = tried(words)
            if flash is None:
                flash = read
            elif read != flash:
                del seconds[words.baud]
                raise Fails("other bytes were read than at a lower speed")
            text = f"taken: {len(read)} bytes read in {seconds[words.baud]:.1f} s"
        except Fails as error:
            text = f"not taken: {error}"
        put(sys.stdout, f"{words.baud:<9}{text}\n")
    if not seconds:
        put(sys.stdout, "none is taken\n")
        return 1
    best = max(seconds)
    put(sys.stdout, f"the highest that this board takes on this line: --baud {best}\n")
    return 0


def tried(words):
    """What was read at this speed, and how many seconds that took."""
    try:
        line = Line(words)
    except Refused:
        raise Fails("the port can't be opened at it") from None
    try:
        if not words.wiring:
            # it is wired, or was asked for: words.read sees to that
            line.reset()
        return asked(line, words.chips)
    except Ended as error:
        raise Fails(str(error)) from None
    finally:
        line.close()


def asked(line, chips):
    answer(line, bytes([CONNECT]), 1)
    answer(line, code(GET), 1)
    take(line, take(line, 1)[0] + 1)
    answer(line, b"", 1)
    told = answer(line, code(GET_ID), 5)
    number = int.from_bytes(told[2:4], "big")
    chip = next((chip for chip in chips if chip["id"] == number), None)
    if chip is None:
        raise Ended(f"the table has no chip {number:04X}")
    size = sum(count * size for count, size in chip["pages"])
    read, begun = b"", time.monotonic()
    for at in range(0, min(BLOCKS * 256, size), 256):
        place = (chip["base"] + at).to_bytes(4, "big")
        answer(line, code(READ), 1)
        answer(line, place + bytes([fold(place)]), 1)
        read += answer(line, code(0xFF), 257)[1:]
    return read, time.monotonic() - begun


def code(byte):
    return bytes([byte, byte ^ 0xFF])


def answer(line, data, count):
    """So many bytes, of which the first is 79."""
    line.write(data)
    found = take(line, count)
    if found[0] != ACK:
        raise Fails(f"{found[0]:02X} came, and {ACK:02X} was due")
    return found


def take(line, count):
    found = line.read(count, PATIENCE, PATIENCE)
    if len(found) < count:
        raise Fails(f"{len(found)} bytes came, and {count} were due" if found else "no answer")
    return found
