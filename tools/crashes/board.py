"""A simulated device as it stood when the PC crashed."""

import os
import random
import sys

sys.path += [os.path.join(os.path.dirname(os.path.abspath(__file__)), "..", name) for name in ("soak", "")]
from device import GET_VERSION, Device  # noqa: E402, F401
from program import stand, standing  # noqa: E402
from simulator import Folder, Simulator, Unanswered, words_of  # noqa: E402, F401
from stops import board_of, table  # noqa: E402


def flash_of(chip):
    """What the chip holds at first."""
    return random.Random("flash %d" % chip.number).randbytes(chip.size)


def files_of(device):
    """The flash, where the device stands, and which board it is, as the simulator has them in files."""
    return {"flash": bytes(device.flash), "flash.line": standing(device), **board_of(device.chip.unique)}


class Board(Simulator):
    """A simulator that is served, from a device on. It has a folder of its own."""

    def __init__(self, program, folder, device):
        os.makedirs(folder)
        Folder(folder).store_all({"table": table(), **files_of(device)})
        super().__init__(program, folder, "%04X" % device.chip.number, table="table")
