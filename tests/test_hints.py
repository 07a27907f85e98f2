"""What is told of a device that refuses, says nothing, something else, or just what it hears (tests/hints.rows)."""

from hostile import Answering, Board, answering, be_silent, echo, repeating
from place import COUNTING
from refusing import SIZES, OnBoard
from rows import in_parts
from test_giving_up import hiss

from deviations import DEVIATIONS
from planted_board import GET_ID, PlantedBoard


def other(deviation):
    """A board with one deviation of those that the trial has to find."""
    return PlantedBoard(0x412, SIZES, 0x43, DEVIATIONS[deviation].sets, flash=COUNTING)


class Busy(Board):
    """A board that says 76 before so many of its acknowledgements, from a certain one on."""

    def __init__(self, first, count):
        super().__init__(first=first, last=first + count)

    def acknowledge(self):
        self.first, self.last = self.first - 1, self.last - 1
        if self.first < 0 <= self.last:
            self.owed.append(0x76)
        super().acknowledge()


def counted(count):
    """A board whose id has so many bytes."""
    return Answering(code=GET_ID, told=f"{count - 1:02X} 04*{count} 79")


class Hints(OnBoard):
    kinds = {**OnBoard.kinds, "other": other, "busy": Busy, "counted": counted, "echo": echo, "silent": be_silent, "hisses": hiss,
             "prints": repeating(0, lambda: b"boot ok, temperature 23\r\n" * 8), "replies": answering(lambda came: b"v1.2\r\n" * len(came)),
             "closes": lambda line, _: line.recv(1)}


in_parts(Hints, "hints.rows", 2)
