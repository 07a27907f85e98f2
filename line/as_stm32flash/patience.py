"""How long a reply may take at a port, which a session waits in full while nothing is known of the board. It may prove too short:
then a session is done again. stmflash-line has a longer one for its command, of which nothing is done again."""

import math
import re

from stmflash_line.patience import BITS, BYTES, REST, hold

from .fault import Fault

# what stmflash itself waits, in ms: where nothing is known of the way to the board
UNKNOWN = 500
LEAST = 100
# behind an answer that took the longest up to now silence is what stmflash takes for it: four times that, and so many ms
MARGIN = 20


def wait(given, port, baud):
    """The wait for a port at this speed, in ms; what STMFLASH_WAIT was outside decides where it was given."""
    if given:
        if not re.fullmatch("[1-9][0-9]{0,4}", given) or int(given) > 60000:
            raise Fault(f"ERROR: STMFLASH_WAIT: {given} is no such time; give 1 to 60000 ms")
        return int(given)
    held = hold(port)
    if held is None:
        return UNKNOWN
    return max(LEAST, math.ceil(BYTES * BITS * 1000 / baud) + 4 * held + REST)


def wait_at_rest(whole, slowest):
    """The wait of a session behind one of the same call that ended well, in ms, where the slowest answer took so many seconds. The
    board has nothing begun and owes nothing then: what is waited for is the answer to one byte, and no batch is on its way."""
    if not slowest:
        return whole
    return min(whole, max(REST, 4 * math.ceil(1000 * slowest) + MARGIN))
