"""The device as the trial takes it to be: what is never sent to a board ends a row before it is sent."""

from faults import Forbidden
from stmflash_line import model
from stmflash_line.model import ACK, CONNECT, ERASE, EXTENDED_ERASE, GET, GET_ID, GET_VERSION, NACK, READ, WRITE, fold

__all__ = ["ACK", "CONNECT", "ERASE", "EXTENDED_ERASE", "GET", "GET_ID", "GET_VERSION", "NACK", "NEVER", "READ", "WRITE", "Model", "fold"]
# Go and the protections, those without and with a security area among them: never sent, whatever a board lists
NEVER = frozenset({0x21, 0x63, 0x64, 0x73, 0x74, 0x82, 0x83, 0x92, 0x93})


class Model(model.Model):
    """Forbidden, and nothing is fed, where a byte would complete what is never sent."""

    def judge_other(self, code):
        raise Forbidden(f"the code {code:02X} is never sent")

    def judge_special(self, rest, count):
        raise Forbidden("an erase of everything is never sent")
