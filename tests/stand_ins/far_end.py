"""The far end of rfc2217://: pyserial's own, before a port that is a log. It listens at a free port of 127.0.0.1, whose number it
prints, and serves one client. Its word: `silent`, it tells of no errors; `floods`, it asks without an end; `tires`, it asks behind a byte and ends; `slow`, it takes one speed.

What is asked of the port is noted line by line on standard output. Bytes come back as they went, but for these: `!` brings "ab",
the word that a byte came with a wrong parity, and "cd"; `.` ends the connection.
"""

import socket
import sys
import types

from serial import rfc2217


class Port:
    """Notes each setting that is made."""

    is_open, cts, dsr, ri, cd, in_waiting, timeout = True, False, False, False, False, 0, 0

    def __setattr__(self, name, value):
        if getattr(self, name, None) != value:
            print(name, value, flush=True)
        super().__setattr__(name, 9600 if "slow" in sys.argv and name == "baudrate" else value)

    def reset_input_buffer(self):
        pass

    reset_output_buffer = reset_input_buffer


class FarEnd(rfc2217.PortManager):
    def _telnet_process_subnegotiation(self, suboption):
        if suboption[:2] == rfc2217.COM_PORT_OPTION + rfc2217.SET_LINESTATE_MASK and "silent" not in sys.argv:
            print("mask", suboption[2], flush=True)
            self.rfc2217_send_subnegotiation(rfc2217.SERVER_SET_LINESTATE_MASK, suboption[2:3])
        else:
            super()._telnet_process_subnegotiation(suboption)


def main():
    with socket.create_server(("127.0.0.1", 0)) as listener:
        print(listener.getsockname()[1], flush=True)
        client, _ = listener.accept()
    port = Port()
    port.baudrate, port.bytesize, port.parity, port.stopbits, port.rts, port.dtr = 9600, 8, "N", 1, True, True
    manager = FarEnd(port, types.SimpleNamespace(write=client.sendall))
    while data := client.recv(1024):
        came = [*manager.filter(data)]
        # IAC WILL, of an option that nobody has
        while "floods" in sys.argv or "tires" in sys.argv and came:
            client.sendall(b"\xff\xfb\x63" * 20000)
            if "tires" in sys.argv:
                return
        for byte in came:
            if byte == b"!":
                client.sendall(b"ab")
                manager.rfc2217_send_subnegotiation(rfc2217.SERVER_NOTIFY_LINESTATE, b"\x04")
                client.sendall(b"cd")
            elif byte == b".":
                return
            else:
                client.sendall(b"".join(manager.escape(byte)))


main()
