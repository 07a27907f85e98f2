"""pyserial's port `wired://PATH?file=LOG`: its own `spy://`, which notes each call with its time, on a pseudo-terminal that is taken
to have RTS and DTR."""

from serial.urlhandler import protocol_spy


class Serial(protocol_spy.Serial):
    def from_url(self, url):
        return super().from_url(url.replace("wired:", "spy:", 1))

    def _update_rts_state(self):
        pass

    _update_dtr_state = _update_rts_state

    def set_low_latency_mode(self, low_latency_settings):
        self.formatter.control("LAT", "low" if low_latency_settings else "as it was")
