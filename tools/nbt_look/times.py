"""The times of frames as texts."""
from nbt_pcap.clock import year_text


class Times:
    """Times since the first frame, in seconds, or in UTC."""

    def __init__(self, in_utc):
        self.in_utc = in_utc
        self.first = None            # nanoseconds since 1970
        self.second, self.second_text = None, ''

    def see(self, at):
        """Takes the time of a frame: the first one is where times begin."""
        if self.first is None and at is not None:
            self.first = at

    def text(self, at):
        if at is None:
            return '-'
        return self.utc(at) or '-' if self.in_utc else since(at - (self.first or 0))

    def utc(self, at):
        """None where it has no time, or no year has it."""
        if at is None:
            return None
        second, part = divmod(at, 10**9)
        if second != self.second:
            self.second, self.second_text = second, year_text(second)
        return '%s.%06dZ' % (self.second_text, part // 1000) if self.second_text else None


def since(span):
    """A span in seconds; before the first frame it is negative."""
    second, part = divmod(abs(span), 10**9)
    return '%s%d.%06d' % ('-' if span < 0 else '', second, part // 1000)
