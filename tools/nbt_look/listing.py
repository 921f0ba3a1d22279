"""A line for each packet, in columns."""
from nbt_pcap.header import SERVICES

from .screen import Sink
from .shown import left_out_words

# The least widths of the columns before the phrase, which grow with what stands in them.
WIDTHS = (5, 9, 15, 15)


class Listing(Sink):
    """The list: frame, time, from, to, and what is said."""

    def __init__(self, screen, times):
        super().__init__(screen, times)
        self.widths = list(WIDTHS)
        self.interface = None

    def packet(self, item, shown, _text):
        style = 'refused' if 'refused' in shown else 'conflict' if shown.get('rcode') == 'CFT_ERR' else None
        self.row(item.frame, ends(item, (str(item.service),)), shown['brief'], style)

    def cut(self, item, shown):
        self.row(item.frame, ends(item, (str(item.service),)), shown['brief'], 'left out')

    def left_out(self, item):
        frame = item.frame
        sizes = ', %d of %d bytes' % (frame.captured, frame.size) if frame.captured < frame.size else ''
        self.row(frame, ends(frame, tuple(map(str, SERVICES))), 'left out: ' + left_out_words(item) + sizes, 'left out')

    def row(self, frame, addresses, phrase, style):
        source, target = addresses
        if self.interface is None:
            self.interface = frame.interface
        if frame.interface != self.interface:
            source += '%' + frame.interface
        cells = (str(frame.number), self.times.text(frame.at), source, target)
        for number, each in enumerate(cells):
            if len(each) > self.widths[number]:
                self.widths[number] = len(each)
        number, time, start, end = self.widths
        self.screen.line('%*s %*s %-*s %-*s %s' % (number, cells[0], time, cells[1], start, source, end, target, phrase), style, cut=True)


def ends(of, own):
    """From where and to where, with the ports that aren't the service's own."""
    return place(of.source, of.source_port, own), place(of.target, of.target_port, own)


def place(address, port, own):
    if not address:
        return '-'
    if not port or port in own:
        return address
    return '[%s]:%s' % (address, port) if ':' in address else '%s:%s' % (address, port)
