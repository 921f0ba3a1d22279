"""Fragments of IP whose others haven't come: which of them are of these ports, and what is missing of their packets."""
import collections

from nbt_pcap.reasons import FRAGMENTS_CUT, FRAGMENTS_MISSING, FRAGMENTS_UNKNOWN
from nbt_pcap.rows import is_joined, last

from .datagrams import runs_missing

# What a row has of a fragment.
FIELDS = ('ip.id', 'ip.proto', 'ip.frag_offset', 'ip.flags.mf', 'ipv6.fraghdr.ident', 'ipv6.fraghdr.nxt', 'ipv6.fraghdr.offset',
          'ipv6.fraghdr.more', 'data.data')
UDP, TCP = '17', '6'
# Of how many packets fragments wait.
MOST_WAITING = 4_096
# How many bytes the unit of an offset has: RFC 791 section 3.1.
UNIT = 8


class Waiting:
    """The fragments of a packet: of each its mark, whether it is cut, and from where to where its bytes go; whether they are of these ports,
    None where that isn't known, and how many bytes the packet has, if the last one is there."""

    __slots__ = ('marks', 'places', 'ours', 'end')

    def __init__(self):
        self.marks, self.places, self.ours, self.end = [], [], None, None


class Unfinished:
    """The fragments that wait for others, by packet."""

    def __init__(self, report, services, session_ports):
        self.report = report
        self.ports = {UDP: services, TCP: session_ports}
        self.waiting = collections.OrderedDict()

    def take(self, row, more, is_fragment):
        """Takes a frame: a fragment that waits, or the one with which a packet is whole."""
        number, protocol, place, goes_on, number6, protocol6, place6, goes_on6, data = more
        key = (row.source, row.target, number, protocol) if not number6 else (row.source6, row.target6, number6, protocol6)
        if is_joined(row) or not is_fragment:
            for mark, _ in self.waiting.pop(key, Waiting()).marks:
                self.report.completed(mark)
            return
        ports = self.ports.get(last(protocol6 if number6 else protocol))
        if ports is None:
            return
        waiting = self.waiting.pop(key, None) or Waiting()
        start = int(last(place6 if number6 else place) or 0) * UNIT
        self.keep(waiting, row, start, last(data))
        if not is_set(last(goes_on6 if number6 else goes_on)):
            waiting.end = waiting.places[-1][1]
        if start == 0:
            waiting.ours = len(data) >= 8 and (str(int(data[:4], 16)) in ports or str(int(data[4:8], 16)) in ports)
        if waiting.ours is False:
            waiting.marks.clear()
            waiting.places.clear()
        self.waiting[key] = waiting
        if len(self.waiting) > MOST_WAITING:
            self.tell(self.waiting.popitem(last=False)[1])

    def keep(self, waiting, row, start, data):
        """Takes a fragment: its place, which what the snap length cut belongs to, and its mark."""
        waiting.places.append((start, start + len(data) // 2 + int(row.size) - int(row.captured)))
        waiting.marks.append((self.report.mark, bool(row.short)))

    def tell(self, waiting):
        missing = runs_missing(sorted(waiting.places), waiting.end)
        for mark, is_cut in waiting.marks:
            reason = FRAGMENTS_CUT if is_cut else FRAGMENTS_MISSING if waiting.ours else FRAGMENTS_UNKNOWN
            self.report.count(mark, reason, () if is_cut else missing)

    def finish(self):
        for each in self.waiting.values():
            self.tell(each)


def is_set(flag):
    """A bit, as versions of tshark print it."""
    return flag in ('1', 'True')
