"""The packets of tshark's rows, and what is left out, each with its frame."""
from nbt_pcap.frames import Reader
from nbt_pcap.reasons import CUT
from nbt_pcap.report import Report
from nbt_pcap.rows import is_joined, last

from .fragments import FIELDS as FRAGMENT_FIELDS
from .fragments import Unfinished
from .items import Cut, Frame, LeftOut, Packet, Segment
from .screen import safe
from .tally import PACKET, STATISTIC, Others, Without

# What a row has besides the fields that packets are made of.
FIELDS = ('frame.interface_name', 'frame.interface_id', 'ieee8021ad.id', 'ieee8021ad.svid', 'ieee8021ad.cvid', 'vlan.id', 'eth.src', 'eth.dst',
          'sll.src.eth', *FRAGMENT_FIELDS)
TAGS = slice(2, 6)               # the fields with tags of VLANs, the outer ones first
# What tshark calls an interface without a name.
NO_NAME = 'unknown'
STATISTICS = (STATISTIC,)


class Noted(Report):
    """What is said of frames, as items: each frame that is left out is one, with its reason."""

    def __init__(self, items):
        super().__init__(lambda text: None)
        self.items = items
        self.without = Without()

    def count(self, mark, reason, missing=()):
        if not mark.counted:
            self.items.append(LeftOut(mark, reason, list(missing)))
            self.without.leave_out(mark)
        super().count(mark, reason)

    def completed(self, mark):
        if mark is not self.mark:
            mark.completed_by = self.mark.number

    def count_cut(self):
        """Counts the latest frame, of which the front is an item."""
        super().count(self.mark, CUT)


class Frames(Reader):
    """Makes items of the rows, in the order in which it is known what becomes of them."""

    def __init__(self, options, times):
        self.items = []
        self.needs_segments = options.summary or bool(options.names)
        super().__init__(options, Noted(self.items))
        self.times = times
        self.protocols = ''          # those of the first frame
        self.named = None, None      # the latest interface, and what is printed of it
        self.sought_number, self.sought = options.frame, None    # the frame that is asked for
        self.others = Others()
        self.unfinished = Unfinished(self.report, self.services, self.session_ports)

    def row(self, text):
        base, *self.more = text.rsplit('\t', len(FIELDS))
        if len(self.more) == len(FIELDS):
            super().row(base)
            if self.times.first is None:
                self.times.see(self.clock.first)
        elif not self.others.take(text):
            super().row(text)

    def begin(self, row):
        """Takes the first frame."""
        super().begin(row)
        self.protocols = row.protocols

    def frame(self, row, shape):
        self.report.mark = mark = self.mark(row, shape)
        if mark.number == self.sought_number:
            self.sought = mark
        if shape.is_fragment or is_joined(row):
            self.unfinished.take(row, self.more[-len(FRAGMENT_FIELDS):], shape.is_fragment)
        ours = self.report.ours
        super().frame(row, shape)
        self.report.without.take(self.report.mark, row, shape.is_fragment, self.report.ours > ours)

    def mark(self, row, shape):
        """The frame of a row."""
        (name, number), vlans, (source_mac, target_mac, cooked_mac) = self.more[:2], ','.join(filter(None, self.more[TAGS])), self.more[6:9]
        ends = (row.source or row.source6, row.tcp_source or row.udp_source, row.target or row.target6, row.tcp_target or row.udp_target)
        if not shape.single:
            ends, source_mac, target_mac = map(last, ends), last(source_mac), last(target_mac)
        label, known = self.interface(name, number)
        frame = Frame(int(row.number), self.clock.at if self.clock.first is not None else None, *ends, label, vlans, source_mac or cooked_mac, target_mac,
                      int(row.size), int(row.captured))
        frame.interface_name = known
        return frame

    def interface(self, name, number):
        """What the list has of an interface, its name or else its number, as it may be printed, and its name, if it has one."""
        if (name, number) != self.named[0]:
            known = safe(name) if name and name != NO_NAME else None
            self.named = (name, number), (known or number, known)
        return self.named[1]

    def segment(self, row, packet):
        """A segment is an item before the packets that it completes, where somebody looks at it."""
        if self.needs_segments and packet.flags and packet.target:
            host = packet.host
            self.items.append(Segment(self.report.mark, host.source.strip('[]'), packet.source, host.target.strip('[]'), packet.target, packet.stream,
                                      packet.sequence, int(packet.flags, 16)))
        super().segment(row, packet)

    def payload(self, row, service, digits, packet):
        self.items.append(self.packet_of(service, digits, packet))

    def cut_payload(self, row, service, digits, packet, size):
        self.report.count_cut()
        self.items.append(Cut(*self.packet_of(service, digits, packet), size))

    def packet_of(self, service, digits, packet):
        host = packet.host
        self.report.mark.holds = PACKET
        return Packet(self.report.mark, service, self.clock.moment, digits, host.source.strip('[]'), packet.source,
                      host.target.strip('[]'), packet.target, getattr(packet, 'stream', None))

    def taken(self):
        """The items since the last call."""
        items = self.items[:]
        self.items.clear()
        return items

    def notes(self):
        """What the last lines say besides the counts."""
        report = self.report
        none = [] if report.ours else ['no frame has UDP of port 137 or 138, or TCP of port 139; --port takes others for them']
        return none + self.others.lines(report.frames, report.ours, self.protocols)

    def without(self):
        """The frames that have no packet, by what they hold."""
        return self.report.without.of(self.report.frames)

    def finish(self):
        """What is known at the end alone."""
        self.streams.finish()
        self.unfinished.finish()
