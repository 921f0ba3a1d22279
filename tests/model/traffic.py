"""What the frames of a capture bring of the three services, one after another: packets, and what is in none."""
import collections

from .connections import Connections, Segment
from .fragments import Fragments
from .frames import Fragment, Payload, Udp, contents_of, joined, reason_of, service_of

# From where to where something goes, with the ports where they are known; of which service; the bytes that are captured, and how many there were.
Packet = collections.namedtuple('Packet', 'ends port payload wire')
# Why something is left out, and how many bytes that are, where they are counted.
LeftOut = collections.namedtuple('LeftOut', 'ends port reason count')

DIFFERS = 'sent again with other bytes'
FAULTS = {'disagrees': 'fragments of IP that disagree', 'cut': 'fragments of IP that are cut themselves', 'too long': 'fragments of IP too long',
          'too many': 'fragments of IP: too many'}
# What a frame has that has neither; and why nothing of it is read, where that isn't another protocol.
FRAGMENT, EMPTY, PART, OTHER = LACKS = 'fragments', 'empty_segments', 'partial_segments', 'others'
UNREAD = {'Cut': 'with a header that is cut', 'Bad': 'with a bad header', 'PppOverEthernet': 'in PPP over Ethernet', 'Mpls': 'in MPLS', 'Llc': 'in LLC',
          'TooManyTags': 'with more than four VLAN tags', 'UnknownLink': 'of an unknown link type'}


class Traffic:
    """The state between frames."""

    def __init__(self):
        self.connections, self.fragments = Connections(), Fragments()

    def take(self, link, data, time):
        """What the next frame brings, in order; or else what it is."""
        carried = contents_of(link, data).carried
        if isinstance(carried, Fragment):
            key = carried.source, carried.destination, carried.protocol, carried.identification
            captured = carried.payload.captured if len(carried.payload.captured) == carried.payload.wire else None
            what, body = self.fragments.take((key, carried.offset, carried.more, captured), time)
            if what in FAULTS:
                return [LeftOut((*key[:2], None, None), None, FAULTS[what], None)]
            if what != 'whole':
                return FRAGMENT
            carried = joined(*key[:3], Payload(body, len(body)))
        port = service_of(carried)
        if port is None:
            # A fragment in what fragments make is bad.
            return UNREAD.get('Bad' if isinstance(carried, Fragment) else reason_of(carried), OTHER)
        ends = carried.source, carried.destination, *carried.ports
        if isinstance(carried, Udp):
            return [Packet(ends, port, *carried.payload)]
        return list(self.of_segment(ends, port, carried)) or (PART if carried.payload.wire else EMPTY)

    def of_segment(self, ends, port, carried):
        """What a segment brings: the packets that it completes, bytes that are in none, and that bytes came again."""
        made = self.connections.take(Segment(ends, carried.sequence, carried.flags, *carried.payload))
        for each in made.packets:
            yield Packet(ends, port, each, len(each))
        if made.count or made.reason and carried.payload.wire:
            yield LeftOut(ends, port, made.reason, made.count or None)
        if made.differs:
            yield LeftOut(ends, port, DIFFERS, None)
