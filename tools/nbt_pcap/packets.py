"""Packets of IP, UDP and TCP that carry payloads, for a pcap file."""
import collections
import ipaddress
import struct

from . import session
from .lines import Ends

# From where to where packets go of which nothing is known (RFC 5737).
SOURCE, TARGET = ipaddress.ip_address('192.0.2.1'), ipaddress.ip_address('192.0.2.2')
UDP, TCP = 17, 6
# The length of IPv4 counts its header; that of IPv6 doesn't.
MOST_IN_UDP, MOST_IN_TCP = {4: 65_535 - 28, 6: 65_535 - 8}, 65_535 - 60
FIRST_PORT, LAST_PORT = 1_024, 65_535
SYN, SYN_ACK, PSH_ACK = 0x02, 0x12, 0x18
# How many streams are known by their ends, and how far apart sequence numbers of two with the same ends lie.
MOST_STREAMS, APART = 65_536, 2**24


def ends_of(frame, port):
    """From where to where a payload goes, by the comment on its frame; without one None for port 139, whose streams say it."""
    return (frame and frame.ends()) or (None if port == 139 else Ends(SOURCE, port, TARGET, port))


def checksum(data):
    """RFC 1071: the complement of the ones' complement sum of the 16-bit words."""
    total = sum(struct.unpack('>%dH' % (len(data) // 2), data[:len(data) // 2 * 2]))
    total += data[-1] << 8 if len(data) % 2 else 0
    while total >> 16:
        total = (total & 0xffff) + (total >> 16)
    return total ^ 0xffff


def ip_packet(ends, protocol, segment, at):
    """A packet of IP, and the checksum of the segment put in at this offset."""
    addresses = ends.source.packed + ends.target.packed
    summed = checksum(addresses + struct.pack('>LL', len(segment), protocol) + segment) or 0xffff
    segment = segment[:at] + struct.pack('>H', summed) + segment[at + 2:]
    if ends.source.version == 6:
        return struct.pack('>LHBB', 0x60000000, len(segment), protocol, 64) + addresses + segment
    header = struct.pack('>BBHHHBBH', 0x45, 0, 20 + len(segment), 0, 0, 64, protocol, 0) + addresses
    return header[:10] + struct.pack('>H', checksum(header)) + header[12:] + segment


def udp_packet(ends, payload):
    header = struct.pack('>HHHH', ends.source_port, ends.target_port, 8 + len(payload), 0)
    return ip_packet(ends, UDP, header + payload, 6)


def tcp_packet(ends, sequence, flags, payload):
    acknowledged = 0 if flags == SYN else 1
    header = struct.pack('>HHIIBBHHH', ends.source_port, ends.target_port, sequence % 2**32, acknowledged, 0x50, flags, 65_535, 0, 0)
    return ip_packet(ends, TCP, header + payload, 16)


class Streams:
    """The TCP streams that carry session packets, by their ends; where nothing is known of those, one after the other."""

    def __init__(self):
        self.port = FIRST_PORT - 1
        self.latest = None                       # the ends of the stream of which nothing is known
        self.due = collections.OrderedDict()     # the next sequence number of a stream, by ends
        self.open = set()                        # the ends of those that go on

    def packets(self, ends, payload):
        """The segments of a payload, after a SYN where its stream begins. A payload that isn't one whole packet ends it."""
        if payload:
            ends = ends or self.unknown()
            if ends not in self.open:
                yield self.begin(ends)
            for start in range(0, len(payload), MOST_IN_TCP):
                piece = payload[start:start + MOST_IN_TCP]
                yield tcp_packet(ends, self.due[ends], PSH_ACK, piece)
                self.due[ends] += len(piece)
        if not session.is_whole(payload):
            ends = ends or self.latest
            self.open.discard(ends)
            self.latest = None if ends == self.latest else self.latest

    def unknown(self):
        """The ends of the stream of which nothing is known: another port for each."""
        if self.latest is None:
            self.port = self.port + 1 if self.port < LAST_PORT else FIRST_PORT
            self.latest = Ends(SOURCE, self.port, TARGET, 139)
        return self.latest

    def begin(self, ends):
        """The SYN of a stream, after what one with the same ends had."""
        start = self.due.pop(ends, -APART) + APART
        self.due[ends] = start + 1
        self.open.add(ends)
        if len(self.due) > MOST_STREAMS:
            self.open.discard(self.due.popitem(last=False)[0])
        return tcp_packet(ends, start, SYN_ACK if Ends(*ends[2:], *ends[:2]) in self.open else SYN, b'')
