"""Payloads of ports 137, 138 and 139, read field by field (RFC 1002 sections 4.2 to 4.4). The first fault on the way is answered;
docs/DECISIONS.md has which one that is. What was read before it still stands."""
import collections

from .limits import MOST_BODY
from .names import Refused, read_labels, read_name
from .rdata import NS

KINDS = {0x10: 'unique', 0x11: 'group', 0x12: 'broadcast'}
ERROR = 0x13
# Flags of a fragment: more of the datagram follows, and it is the first one.
MORE, FIRST = 0x01, 0x02
QUERIES = {0x14: 'find', 0x15: 'found', 0x16: 'missing'}
MESSAGE, REQUEST, POSITIVE, NEGATIVE, RETARGET, KEEPALIVE = 0x00, 0x81, 0x82, 0x83, 0x84, 0x85
# How many bytes may follow the header of a session packet, at least and at most.
SESSION_LENGTHS = {MESSAGE: (0, MOST_BODY), REQUEST: (68, 510), POSITIVE: (0, 0), NEGATIVE: (1, 1), RETARGET: (6, 6), KEEPALIVE: (0, 0)}
SERVICE_HEADER, DATAGRAM_HEADER, FRAGMENT_HEADER, SESSION_HEADER = 12, 10, 14, 4

Question = collections.namedtuple('Question', 'labels type group')
Fragment = collections.namedtuple('Fragment', 'kind flags key offset source destination data')
Record = collections.namedtuple('Record', 'labels type group ttl data domain')


class Reader:
    """Reads the fields of some bytes one after the other."""

    def __init__(self, data, at=0):
        self.data = data
        self.at = at

    def truncated(self):
        """The fault where a field isn't all there."""
        return f'truncated {len(self.data)}'

    def bytes(self, count):
        """The next bytes."""
        if self.at + count > len(self.data):
            raise Refused(self.truncated())
        self.at += count
        return self.data[self.at - count:self.at]

    def number(self, count=2):
        """The next bytes as a number."""
        return int.from_bytes(self.bytes(count), 'big')


class Packet:
    """What of a payload stands: nothing where its header doesn't. It is a packet, of `used` bytes, or has a fault, or lacks bytes."""

    def __init__(self, payload):
        self.stands = False
        self.fault = None
        self.missing = 0
        self.used = None
        try:
            self.read(Reader(payload))
        except Refused as refused:
            self.fault = str(refused)

    def is_whole(self):
        """Whether the payload begins with a packet."""
        return self.fault is None and not self.missing


class Service(Packet):
    """A packet of port 137, whose items are in four sections. `used` is where the last one ends that stands."""

    def read(self, reader):
        """Reads the header, and as many items as it says."""
        self.sections = [], [], [], []
        self.identifier, self.word, *self.counts = [reader.number() for _ in range(SERVICE_HEADER // 2)]
        self.stands, self.used = True, reader.at
        for section, count in zip(self.sections, self.counts):
            for _ in range(count):
                section.append(record(reader) if section is not self.sections[0] else question(reader))
                self.used = reader.at


def domain(reader):
    """The labels of the next name, whose pointers lead anywhere in the packet."""
    try:
        labels, reader.at = read_labels(reader.data, reader.at, pointers=True)
    except Refused as refused:
        raise Refused(f'name: {refused}') from None
    return labels


def question(reader):
    """The next question."""
    return Question(domain(reader), reader.number(), reader.number())


def record(reader):
    """The next record, with the domain name that is its RDATA, where its type has one."""
    labels, kind, group, ttl, length = domain(reader), reader.number(), reader.number(), reader.number(4), reader.number()
    start, data, server = reader.at, reader.bytes(length), None
    if kind == NS:
        reader.at = start
        server = domain(reader)
        if reader.at != start + length:
            raise Refused(f'name rdata {start}')
    return Record(labels, kind, group, ttl, data, server)


class Datagram(Packet):
    """A packet of port 138: a part of a datagram, or one that tells of an error or a query."""
    offset = source = destination = data = code = None

    def read(self, reader):
        """Reads the header, which is longer for a part of a datagram, and what comes after it."""
        self.kind = reader.number(1)
        if len(reader.data) < (FRAGMENT_HEADER if self.kind in KINDS else DATAGRAM_HEADER):
            raise Refused(reader.truncated())
        self.flags, identifier, address, port = reader.number(1), reader.number(), reader.bytes(4), reader.number()
        self.key, self.stands = (address, port, identifier), True
        if self.kind in KINDS:
            self.read_part(reader.data, FRAGMENT_HEADER + reader.number(), reader.number())
        elif self.kind == ERROR:
            self.code, self.used = reader.number(1), reader.at
        elif self.kind in QUERIES:
            self.destination, self.used = read_name(reader.data, reader.at, 'destination name')
        else:
            raise Refused('unknown type')

    def read_part(self, payload, end, offset):
        """Reads the names and the data; bytes that are missing at the end are the first fault, whatever the names are."""
        self.offset = offset
        try:
            self.source, at = read_name(payload[:end], FRAGMENT_HEADER, 'source name')
            self.destination, at = read_name(payload[:end], at, 'destination name')
        except Refused:
            if len(payload) >= end:
                raise
        if len(payload) < end:
            raise Refused(f'truncated {len(payload)}')
        self.data, self.used = payload[at:end], end

    def fragment(self):
        """The part of a datagram that it is, or None."""
        if self.kind not in KINDS:
            return None
        return Fragment(self.kind, self.flags, self.key, self.offset, self.source, self.destination, self.data)


class Session(Packet):
    """A packet of port 139, or the front of one, which lacks bytes."""
    called = calling = address = port = None

    def read(self, reader):
        """Reads the header, and what follows it as its type says."""
        size = len(reader.data)
        if size < SESSION_HEADER:
            self.missing = SESSION_HEADER - size
            return
        self.kind, self.flags, low = reader.number(1), reader.number(1), reader.number()
        self.length, self.stands = (self.flags & 1) << 16 | low, True
        if self.kind not in SESSION_LENGTHS:
            raise Refused('unknown type')
        if self.flags & 0xfe:
            raise Refused('reserved flags')
        least, most = SESSION_LENGTHS[self.kind]
        if not least <= self.length <= most:
            raise Refused('bad length')
        self.missing = max(0, SESSION_HEADER + self.length - size)
        if not self.missing:
            self.body, self.used = reader.bytes(self.length), reader.at
            self.read_body(Reader(reader.data[:reader.at], SESSION_HEADER))

    def read_body(self, reader):
        """Reads the names of a request, or where a caller is sent to."""
        if self.kind == REQUEST:
            self.called, reader.at = read_name(reader.data, reader.at, 'name')
            self.calling, reader.at = read_name(reader.data, reader.at, 'name')
            if reader.at < len(reader.data):
                raise Refused(f'trailing bytes {reader.at}')
        if self.kind == RETARGET:
            self.address, self.port = reader.bytes(4), reader.number()


PORTS = {137: Service, 138: Datagram, 139: Session}


def read(port, payload):
    """What stands of a payload that came to a port."""
    return PORTS[port](payload)


def read_fragment(payload):
    """The part of a datagram with which a payload of port 138 begins; None of an error or query packet."""
    packet = Datagram(payload)
    if packet.fault:
        raise Refused(packet.fault)
    return packet.fragment()
