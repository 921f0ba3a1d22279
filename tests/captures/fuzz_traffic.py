"""Packets made by chance, mostly good ones: of port 137 with names that lead into each other, of port 138 parts of a few datagrams, and of
port 139."""
from model.names import Name, labels_of, spelling_of
from model.objects import OPERATIONS
from model.packets import ERROR, FIRST, KINDS, MORE, NEGATIVE, QUERIES, REQUEST, SESSION_LENGTHS, Fragment
from model.phrases import REFUSALS
from model.rdata import NB, NBSTAT, NS
from model.tables import LONGEST
from wire import datagram, session

LONGEST_PIECE = 65_000
FRONTS = [b'JOE', b'FRED', b'ANN', b'*' + bytes(14), b'', b'-', b'fred', b'A B', b'FIFTEEN LETTERS', b'\xff\\<.']
# Scopes, the longest one that there is, and one that is too long.
FULL = (b'x' * 63,) * 3
SCOPES = [(), (), (), (b'NETBIOS', b'COM'), (b'A',), (b'a',), (b'\x00.<', b'x' * 63), FULL + (b'y' * 28,)]
TOO_LONG = FULL + (b'y' * 29,)
# Places in a fragment, how many bytes a field has there, and what it rarely has: its kind, length and offset, and of its names some bytes.
FIELDS = (((0,), 1, (0x0f, *range(0x13, 0x18), 0xff)), ((10,), 2, (0, 1, 34, 67, 68, 255, 65_535)),
          ((12,), 2, (65_535, 65_534, 65_500, 32_768)),
          ((14, 15, 46, 47, 48, 49, 80, 81), 1, (0, 1, 0x1f, 0x21, 0x3f, 0x40, 0x80, 0xc0, 0x51, 0x61)))
TAILS = (b'', b'', b'\0', bytes(5), b'\x02\0\0\0\0\1', bytes(46))


def any_name(rng):
    return Name(rng.choice(FRONTS).ljust(15) + bytes([rng.choice((0x20, 0x00, 0x1b, 0xff))]), rng.choice(SCOPES))


def codes(rng):
    """A code of an error or a refusal, mostly one that the standard has."""
    return bytes.fromhex(rng.choice((*REFUSALS, '84', '05')))


def packet_of(fragment):
    """The payload of a fragment."""
    kind, flags, (address, port, identifier), offset, source, destination, data = fragment
    return datagram(identifier, data, address, kind, flags, offset, spelling_of(source) + spelling_of(destination), port)


def part(whole, start, end):
    """The fragment of a datagram from one place to another, with the flags that it has."""
    size = len(whole.data)
    flags = (0 if start else FIRST) | (MORE if end < size else 0)
    return whole._replace(flags=flags, offset=start, data=whole.data[start:min(end, size)])


class Traffic:
    """Datagrams of some senders, cut in many ways, with faults."""

    def __init__(self, rng):
        self.rng = rng
        self.names = [any_name(rng) for _ in range(4)]
        addresses = [bytes([10, 0, 0, rng.randrange(256)]) for _ in range(rng.choice((1, 2, 4)))]
        keys = [(rng.choice(addresses), rng.choice((138, 138, 0, 65_535)), rng.choice((0, 1, 2, 255, 256, 65_535)))
                for _ in range(rng.choice((1, 2, 3, 6)))]
        self.datagrams = [Fragment(rng.choice((*KINDS, 0x11)), FIRST, key, 0, *rng.sample(self.names, 2), self.data())
                          for key in dict.fromkeys(keys)]

    def data(self):
        """The bytes of a datagram, rarely as many as there may be."""
        rng = self.rng
        return rng.randbytes(LONGEST if rng.random() < 0.002 else rng.choice((0, 1, 2, 9, 40, rng.randrange(300))))

    def parts(self, whole):
        """Fragments of a datagram that have each of its bytes, in order."""
        rng, length = self.rng, len(whole.data)
        most = min(LONGEST_PIECE, max(1, length // rng.choice((1, 2, 3, 7))))
        return [part(whole, it, it + most + rng.choice((0, 0, 1, 5))) for it in range(0, max(1, length), most)]

    def loose_part(self, whole):
        """Any part of a datagram, perhaps none of its bytes."""
        start = self.rng.randrange(len(whole.data) + 1)
        return part(whole, start, start + self.rng.choice((0, 1, 3, 20, 200)))

    def contradiction(self, whole):
        """A fragment that another sender with the same key might send."""
        rng, data, at = self.rng, whole.data, self.rng.randrange(len(whole.data) + 1)
        other = whole._replace(**rng.choice((
            {'kind': rng.choice(list(KINDS))}, {'source': whole.destination, 'destination': whole.source}, {'destination': any_name(rng)},
            {'data': (data + rng.randbytes(rng.choice((1, 2, 50))))[:LONGEST]}, {'data': data[:at]},
            {'data': data[:at] + rng.randbytes(1) + data[at + 1:LONGEST]}, {})))
        found = self.loose_part(other) if rng.random() < 0.5 else rng.choice(self.parts(other))
        return found if other != whole else found._replace(flags=found.flags ^ MORE)

    def fault(self, whole):
        """A payload that says nothing of a datagram, or is refused."""
        rng, fragment = self.rng, self.rng.choice(self.parts(whole))
        packet, how = bytearray(packet_of(fragment)), rng.randrange(8)
        if how < len(FIELDS):
            places, size, values = FIELDS[how]
            at = rng.choice(places)
            packet[at:at + size] = rng.choice(values).to_bytes(size, 'big')
            packet[1] &= ~FIRST if at == 12 else 0xff
            return bytes(packet)
        said = rng.choice((b'', codes(rng), codes(rng) + b'rest', *[spelling_of(any_name(rng))] * 4))
        return rng.choice((
            packet_of(fragment._replace(flags=fragment.flags ^ FIRST)), bytes(packet[:rng.randrange(len(packet) + 1)]),
            packet_of(fragment._replace(**{rng.choice(('source', 'destination')): Name(bytes(16), TOO_LONG)})),
            bytes([rng.choice((ERROR, *QUERIES))]) + packet[1:10] + said))

    def fragments(self, contradicted=0.05):
        """Fragments of all datagrams, in any order: most datagrams are whole, and some are contradicted."""
        rng, found = self.rng, []
        for each in self.datagrams:
            parts = self.parts(each)
            found += parts if rng.random() < 0.7 else rng.sample(parts, rng.randrange(len(parts) + 1))
            found += [self.loose_part(each) for _ in range(rng.choice((0, 0, 1, 4)))]
            if rng.random() < 6 * contradicted:
                found += [self.contradiction(each) for _ in range(rng.choice((1, 1, 3)))]
        return rng.sample(found, len(found))

    def payloads(self):
        """Fragments and faults, in any order; some have other bits of FLAGS, which mean nothing, and bytes after the packet."""
        rng = self.rng
        found = [packet_of(it) for it in self.fragments()] + [self.fault(rng.choice(self.datagrams)) for _ in range(rng.choice((0, 1, 4)))]
        bits, rest = (0, 0, 0x0c, 0xf0, 0x80), (b'', b'', b'\0', b'rest')
        dressed = lambda it: it[:1] + bytes([it[1] | rng.choice(bits)]) + it[2:] + rng.choice(rest)
        return [dressed(it) if len(it) > 13 and rng.random() < 0.2 else it for it in rng.sample(found, len(found))]


def session_packet(rng):
    """A session packet, mostly a good one: of a length that its type just may have, or may not, with a flag, or names that are too long."""
    kind = rng.choice((*SESSION_LENGTHS, 0, 0, 0, REQUEST, REQUEST))
    least, most = SESSION_LENGTHS[kind]
    body = rng.randbytes(least + min(rng.choice((0, 1, 3, 5, 40)), most - least))
    if kind == NEGATIVE:
        body = codes(rng)
    elif kind == REQUEST:
        names = [any_name(rng) if rng.random() < 0.95 else Name(bytes(16), TOO_LONG) for _ in range(2)]
        body = b''.join(map(spelling_of, names)) + rng.choice((b'',) * 6 + (b'\0', b'rest'))
    if rng.random() < 0.1:
        body = bytes(max(0, rng.choice((least, most)) + rng.choice((-1, 0, 1))))
    packet = bytearray(session(kind, body))
    packet[1] |= 1 << rng.randrange(8) if rng.random() < 0.05 else 0
    return bytes(packet[:None if rng.random() < 0.1 or len(body) < 1_000 else 4])


class ServicePacket:
    """A packet of port 137 that grows by names, questions and records; it remembers at which offsets labels stand."""

    def __init__(self, rng):
        self.rng, self.places, self.data = rng, [], bytearray()

    def made(self):
        """The packet, mostly a good one."""
        rng = self.rng
        counts = [rng.choice((0, 0, 1, 1, 2, 5)) for _ in range(4)]
        stated = [it if rng.random() < 0.97 else rng.choice((it + 1, 256, 65_535)) for it in counts]
        asked, outcome = rng.choice((*OPERATIONS, 0, 5, 15)), rng.choice((0, 0, 0, *range(9)))
        word = rng.randrange(32) << 11 if rng.random() < 0.2 else rng.choice((0, 0x8000)) | asked << 11
        self.add(rng.randrange(65_536), word | rng.randrange(128) << 4 | outcome, *stated)
        for section, count in enumerate(counts):
            for _ in range(count):
                self.name()
                kind = rng.choice((NB, NB, NBSTAT, NBSTAT, NS, NS, 1, 10, rng.randrange(65_536)))
                self.add(kind, 1 if rng.random() < 0.9 else rng.randrange(65_536))
                if section:
                    self.told(kind)
        return bytes(self.data) + rng.choice((b'', b'', b'', b'rest'))

    def add(self, *numbers):
        for each in numbers:
            self.data += each.to_bytes(2, 'big')

    def labels(self):
        """Some labels, spelled out."""
        rng = self.rng
        return rng.choice((labels_of(any_name(rng)),) * 6 + (
            [rng.randbytes(rng.choice((1, 2, 31, 32, 33, 63))) for _ in range(rng.choice((0, 1, 2, 4)))],
            [b'x' * 63] * rng.choice((1, 3, 4)), [],
            [b'CK' * 15 + rng.choice((b'AA', b'AQ', b'a1')), b'y' * rng.choice((1, 62, 63))]))

    def name(self):
        """A name: spelled out, or its labels and a pointer, mostly to labels before it."""
        rng, begin, known = self.rng, len(self.data), list(self.places)
        ends = rng.random() < 0.5 or not known
        for label in self.labels() if ends or rng.random() < 0.3 else []:
            self.places.append(len(self.data))
            self.data += bytes([len(label)]) + label
        if ends:
            self.data.append(0 if rng.random() < 0.99 else rng.choice((0x40, 0x80, 0xbf)))
        else:
            self.point(rng.choice(known) if rng.random() < 0.95 else rng.choice((0, 2, 12, begin, len(self.data), rng.randrange(16_384))))

    def point(self, target):
        """A pointer, to which later names may lead."""
        self.places.append(len(self.data))
        self.add(0xc000 | target & 0x3fff)

    def told(self, kind):
        """What a record has after its class; its length is rarely wrong."""
        rng = self.rng
        self.data += rng.choice((0, 300_000, 0xffffffff, rng.randrange(1 << 32))).to_bytes(4, 'big')
        at = len(self.data)
        self.add(0)
        if kind == NS:
            self.name()
        elif kind == NB:
            self.data += rng.randbytes(6 * rng.choice((0, 1, 1, 2, 9)) + rng.choice((0, 0, 0, 0, 1, 5)))
        elif kind == NBSTAT:
            self.data += self.node_status()
        elif rng.random() < 0.3:
            self.point(len(self.data) + rng.choice((-2, 0, 2, 14, 40)))
        else:
            self.data += rng.randbytes(rng.choice((0, 1, 4, 6, 20)))
        length = len(self.data) - at - 2 + (rng.choice((-1, 1, -2, 2, 40)) if rng.random() < 0.03 else 0)
        self.data[at:at + 2] = max(0, length).to_bytes(2, 'big')

    def node_status(self):
        """A node status, mostly with as many names as it says."""
        rng = self.rng
        number = rng.choice((0, 1, 2, 6)) if rng.random() < 0.97 else rng.randrange(256)
        names = [any_name(rng).bytes + rng.randbytes(2) for _ in range(number)]
        count = len(names) if rng.random() < 0.9 else rng.choice((0, 1, 255))
        return (bytes([count]) + b''.join(names) + rng.choice(TAILS))[:None if rng.random() < 0.95 else rng.randrange(2)]
