"""Random networks of sessions and of packets in fragments of IP, of which is known what was sent: pieces come late, again, otherwise or not at all,
as a network or an attacker delivers them. Frames are Ethernet; each conversation has hosts of its own."""
import collections
import functools
import ipaddress
import struct

from random_pcap import Ends, Side, datagrams, disordered, mixed, session_bytes, stream
from wire import ACK, DATAGRAM, FRED, ICMP, JOE, QUERY, RESPONSE, RST, SYN, TCP, UDP, datagram, ethernet, ip, session, tcp, udp

SPACE, ETHERNET = 2**32, 14
# Beside the control bits of a segment: its byte has no meaning.
NO_DATA = 0x100
# How many bytes a segment has at most, and messages, of which 131,071 is the most.
SEGMENTS = 1, 9, 60, 100, 536, 536, 1_460, 1_460
LENGTHS = 0, 0, 1, 5, 40, 150, 150, 1_456, 3_000, 20_000, 65_535, 65_536, 131_071
SMALL = 7
# The first byte of a packet of each kind.
HEADERS = {'message': b'\x00', 'request': b'\x81', 'positive': b'\x82', 'negative': b'\x83', 'retarget': b'\x84', 'keepalive': b'\x85'}
# Of a direction so many segments at most, and so many packets of IP with one number; how many bytes of a frame are captured at least.
MOST, SNAPS, LEAST = 120, (None,) * 5 + (200, 96, 80, 60, 54, 40), 34


class Network:
    """The frames of a network, each with its time in microseconds, its bytes and how many of these are captured; and what was sent."""

    def __init__(self, rng, count, snaps=SNAPS):
        self.frames = []
        # Of each direction of TCP its lives, each the number of its first byte with the byte of each number that was captured, the first one; how
        # many bytes were captured in all, and in which segments; those of which a byte came again with another value, that kept alive where no byte was yet,
        # and of connections that were reset.
        self.lives, self.captured, self.segments = {}, collections.Counter(), collections.defaultdict(list)
        self.forged, self.doubtful, self.reset = set(), set(), set()
        # Of each packet of IP in fragments, or several that have one number, port and payload; and of each fragment its frame, when that came, whether
        # all of it is captured, and whether it says what its packet has.
        self.wholes, self.pieces = collections.defaultdict(set), collections.defaultdict(list)
        kinds = [functools.partial(stream, data_of=session_data, side_of=self.side)] * 3 + [self.fragments, self.fragments, self.others]
        conversations = [list(self.tagged(rng, rng.choice(kinds)(rng, Ends(rng, number)))) for number in range(count)]
        now, snap = 0, rng.choice(snaps)
        for tags, pause, sent in mixed(rng, conversations):
            now += int(pause * rng.random() * 2 * 10**6)
            packet, hears = sent if isinstance(sent, tuple) else (sent, None)
            frame = bytes(12) + tags + ethernet(packet)[12:]
            captured = rng.choice((snap,) * 30 + (rng.randrange(LEAST, 100),))
            self.frames.append((now, frame, captured))
            if hears:
                hears(len(frame[:captured]) - ETHERNET - len(tags))

    @staticmethod
    def tagged(rng, conversation):
        """The packets of a conversation, in one VLAN or in none."""
        tags = rng.choice((b'', b'', b'', b'\x81\0\0\x05'))
        return ((tags, *each) for each in conversation)

    def side(self, *words):
        return KnownSide(self, *words)

    def hears(self, ends, number, data, flags):
        """A segment came, of which these bytes are captured: a SYN with another number begins a life, and so do four bytes where none is."""
        opens, lives = flags & SYN, self.lives.setdefault(ends, [])
        first = (number + bool(opens)) % SPACE
        self.captured[ends] += len(data)
        self.segments[ends].append((first, len(data)))
        if flags & RST:
            self.reset |= {ends, (*ends[1::-1], *ends[:1:-1])}
            return
        if opens and (not lives or lives[-1][0] != first) or not lives and len(data) >= 4:
            lives.append((first, {}))
        if flags & NO_DATA:
            is_new = lives and data and first not in lives[-1][1]
            self.doubtful |= {ends} if is_new else set()
        elif lives:
            for each, byte in enumerate(data, first):
                if lives[-1][1].setdefault(each % SPACE, byte) != byte:
                    self.forged.add(ends)

    def fragments(self, rng, ends):
        """Packets of IP in fragments, some with one number."""
        for identifier in sorted(rng.choices(range(1, 65_536), k=3) * 2)[:rng.randrange(1, 6)]:
            whole, heard = self.whole(rng, ends, identifier)
            cuts = sorted({8 * rng.randrange(1, (len(whole) + 7) // 8) for _ in range(rng.choice((1, 2, 3, 7)))})
            pieces = [(start, whole[start:end], end < len(whole)) for start, end in zip([0] + cuts, cuts + [len(whole)])]
            pause = rng.choice((0.01,) * 30 + (25.0, 70.0))
            for start, data, more in disordered(rng, pieces, *(functools.partial(each, rng, whole) for each in ATTACKS)):
                packet = ends.packet(heard.protocol, data, more=more, offset=start, identifier=identifier, fragment=True)
                yield pause, (packet, functools.partial(heard.piece, len(packet), start, data, more))

    def whole(self, rng, ends, identifier):
        """The payload of a packet of IP, of UDP or TCP, and what hears its fragments."""
        payload = rng.choice((DATAGRAM, RESPONSE, QUERY, datagram(9, rng.randbytes(rng.choice((1, 300, 9_000))))))
        port, protocol = 138 if payload[0] == 0x11 else 137, UDP
        if rng.random() < 0.2:
            port, protocol, payload = 139, TCP, session(0, rng.randbytes(rng.randrange(40, 300)))
        whole = udp(port, port, payload) if protocol == UDP else tcp(identifier, port, 7, payload)
        key = str(ipaddress.ip_address(ends.source)), str(ipaddress.ip_address(ends.target)), identifier
        self.wholes[key].add((port, payload))
        return whole, Whole(self, key, protocol, whole)

    def others(self, rng, ends):
        """Datagrams, and errors of ICMP that quote them."""
        for pause, packet in datagrams(rng, ends):
            yield pause, packet
            yield pause, ip(ICMP, struct.pack('>BBHL', 3, 3, 0, 0) + packet, *(each[-4:] for each in (ends.target, ends.source)))


class Whole:
    """A packet of IP, whose fragments are heard."""

    def __init__(self, network, key, protocol, whole):
        self.network, self.key, self.protocol, self.whole = network, key, protocol, whole

    def piece(self, size, start, data, more, captured):
        """A fragment came, of which so many bytes are captured; whether it says what its packet has."""
        if captured >= size - len(data):
            is_true = self.whole[start:start + len(data)] == data and more == (start + len(data) < len(self.whole))
            self.network.pieces[self.key].append((len(self.network.frames), self.network.frames[-1][0], captured == size, is_true))


# Fragments that an attacker adds: other bytes over the edge of others, an end before the end, one after it, more than a packet may have, none.
ATTACKS = (lambda rng, whole, place, data: (place, data[:8] + rng.randbytes(16), True),
           lambda rng, whole, place, data: (place, data, False),
           lambda rng, whole, place, data: (len(whole) + 7 & ~7, b'behind', False),
           lambda rng, whole, place, data: (65_528, rng.randbytes(8), True),
           lambda rng, whole, place, data: (place, whole[place:place + 8 * rng.randrange(1, 9)], place + 64 < len(whole)))


def session_data(rng):
    """Session packets, of which seldom one is long; at times with a header that none has among them, or with a part of the last."""
    if rng.random() < 0.1:
        return session_bytes(rng)
    data = b''
    for _ in range(rng.randrange(1, 8)):
        length = rng.choice(LENGTHS if rng.random() < 0.1 else LENGTHS[:SMALL])
        data += rng.choice((session(0, rng.randbytes(length)), session(0, rng.randbytes(length)), session(0x81, FRED + JOE), session(0x82),
                            session(0x83, b'\x80'), session(0x84, bytes(6)), session(0x85)))
    return data[:-1] if rng.random() < 0.1 else data


class KnownSide(Side):
    """One end of a stream, of which is known what it sends."""

    def __init__(self, network, rng, ends, ports, back):
        super().__init__(rng, ends, ports, back)
        self.network = network
        hosts = [str(ipaddress.ip_address(each)) for each in (ends.source, ends.target)]
        self.key = (*hosts[::-1], *ports[::-1]) if back else (*hosts, *ports)

    def segments(self, data, ending):
        """Segments of some bytes; then perhaps others, after a SYN with another number."""
        yield from self.life(data, ending)
        if self.rng.random() < 0.15:
            late = self.life(data, 0)[-1:]
            self.first = (self.first + self.rng.choice((1, 4, len(data), 2**31, self.rng.randrange(SPACE)))) % SPACE
            yield from [(-1, b'', SYN), *late, *self.life(session_data(self.rng), 0)]

    def life(self, data, ending):
        """Segments of some bytes as they are delivered."""
        rng, segments, at = self.rng, [], 0
        most = max(rng.choice(SEGMENTS), len(data) // MOST)
        while at < len(data):
            size = rng.randint(1, most)
            segments.append((at, data[at:at + size], ACK))
            at += size
        width = rng.choice((1, 1, 1, 1, 2, 5, 50))
        segments = [each for at in range(0, len(segments), width) for each in rng.sample(segments[at:at + width], len(segments[at:at + width]))]
        for _ in range(rng.choice((0, 1, 1, 3)) if segments else 0):
            disordered(rng, segments, *(functools.partial(each, rng, data) for each in KINDS))
        if ending:
            segments.append((len(data), rng.choice((b'', b'', b'reset')) if ending == RST else b'', ending | ACK))
        return segments

    def packet(self, place, data, flags, options=b''):
        """A packet, and what is called with how many of its bytes are captured."""
        source, target = self.ports[::-1] if self.back else self.ports
        number = (self.first + place) % SPACE
        packet = self.ends.packet(TCP, tcp(source, target, number, data, flags % NO_DATA, 0, options, self.rng.choice((65_535, 65_535, 0))), self.back)
        begin = len(packet) - len(data)
        # Of a header that ends before its control bits nobody hears.
        is_read = lambda captured: captured >= begin - len(options) - 4
        return packet, lambda captured: is_read(captured) and self.network.hears(self.key, number, data[:max(captured - begin, 0)], flags)


# Segments that come beside others: a byte that keeps the connection alive; part of one, from its middle on, with other bytes behind it, or from
# before it on; the SYN again.
KINDS = (lambda rng, data, place, part: (place + len(part) - 1, rng.choice((b'\0', b'')), ACK | NO_DATA),
         lambda rng, data, place, part: (place + len(part) // 2, data[place + len(part) // 2:][:rng.randrange(1, 90)], ACK),
         lambda rng, data, place, part: (place + len(part) // 2, part[len(part) // 2:] + rng.randbytes(9), ACK),
         lambda rng, data, place, part: (max(place - 5, 0), data[max(place - 5, 0):place + 5], ACK),
         lambda rng, data, place, part: (-1, b'', SYN))


def is_honest(network, key):
    """Whether the fragments of a key are of one packet, and say what it has."""
    return len(network.wholes[key]) == 1 and all(is_true for *_, is_true in network.pieces[key])
