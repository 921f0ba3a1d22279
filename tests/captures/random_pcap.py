"""A random pcap or pcapng file of datagrams, fragments and TCP streams, below VLAN tags and tunnels, with a snap length at times."""
import struct

from wire import ACK, FIN, RST, SYN, TCP, UDP, ethernet, interface, ip, ip6, section, session, tcp, timed, udp

IPV4 = b'\x08\0'
TYPES = (0x00, 0x00, 0x00, 0x00, 0x81, 0x82, 0x83, 0x84, 0x85)
FRAGMENT_HEADER = 44
ETHERNET, RAW, COOKED, COOKED_2, NULL, LOOPBACK = LINKS = 1, 101, 113, 276, 0, 108
SNAPS = (None, None, None, 34, 36, 40, 47, 49, 54, 60, 64, 80, 96, 128, 200)
START = 1_700_000_000 * 10**9
OUTER = bytes([172, 16, 0, 1]), bytes([172, 16, 0, 2])


# The protocol of an outer packet around one, and what it carries: VXLAN, IP in IP, GRE.
TUNNELS = (lambda packet: (UDP, udp(55_555, 4_789, b'\x08' + bytes(7) + ethernet(packet, bytes(6), bytes(6)))),
           lambda packet: (4 if packet[0] >> 4 == 4 else 41, packet), lambda packet: (47, bytes(2) + ethernet(packet)[12:]))


def pcap_of(rng, tunnels=TUNNELS, links=(ETHERNET, RAW), sections=1):
    """The bytes of a file, in which some packets are below tunnels of these kinds. Snap lengths leave as much of a packet below one. Its first
    interface, or the only one, has the first of these link layers. Of several sections, of pcapng, each has hosts and interfaces of its own."""
    parts, now, hosts = [], START, 0
    for _ in range(sections):
        interfaces = [Interface(rng, number, links) for number in range(rng.choice((1, 1, 2, 3)))]
        conversations = [list(conversation(rng, number, tunnels)) for number in range(hosts, hosts + rng.randrange(2, 12))]
        hosts += len(conversations)
        records = list(mixed(rng, conversations))
        is_ng = len(interfaces) > 1 or rng.random() < 0.3 or sections > 1
        order = rng.choice('<>')
        parts.append(head(order, interfaces, is_ng))
        for pause, data, kind, above in records:
            now += int(pause * rng.random() * 2 * 10**9)
            if able := [each for each in interfaces if front_of(each.link, kind) is not None]:
                chosen = rng.choice(able)
                framed = front_of(chosen.link, kind) + data
                parts.append(chosen.record(order, is_ng, now, framed, framed if chosen.snap is None else framed[:chosen.snap + above]))
    return b''.join(parts)


def conversation(rng, number, tunnels):
    """Frames of one kind between two hosts: the pause before each, the packet, its tags and type on Ethernet, and how long its tunnel is."""
    ends = Ends(rng, number)
    kind = rng.choice((datagrams, fragments, stream, stream))
    tunnel = rng.choice((None, None, None, None, *TUNNELS))
    tags = rng.choice((b'', b'', b'', b'\x81\0\0\x05', b'\x88\xa8\0\x05\x81\0\0\x06'))
    for pause, packet in kind(rng, ends):
        data = ip(*tunnel(packet), *OUTER, fragment=0x4000) if tunnel in tunnels else packet
        padding = bytes(max(0, 46 - len(data))) if rng.random() < 0.5 and not tunnel else b''
        yield pause, data + padding, tags + ethernet(data)[12:14], len(data) - len(packet)


def front_of(link, kind):
    """What stands before a packet on a link layer; None where none with tags comes from it, as fragments have to."""
    if link == ETHERNET:
        return bytes(12) + kind
    if link == COOKED:
        return struct.pack('>HHH8s', 0, 1, 6, bytes(8)) + kind
    if link == COOKED_2:
        return kind[:2] + struct.pack('>HLHBB8s', 0, 1, 1, 0, 6, bytes(8)) + kind[2:]
    family = 2 if kind == IPV4 else 30
    return None if len(kind) > 2 else b'' if link == RAW else struct.pack('<L' if link == NULL else '>L', family)


class Interface:
    """Where frames come from: a link layer, how much of each is captured, and in how many digits of a second."""

    def __init__(self, rng, number, links):
        self.number = number
        self.link = links[0] if number == 0 else rng.choice(links)
        self.snap = rng.choice(SNAPS)
        self.digits = rng.choice((6, 9))

    def record(self, order, is_ng, now, data, captured):
        """A frame as the file has it."""
        time = now // 10**(9 - self.digits)
        if is_ng:
            return timed(self.number, time, captured, len(data), order)
        return struct.pack(order + 'LLLL', *divmod(time, 10**self.digits), len(captured), len(data)) + captured


def head(order, interfaces, is_ng):
    """What the file begins with."""
    if is_ng:
        options = (struct.pack(order + 'HHB3xHH', 9, 1, each.digits, 0, 0) for each in interfaces)
        return section(order) + b''.join(interface(each.link, given, order) for each, given in zip(interfaces, options))
    magic = 0xa1b2c3d4 if interfaces[0].digits == 6 else 0xa1b23c4d
    return struct.pack(order + 'LHHLLLL', magic, 2, 4, 0, 0, 262_144, interfaces[0].link)


# What a capture holds: lists of frames in the order of their times, each a pause and a packet.


class Ends:
    """Two hosts, of IPv4 or IPv6."""

    def __init__(self, rng, number):
        self.six = rng.random() < 0.3
        host = bytes([10, 0, number >> 8, number & 255])
        self.source = (bytes(12) + host) if self.six else host
        self.target = self.source[:-3] + bytes([1]) + self.source[-2:]

    def packet(self, protocol, data, back=False, more=0, offset=0, identifier=0, fragment=False):
        source, target = (self.target, self.source) if back else (self.source, self.target)
        if not self.six:
            return ip(protocol, data, source, target, (0x2000 if more else 0) | offset // 8, identifier)
        if fragment:
            return ip6(FRAGMENT_HEADER, struct.pack('>BBHL', protocol, 0, offset | bool(more), identifier) + data, source, target)
        return ip6(protocol, data, source, target)


def datagrams(rng, ends):
    """Datagrams of these ports and of others, some with a length that isn't theirs."""
    for _ in range(rng.randrange(1, 6)):
        payload = rng.randbytes(rng.choice((0, 1, 20, 50, 200)))
        size = 8 + len(payload) + rng.choice((0, 0, 0, 0, 0, 0, 3, -3, -8))
        port, other = rng.choice((137, 138, 138, 9_999)), rng.choice((137, 40_000, 50_001))
        yield 0.01, ends.packet(UDP, struct.pack('>HHHH', port, other, max(size, 0), 0) + payload)


def fragments(rng, ends):
    """A datagram in fragments: out of order, missing, doubled, overlapping with other values, or more than a minute apart."""
    for identifier in sorted(rng.choices(range(1, 65_536), k=3) * 2)[:rng.randrange(1, 6)]:
        whole = udp(138, 138, rng.randbytes(rng.randrange(40, 200)))
        cuts = sorted(rng.sample(range(8, len(whole), 8), rng.randrange(1, 4)))
        pieces = [(start, whole[start:end], end < len(whole)) for start, end in zip([0] + cuts, cuts + [len(whole)])]
        pause = rng.choice((0.01,) * 6 + (25.0, 70.0))
        for start, data, more in disordered(rng, pieces):
            yield pause, ends.packet(UDP, data, more=more, offset=start, identifier=identifier, fragment=True)


def disordered(rng, items, *further):
    """Items, each with a place and bytes, as a network delivers them: one is lost, is late, comes again, otherwise perhaps, or as a further function
    has it, which for TCP keeps alive or cuts otherwise."""
    for _ in range(rng.choice((0, 0, 1, 3))):
        at, kind = rng.randrange(len(items)), rng.randrange(4 + len(further))
        place, data, flags = items[at]
        if kind == 0 and len(items) > 1:
            items.pop(at)
        elif kind == 1:
            items.insert(rng.randrange(len(items)), items.pop(at))
        elif kind > 1:
            again = further[kind - 4](place, data) if kind > 3 else items[at] if kind == 2 else (place, rng.randbytes(len(data)), flags)
            items.insert(rng.randrange(at, len(items)) + 1, again)
    return items


def session_bytes(rng):
    """Session packets, at times with a header that none has among them, or only a part of the last."""
    data = b''
    for _ in range(rng.randrange(1, 8)):
        body = rng.randbytes(rng.choice((0, 0, 5, 40, 150)))
        data += session(rng.choice(TYPES) if rng.random() < 0.97 else 0x47, body)
    return data[:-rng.choice((1, 3, 6))] or data if rng.random() < 0.2 else data


class Side:
    """What one end of a stream sends, as segments with a place, bytes and flags."""

    def __init__(self, rng, ends, ports, back):
        self.rng, self.ends, self.ports, self.back = rng, ends, ports, back
        self.first = rng.choice((rng.randrange(2**32), 2**32 - rng.randrange(1, 200)))

    def segments(self, data, ending):
        cuts = sorted(self.rng.sample(range(1, len(data)), min(self.rng.randrange(0, 6), len(data) - 1)))
        segments = [(start, data[start:end], ACK) for start, end in zip([0] + cuts, cuts + [len(data)])]
        recut = lambda begin: (begin, data[begin:begin + self.rng.randrange(1, 60)], ACK)
        disordered(self.rng, segments, lambda start, part: (start + len(part) - 1, b'\0', ACK), lambda *_: recut(self.rng.randrange(len(data))))
        if ending == FIN:
            start, part, flags = segments.pop() if self.rng.random() < 0.5 else (len(data), b'', ACK)
            segments.append((start, part, flags | FIN))
        if ending == RST:
            segments.append((len(data), b'' if self.rng.random() < 0.7 else b'reset', RST))
        return segments

    def packet(self, place, data, flags, options=b''):
        source, target = self.ports[::-1] if self.back else self.ports
        return self.ends.packet(TCP, tcp(source, target, self.first + place, data, flags, 0, options), self.back)


def stream(rng, ends, data_of=session_bytes, side_of=Side):
    """A TCP stream of both ends, or one that has the ports of one that ended, and no SYN."""
    ports = rng.randrange(1_024, 30_000), 139
    for life in range(rng.choice((1, 1, 1, 2))):
        ending = rng.choice((0, FIN, FIN, RST)) if life == 0 else FIN
        sides = [side_of(rng, ends, ports, back) for back in (False, True)[:rng.randrange(1, 3)]]
        sent = []
        for side in sides:
            options = rng.choice((b'', bytes([2, 4, 5, 180]), bytes([1]) * 20))
            if rng.random() < 0.8 and life == 0:
                yield 0.002, side.packet(-1, b'', SYN | (ACK if side.back else 0), options)
            sent.append([side.packet(*each) for each in side.segments(data_of(rng), ending)])
        for packet in mixed(rng, sent):
            yield 0.002, packet


def mixed(rng, lists):
    """The items of lists, each list in its order."""
    lists = [iter(each) for each in lists]
    while lists:
        each = rng.choice(lists)
        item = next(each, None)
        if item is None:
            lists.remove(each)
        else:
            yield item
