"""Random capture files as their parts, one after another: every link type that nbt-look reads, each order of bytes and unit of time, sections,
interfaces and clocks of pcapng, options and extension headers of IP, frames that are cut anywhere; and files with bytes changed."""
import struct

from wire import DATAGRAM, QUERY, REQUEST, RESPONSE, TCP, UDP, datagram, ip, ip6, tcp

ETHERNET, COOKED, COOKED_2, NULL, LOOPBACK = 1, 113, 276, 0, 108
RAW, RAW_4, RAW_6 = (12, 14, 101), 228, 229
LINKS = ETHERNET, ETHERNET, ETHERNET, COOKED, COOKED_2, *RAW, RAW_4, RAW_6, NULL, LOOPBACK
TAGS = b'\x81\0', b'\x88\xa8'
HOP_BY_HOP, ROUTING, FRAGMENT, AUTHENTICATION, DESTINATION = 0, 43, 44, 51, 60
# A router alert, nothing, a route that was taken.
OPTIONS_4 = b'', b'', b'\x94\x04\0\0', b'\x01' * 4, b'\x07\x0b\x08' + bytes(9), b'\x01' * 40
PAYLOADS = QUERY, RESPONSE, DATAGRAM, datagram(9, b'data'), REQUEST, b'', b'\0' * 12, QUERY[:20]
PORTS = 137, 137, 138, 138, 139, 9_999, 40_000
START, BILLION = 1_700_000_000, 10**9
# Of the clocks of interfaces the byte that says how many units a second has.
RESOLUTIONS = 6, 6, 9, 9, 0, 3, 10, 0x80, 0x8a, 0x94, 0x9e
NAMES = b'', b'eth0', b'unknown', b'lo', b'wlan0-monitor', b'\x1b[2J'
SECTION, INTERFACE, OLD_PACKET, SIMPLE_PACKET, PACKET = 0x0a0d0d0a, 1, 2, 3, 6
OTHERS = 0x40000001, 0x80000002, 0x7fff


def file_of(rng):
    """The bytes of a file."""
    return b''.join(data for data, _ in parts_of(rng))


def parts_of(rng):
    """The parts of a file: its header, and frames or blocks. With each goes whether it is a frame."""
    return list(classic(rng) if rng.random() < 0.4 else sections(rng))


# ---- frames

def frame_of(rng, link):
    """A frame of a link type."""
    six = rng.random() < 0.4 if link not in (RAW_4, RAW_6) else link == RAW_6
    return front_of(rng, link, six) + packet_of(rng, six)


def front_of(rng, link, six):
    kind = b'\x86\xdd' if six else b'\x08\0'
    tags = b''.join(rng.choice(TAGS) + rng.randbytes(2) for _ in range(rng.choice((0, 0, 0, 1, 2, 3, 4))))
    if link == ETHERNET:
        types = tags + kind
        return rng.randbytes(12) + types
    if link == COOKED:
        return struct.pack('>HHH', rng.randrange(5), 1, 6) + rng.randbytes(8) + kind
    if link == COOKED_2:
        return kind + struct.pack('>HLHBB', 0, rng.randrange(9), 1, 0, 6) + rng.randbytes(8)
    if link in (NULL, LOOPBACK):
        family = rng.choice((24, 28, 30)) if six else 2
        return struct.pack('>L' if link == LOOPBACK or rng.random() < 0.3 else '<L', family)
    return b''


def packet_of(rng, six):
    """A packet of IP: mostly of UDP, and mostly of these ports."""
    protocol, data = (TCP, tcp(rng.choice(PORTS), 139, 1, REQUEST)) if rng.random() < 0.1 else (UDP, datagram_of(rng))
    if rng.random() < 0.03:
        protocol = 1 if not six else 58
    source, target = (rng.randbytes(16) if six and rng.random() < 0.5 else bytes(12 * six) + bytes([10, 0, 0, rng.randrange(1, 250)]) for _ in '12')
    if six:
        return ip6(*extended(rng, protocol, data), source, target)
    options, fragment = rng.choice(OPTIONS_4), rng.choice((0, 0, 0, 0, 0, 0x4000, 0x2000, 1))
    packet = ip(protocol, options + data, source, target, fragment, rng.randrange(65_536))
    return bytes([0x45 + len(options) // 4]) + packet[1:] + bytes(rng.choice((0, 0, 0, 6)))


def extended(rng, protocol, data):
    """What stands after a header of IPv6: extension headers at times, and the data."""
    for _ in range(rng.choice((0, 0, 0, 1, 2, 4))):
        kind = rng.choice((ROUTING, FRAGMENT, AUTHENTICATION, DESTINATION))
        protocol, data = kind, header_6(rng, kind, protocol) + data
    if rng.random() < 0.2:
        protocol, data = HOP_BY_HOP, header_6(rng, HOP_BY_HOP, protocol) + data
    return protocol, data


def header_6(rng, kind, following):
    """An extension header: a fragment is whole most times."""
    if kind == FRAGMENT:
        return struct.pack('>BBHL', following, 0, rng.choice((0, 0, 0, 1, 8)), rng.randrange(2**32))
    if kind == AUTHENTICATION:
        return struct.pack('>BBHLL', following, 4, 0, 1, 1) + bytes(12)
    more = rng.randrange(3)
    body = struct.pack('BB', 253, 0) if kind == ROUTING else struct.pack('BB', 1, 8 * more + 4)
    return struct.pack('BB', following, more) + body + bytes(8 * more + 4)


def datagram_of(rng):
    payload = rng.choice(PAYLOADS) if rng.random() < 0.8 else rng.randbytes(rng.randrange(200))
    size = 8 + len(payload) + rng.choice((0,) * 12 + (3, -3, -9, 1000))
    return struct.pack('>HHHH', rng.choice(PORTS), rng.choice(PORTS), max(size, 0), 0) + payload


def cut(rng, data):
    """How much of a frame was captured: mostly all."""
    return data if rng.random() < 0.7 else data[:rng.randrange(len(data) + 1)]


# ---- files

def classic(rng):
    order, unit, link = rng.choice('<>'), rng.choice((1_000, 1)), rng.choice(LINKS)
    now, upper = START * BILLION, rng.choice((0, 0, 0x30000000))
    yield struct.pack(order + 'LHHLLLL', 0xa1b2c3d4 if unit == 1_000 else 0xa1b23c4d, 2, 4, 0, 0, 262_144, upper | link), False
    for _ in range(rng.randrange(1, 12)):
        now = later(rng, now)
        data = frame_of(rng, link)
        kept = cut(rng, data)
        yield struct.pack(order + 'LLLL', now // BILLION, now % BILLION // unit, len(kept), len(data)) + kept, True


def later(rng, now):
    """The time of the next frame, which at times is earlier."""
    return now + rng.randrange(-10**8, 3 * BILLION)


def sections(rng):
    now = START * BILLION
    for _ in range(rng.choice((1, 1, 2, 3))):
        order = rng.choice('<>')
        yield block(SECTION, struct.pack(order + 'LHHq', 0x1a2b3c4d, 1, 0, -1) + options(rng, order), order), False
        faces = []
        for _ in range(rng.randrange(1, 12)):
            if not faces or rng.random() < 0.1:
                faces.append(Face(rng))
                yield faces[-1].described(order), False
            elif rng.random() < 0.1:
                yield block(rng.choice(OTHERS), rng.randbytes(4 * rng.randrange(8)), order), False
            else:
                now = later(rng, now)
                yield packet_block(rng, order, faces, now), True


class Face:
    """An interface, with a clock of its own."""

    def __init__(self, rng):
        self.link, self.name = rng.choice(LINKS), rng.choice((None, *NAMES))
        self.resolution, self.offset = rng.choice((None, *RESOLUTIONS)), rng.choice((None, None, 0, 3_600, -7_200))
        self.snap = rng.choice((0, 262_144, 262_144, 60))

    def described(self, order):
        given = [(2, self.name), (9, None if self.resolution is None else bytes([self.resolution])),
                 (14, None if self.offset is None else struct.pack(order + 'q', self.offset))]
        said = b''.join(option(code, value, order) for code, value in given if value is not None)
        return block(INTERFACE, struct.pack(order + 'HHL', self.link, 0, self.snap) + said + (option(0, b'', order) if said else b''), order)

    def ticks(self, now):
        """A time in the units of the clock."""
        said = 6 if self.resolution is None else self.resolution
        per = 2**(said & 127) if said & 128 else 10**said
        return (now - (self.offset or 0) * BILLION) * per // BILLION


def packet_block(rng, order, faces, now):
    """A frame in a block: mostly an Enhanced Packet, else a Simple or an obsolete one."""
    number = rng.randrange(len(faces))
    kind = rng.choice((PACKET, PACKET, PACKET, PACKET, OLD_PACKET, SIMPLE_PACKET))
    data = frame_of(rng, faces[0 if kind == SIMPLE_PACKET else number].link)
    if kind == SIMPLE_PACKET:
        return block(kind, struct.pack(order + 'L', len(data)) + (data[:faces[0].snap] if faces[0].snap else data), order)
    kept, ticks = cut(rng, data), faces[number].ticks(now)
    numbered = struct.pack(order + 'L', number) if kind == PACKET else struct.pack(order + 'HH', number, 0xffff)
    head = numbered + struct.pack(order + 'LLLL', ticks >> 32, ticks % 2**32, len(kept), len(data))
    return block(kind, head + kept + bytes(-len(kept) % 4) + options(rng, order), order)


def options(rng, order):
    """Options that say nothing of the frames."""
    if rng.random() < 0.7:
        return b''
    said = b''.join(option(1, rng.randbytes(rng.randrange(12)).hex().encode(), order) for _ in range(rng.randrange(3)))
    return said + option(0, b'', order)


def option(code, value, order):
    return struct.pack(order + 'HH', code, len(value)) + value + bytes(-len(value) % 4)


def block(kind, body, order):
    """A block, whose body has a multiple of four bytes or is padded to that."""
    body += bytes(-len(body) % 4)
    size = struct.pack(order + 'L', 12 + len(body))
    return struct.pack(order + 'L', kind) + size + body + size


# ---- files with bytes changed

def changed(rng, data):
    """A file with some bytes changed, taken away, put in or moved."""
    data = bytearray(data)
    for _ in range(rng.choice((1, 1, 2, 5))):
        at, other = rng.randrange(len(data)), rng.randrange(len(data))
        kind = rng.randrange(6)
        if kind < 3:
            data[at] = rng.choice((0, 1, 255, data[at] ^ 1 << rng.randrange(8), rng.randrange(256)))
        elif kind == 3:
            del data[at:at + rng.choice((1, 4, 16))]
        elif kind == 4:
            data[at:at] = data[other:other + rng.choice((1, 4, 16, 60))]
        else:
            data[at:at + 4] = rng.choice((bytes(4), b'\xff' * 4, b'\0\0\0\x0c', b'\x0c\0\0\0', bytes(data[other:other + 4])))
        if not data:
            break
    return bytes(data)
