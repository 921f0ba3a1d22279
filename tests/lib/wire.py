"""Packets of IP, UDP, TCP and NetBIOS, and pcap and pcapng files of frames, for the scripts that make such files or send packets."""
import os
import struct

# The moment from which times in files are counted, in microseconds.
START = 1_700_000_000 * 10**6

UDP, TCP, ICMP = 17, 6, 1
FIN, SYN, RST, ACK = 0x01, 0x02, 0x04, 0x10
NB, NBSTAT, NULL, NS = 0x20, 0x21, 0x0a, 0x02
CLIENT, SERVER = bytes([10, 0, 0, 5]), bytes([10, 0, 0, 6])
# All of a MAC but its last byte.
MAC = b'\x02\0\0\0\0'


def first_level(text, suffix):
    """A name as it stands in a packet, without a scope."""
    data = (text if isinstance(text, bytes) else text.encode()).ljust(15)[:15] + bytes([suffix])
    return b'\x20' + bytes(ord('A') + half for byte in data for half in (byte >> 4, byte & 15)) + b'\0'


JOE, FRED = first_level('JOE', 0x00), first_level('FRED', 0x20)


def ethernet(packet, source=MAC + b'\x05', target=MAC + b'\x06'):
    return target + source + (b'\x86\xdd' if packet[0] >> 4 == 6 else b'\x08\0') + packet


def ip(protocol, data, source=CLIENT, target=SERVER, fragment=0, identifier=0):
    size = 20 + len(data)
    return struct.pack('>BBHHHBBH', 0x45, 0, size, identifier, fragment, 64, protocol, 0) + source + target + data


def ip6(protocol, data, source=bytes(15) + b'\x01', target=bytes(15) + b'\x02'):
    return struct.pack('>LHBB', 0x60000000, len(data), protocol, 64) + source + target + data


def udp(source, target, payload):
    return struct.pack('>HHHH', source, target, 8 + len(payload), 0) + payload


def sent(port, payload, *ends):
    """A packet of UDP from a port to the same port."""
    return ip(UDP, udp(port, port, payload), *ends)


def tcp(source, target, sequence, payload=b'', flags=ACK, acknowledged=1, options=b'', window=65_535):
    header = struct.pack('>HHLLBBHHH', source, target, sequence % 2**32, acknowledged, (20 + len(options)) * 4, flags, window, 0, 0)
    return header + options + payload


def record(kind, data, ttl=0):
    """What stands after the name of a record."""
    return struct.pack('>HHLH', kind, 1, ttl, len(data)) + data


def service(identifier, word, name, asked=None, told=b''):
    """A packet of port 137 about one name: a question of the type `asked`, the record `told`, or both."""
    if asked is None:
        return struct.pack('>6H', identifier, word, 0, 1, 0, 0) + name + told
    question = name + struct.pack('>HH', asked, 1)
    return struct.pack('>6H', identifier, word, 1, 0, 0, bool(told)) + question + (b'\xc0\x0c' + told if told else b'')


def datagram(identifier, data, source=CLIENT, kind=0x11, flags=0x02, offset=0, names=JOE + FRED, port=138):
    """A group datagram in one packet, or a piece of another one."""
    return struct.pack('>BBH4sHHH', kind, flags, identifier, source, port, len(names) + len(data), offset) + names + data


def pieces(identifier, data, most=7, **others):
    """The packets of a datagram, which is cut into pieces of at most so many bytes."""
    starts = range(0, max(len(data), 1), most)
    return [datagram(identifier, data[it:it + most], flags=2 * (it == 0) + (it != starts[-1]), offset=it, **others) for it in starts]


def session(kind, body=b''):
    return struct.pack('>BBH', kind, len(body) >> 16, len(body) & 65_535) + body


QUERY = service(3, 0x0110, FRED, asked=NB)
RESPONSE = service(3, 0x8500, FRED, told=record(NB, b'\x60\0' + SERVER, 300_000))
REQUEST, POSITIVE, KEEPALIVE = session(0x81, FRED + JOE), session(0x82), session(0x85)
SHORT, OTHER, LONG = session(0, b'short text'), session(0, b'other one'), session(0, bytes(70_000))
FOREIGN = b'GET / HTTP/1.0\r\n'
DATAGRAM = datagram(7, bytes(range(250)) * 4)


def pcap_header(link=1):
    return struct.pack('<LHHLLLL', 0xa1b2c3d4, 2, 4, 0, 0, 262_144, link)


def pcap_record(at, data, snap=None):
    """A frame at so many microseconds after START, of which the file has so many bytes; None is all."""
    second, part = divmod(START + at, 10**6)
    captured = data[:snap]
    return struct.pack('<LLLL', second, part, len(captured), len(data)) + captured


def pcap(frames, link=1):
    """A file of frames, each with its time, its bytes, and how many of these the file has."""
    return pcap_header(link) + b''.join(pcap_record(*each) for each in frames)


def spaced(frames, between=1_000):
    """Whole frames with their times, so many microseconds apart."""
    return [(number * between, frame, None) for number, frame in enumerate(frames)]


def written(path, data):
    """Writes a file, which others may read; its path."""
    with open(path, 'wb') as file:
        file.write(data)
    os.chmod(path, 0o644)
    return path


def block(kind, body, order='<'):
    """A block of pcapng."""
    body += bytes(-len(body) % 4)
    size = struct.pack(order + 'L', 12 + len(body))
    return struct.pack(order + 'L', kind) + size + body + size


def section(order='<'):
    """The block that begins a file of pcapng."""
    return block(0x0a0d0d0a, struct.pack(order + 'LHHq', 0x1a2b3c4d, 1, 0, -1), order)


def interface(link=1, options=b'', order='<'):
    """The block of an interface."""
    return block(1, struct.pack(order + 'HHL', link, 0, 262_144) + options, order)


def timed(number, at, captured, size, order='<'):
    """A frame of an interface at so many units of its time, of so many bytes."""
    return block(6, struct.pack(order + 'LLLLL', number, at >> 32, at % 2**32, len(captured), size) + captured, order)


class Frames:
    """Frames of a network, which knows the next place of each stream."""

    def __init__(self):
        self.frames, self.due = [], {}

    def add(self, moment, source, target, port, payload, flags=ACK, snap=None, mac=None):
        """A packet of this service at a millisecond, from one address and port to another; `mac` is the last byte of its sender's."""
        if port == 139:
            packet = ip(TCP, tcp(source[1], target[1], *self.placed((source, target), payload, flags)), source[0], target[0])
        else:
            packet = ip(UDP, udp(source[1], target[1], payload), source[0], target[0])
        receiver = b'\xff' * 6 if target[0][3] == 255 else MAC + target[0][3:]
        self.frames.append((round(moment * 1000), ethernet(packet, MAC + (mac or source[0][3:]), receiver), snap))

    def placed(self, key, payload, flags):
        """The sequence number of a segment, its bytes and its flags, and what it acknowledges."""
        if flags & SYN:
            self.due[key] = self.due.get(key, 0) + 100_000
        place = self.due.get(key, 1_000)
        self.due[key] = place + len(payload) + bool(flags & SYN)
        return place, payload, flags, 0 if flags == SYN else 1
