"""Streams and packets in fragments that wait for what doesn't come, or comes last; and long streams."""
import random
import struct

from wire import KEEPALIVE, SHORT, SYN, TCP, UDP, ethernet, ip, pcap_header, tcp

# How many streams are half open, and how many of them are read; of how many packets of IP there are fragments, as many as are kept, and how many
# fragments in all. Each has so many bytes, past a gap.
STREAMS, DIRECTIONS, PACKETS, FRAGMENTS, WAITING = 100_000, 65_536, 4_096, 1_000_000, 64
# The most kB that a program may take with them.
ROOM = 180_000


def waiting(stream, count):
    """The frames of a stream: a SYN, so many packets past a gap, in some order, and the first one, which fills it."""
    segment = lambda place, data, flags=16: ethernet(ip(TCP, tcp(1_024 + stream, 139, 1_000 + place, data, flags)))
    yield segment(-1, b'', SYN)
    for number in range(count):
        yield segment(4 + 4 * (number * 7_919 % count), KEEPALIVE)
    yield segment(0, KEEPALIVE)


def in_vain(file):
    """Writes a capture of all these."""
    file.write(pcap_header())
    for number in range(STREAMS):
        source = struct.pack('>L', 0x0a00_0000 + number)
        file.write(recorded(ethernet(ip(TCP, tcp(1_025, 139, 0, flags=SYN), source))) + recorded(ethernet(ip(TCP, tcp(1_025, 139, 9, bytes(WAITING)), source))))
    begin, end = recorded(ethernet(ip(UDP, bytes(WAITING)))), 16 + 14
    for number in range(FRAGMENTS):
        place, identifier = divmod(number, PACKETS)
        file.write(b''.join((begin[:end + 4], struct.pack('>HH', identifier, 0x2000 | place * 2 * WAITING // 8 + 1), begin[end + 8:])))


def streams(file, count, size, width):
    """Writes a capture of so many streams of so many segments, each one packet, shuffled within so many."""
    rng = random.Random('streams')
    file.write(pcap_header())
    for stream in range(count):
        file.write(recorded(ethernet(ip(TCP, tcp(1_024 + stream, 139, 0, flags=SYN)))))
        for begin in range(0, size, width):
            for number in rng.sample(range(begin, begin + width), width):
                file.write(recorded(ethernet(ip(TCP, tcp(1_024 + stream, 139, 1 + number * len(SHORT), SHORT)))))


def recorded(frame):
    """A frame of the first second."""
    return struct.pack('<LLLL', 0, 0, len(frame), len(frame)) + frame
