#!/usr/bin/env python3
"""Captures that the plugin for Wireshark is tried with.  Usage: tests/plugin/plugin_files.py FOLDER

pieces.pcap has datagrams in many pieces, some lost, changed and repeated; sessions.pcap connections to port 139 in segments of all sizes,
in order and not, with bytes of no packet, headers that ask for more than a packet has, and starts that the file lacks. marked.pcap has refused
packets, one of which comes in two segments, and an SMB echo in a datagram of two fragments; overlaps.pcap segments that come again with
other bytes; gaps.pcap pieces of no bytes; untimed.pcap frames without a time; cut.pcap queries of which the file has a part; aside.pcap
queries in an ICMP error and to another port, and a message of the direct transport.
"""
import random
import struct
import sys

sys.dont_write_bytecode = True
sys.path[1:1] = [f'{sys.path[0]}/../{it}' for it in ('captures', 'lib')]
from plugin_captures import Made
from plugin_pcap import datagram_frame, framed, segment_frame
from random_pcap import Ends, mixed, stream
from wire import ICMP, KEEPALIVE, QUERY, REQUEST, SHORT, START, TCP, UDP, block, datagram, interface, ip, pcap, section, sent, session, spaced, tcp
from wire import pieces as parts
from wire import timed, udp, written

NO_PACKETS = (b'\x81\x01\xff\xff' + bytes(30), b'\x00\xfe\xff\xff' + bytes(50), b'GET / HTTP/1.0\r\n\r\n', b'\x85\0\0\1x',
              b'\x81\0\0\x44' + b'\x20' + b'Z' * 67)


def pieces():
    """Frames of several captures, one behind the other."""
    frames, start = [], 0
    for number in range(12):
        made = Made(random.Random(f'pieces-{number}'))
        frames += [(start + moment, data, snap) for moment, data, snap in made.frames]
        start = frames[-1][0] + 5_000_000
    return frames


def packets(rng, longest):
    """The packets of a direction, and perhaps bytes of none at the end."""
    message = lambda: session(0, rng.randbytes(longest if rng.random() < 0.02 else rng.choice((0, 1, 5, 60, 900, 4_000))))
    found = [REQUEST, *(rng.choice((message(), KEEPALIVE)) for _ in range(rng.randrange(1, 9)))]
    return found + ([rng.choice(NO_PACKETS)] if rng.random() < 0.4 else [])


def sessions():
    rng, data_of = random.Random('sessions'), lambda rng: b''.join(packets(rng, 20_000))
    return spaced(framed(packet) for _, packet in mixed(rng, [stream(rng, Ends(rng, number), data_of) for number in range(16)]))


def marked():
    """A query whose name is a pointer to itself, a call whose second name has too long a label, and the echo."""
    call = REQUEST[:38] + b'\x40' + REQUEST[39:]
    echo = b'\xffSMB\x2b' + bytes(27) + b'\x01\x01\0\x02\0hi'
    return spaced((datagram_frame(137, QUERY[:12] + b'\xc0\x0c' + QUERY[46:]), segment_frame(1_024, 1, call[:20]), segment_frame(1_024, 21, call[20:]),
                   *(datagram_frame(138, each) for each in parts(3, echo, 20))))


def overlaps():
    """A call in segments that bring bytes once more with other values, to the end of what came and past it."""
    changed = bytes(byte ^ 1 for byte in REQUEST)
    sent = ((0, REQUEST[:30]), (0, changed[:30]), (20, changed[20:30] + REQUEST[30:50]), (0, changed[:50] + REQUEST[50:]), (72, KEEPALIVE))
    return spaced(segment_frame(1_024, 1 + start, data) for start, data in sent)


def gaps():
    """Datagrams with pieces of no bytes: between two runs, past the last one, and as the end."""
    sent = ((1, 3, 0, b''), (1, 1, 2, b''), (1, 0, 4, b'ef'), (2, 3, 0, b'ab'), (2, 1, 5, b''), (3, 3, 0, b'ab'), (3, 1, 4, b''), (3, 0, 5, b''))
    return spaced(datagram_frame(138, datagram(number, data, flags=flags, offset=offset)) for number, flags, offset, data in sent)


def untimed():
    """A pcapng file of a datagram in three fragments, of which the first and the last have no time."""
    first, second, third = (datagram_frame(138, each) for each in parts(3, bytes(60), 20))
    without = lambda frame: block(3, struct.pack('<L', len(frame)) + frame)
    return section() + interface() + without(first) + timed(0, START, second, len(second)) + without(third)


def cut():
    """By the snap length behind the packet and in it, and by an IP header that says less than that of UDP."""
    whole, longer = (datagram_frame(137, QUERY + bytes(more)) for more in (0, 10))
    return [(1_000, longer, 42 + 54), (2_000, whole, 42 + 20), (3_000, whole[:16] + b'\0\x30' + whole[18:], None)]


def aside():
    quoted = b'\3\3' + bytes(6) + sent(137, QUERY)
    return spaced(map(framed, (ip(ICMP, quoted), ip(UDP, udp(1_137, 1_137, QUERY)), ip(TCP, tcp(1_024, 445, 1, SHORT)))))


def main():
    for each in (pieces, sessions, marked, overlaps, gaps, untimed, cut, aside):
        made = each()
        written(f'{sys.argv[1]}/{each.__name__}.pcap', made if isinstance(made, bytes) else pcap(made))


if __name__ == '__main__':
    main()
