#!/usr/bin/env python3
"""Captures for tests/look.sh, a file of the name of each.  Usage: tests/captures/look_captures.py FOLDER"""
import random
import struct
import sys

sys.dont_write_bytecode = True
sys.path.insert(1, f'{sys.path[0]}/../lib')
from wire import *

USB = 189
EVIL = b'\x1b]0;x\x07\xff\x9b2J'
ENDS = (CLIENT, 1025), (SERVER, 139)
# Port 445, and NetBEUI.
SMB = ethernet(ip(TCP, tcp(50_000, 445, 1, flags=SYN)))
NETBEUI = b'\x03\0\0\0\0\x01\x02\0\0\0\0\x05' + struct.pack('>H', 47) + b'\xf0\xf0\x03' + struct.pack('<HH', 44, 0xefff) + b'\x0a' + bytes(39)


def pcapng(names, *frames):
    """A file with an interface of each name, and the frames, a microsecond apart, of one interface after the other."""
    option = lambda number, data: struct.pack('<HH', number, len(data)) + data + bytes(-len(data) % 4)
    interfaces = (interface(options=(option(2, each) if each else b'') + option(0, b'')) for each in names)
    return b''.join((section(), *interfaces, *(timed(each, START + each, data, len(data)) for each, data in enumerate(frames))))


def query(name, number=3):
    return ethernet(sent(137, service(number, 0x0110, name, NB)))


def fragment(packet, start, end, number):
    """A fragment of IP, which more follow where it has an end."""
    return ethernet(ip(UDP, packet[start:end], fragment=(0x2000 if end else 0) | start // 8, identifier=number))


class Lan(Frames):
    """The frames of a network 10.0.0.0, whose stations have the last numbers of their addresses."""

    def says(self, at, source, target, port, payload, snap=None):
        self.add(at, *((bytes([10, 0, 0, each]), port) for each in (source, target)), port, payload, snap=snap)


def entry(last, flags=0):
    """A record with an address."""
    return record(NB, struct.pack('>H', flags) + bytes([10, 0, 0, last]), 300_000)


def life():
    """A network in which much goes wrong: claims in conflict, refusals, queries without an answer, a call that is refused,
    datagrams that are spoilt, incomplete, refused and cut."""
    ann, work, nobody, anybody = first_level('ANN', 0), first_level('WORK', 0x1e), first_level('NOBODY', 0x20), first_level(b'*' + bytes(14), 0)
    lan = Lan()
    lan.says(0, 6, 255, 137, service(1, 0x2910, FRED, NB, entry(6)))
    lan.says(200, 8, 255, 137, service(2, 0x2910, FRED, NB, entry(8)))
    lan.says(250, 6, 8, 137, service(2, 0xad86, FRED, told=entry(6)))
    lan.says(300, 7, 9, 137, service(3, 0x2900, ann, NB, entry(7)))
    lan.says(350, 9, 7, 137, service(3, 0xad85, ann, told=entry(7)))
    lan.says(400, 6, 255, 137, service(4, 0x2910, work, NB, entry(6, 0x8000)))
    for at in (500, 750, 1000):
        lan.says(at, 5, 255, 137, service(5, 0x0110, nobody, NB))
    lan.says(1100, 5, 255, 137, service(6, 0x0110, FRED, NB))
    lan.says(1150, 6, 5, 137, service(6, 0x8580, FRED, told=entry(6)))
    lan.says(1200, 5, 6, 137, service(7, 0x0000, anybody, NBSTAT))
    names = b''.join(each.ljust(15) + struct.pack('>BH', last, flags)
                     for each, last, flags in ((b'FRED', 0x20, 0x0400), (b'FRED', 0, 0x0400), (b'WORK', 0x1e, 0x8400)))
    lan.says(1250, 6, 5, 137, service(7, 0x8400, anybody, told=record(NBSTAT, b'\x03' + names + MAC + b'\x06' + bytes(40))))
    lan.add(1300, *ENDS, 139, REQUEST)
    lan.says(1400, 5, 6, 138, datagram(1, b'', kind=0x10, names=JOE + b'\xc0\x0e'))
    lan.says(1450, 5, 6, 138, datagram(9, bytes(600)), 96)
    for at, number, flags, offset, data in ((1500, 1, 3, 0, b'abcd'), (1510, 1, 3, 0, b'abcx'), (1520, 2, 3, 0, b'abcd'), (1530, 2, 0, 8, b'ijkl')):
        lan.says(at, 5, 6, 138, datagram(number, data, flags=flags, offset=offset))
    lan.add(1600, *ENDS[::-1], 139, session(0x83, b'\x82'))
    lan.says(1700, 8, 6, 137, service(8, 0xad87, FRED, told=entry(6)))
    return pcap(lan.frames)


def fronts():
    """Packets of all kinds, of which a snap length leaves fronts."""
    rest = (b'\x01X\0' + entry(8)) * 2
    whole = datagram(33, b'x' * 100, kind=0x10)
    payloads = [(137, each) for each in (
        service(1, 0x0110, FRED, NB), service(2, 0x0000, FRED, NBSTAT) + bytes(20),
        *(service(each, word, FRED, NB, entry(6)) for each, word in enumerate((0x2910, 0x3110, 0x4110, 0x7910, 0x1910, 0x2800), 3)),
        service(9, 0x8580, FRED, told=entry(6)) + bytes(40),
        *(service(each, word, FRED, told=entry(6)) + rest for each, word in enumerate(
            (0x8580, 0x8583, 0xad80, 0xad86, 0xad00, 0xad87, 0xb400, 0xb406, 0xbc00, 0x9c00), 10)))]
    payloads += [(138, each) for each in (
        *(datagram(each, bytes(range(256)) * 4, kind=kind) for each, kind in enumerate((0x10, 0x11, 0x12), 30)),
        whole[:10] + b'\0\x28' + whole[12:],            # it ends in its second name
        datagram(34, b'', kind=0x13))]
    return pcap(spaced(ethernet(sent(*each)) for each in [*payloads, (137, b'\xff' * 80)]))


def gaps():
    """A session packet in two segments, one after 1000 missing bytes; fragments of a datagram without the middle one, and of a whole one."""
    lan = Lan()
    for at, gap, data in ((0, 0, REQUEST), (1, 0, SHORT[:6]), (2, 0, SHORT[6:]), (3, 1000, OTHER), (4, 0, KEEPALIVE)):
        lan.due[ENDS] = lan.due.get(ENDS, 100) + gap
        lan.add(at, *ENDS, 139, data)
    for at, number, start, end in ((5, 7, 0, 400), (6, 7, 800, None), (7, 8, 0, 400), (8, 8, 400, None)):
        lan.frames.append((at * 1000, fragment(udp(138, 138, DATAGRAM), start, end, number), None))
    return pcap(lan.frames)


def chance():
    """Frames of any bytes."""
    rng = random.Random('look')
    heads = (b'', ethernet(ip(UDP, b''))[:34], ethernet(ip(TCP, b''))[:34], query(FRED)[:42])
    return pcap([(each, rng.choice(heads) + rng.randbytes(rng.randrange(1, 200)), rng.choice((None, 20, 40, 60))) for each in range(2_000)])


CAPTURES = {
    # What `tcpdump -s 96` leaves of a registration and datagrams, beside a query that is whole.
    'snapped': pcap([(0, query(FRED), None)] + [(each * 1000, ethernet(sent(138, DATAGRAM)), 96) for each in range(1, 601)]),
    # A name, and an interface, of bytes that act on a terminal.
    'evil': pcapng([b'eth0', EVIL], *[query(first_level(EVIL, 0x20)[:-1] + b'\x05\x1b[31m\0')] * 2),
    'backwards': pcap([(2_000_000, query(FRED), None), (500_000, query(JOE), None), (3_000_000, query(FRED), None)]),
    # Three interfaces, of which the second one has a name.
    'nameless': pcapng([b'', b'eth0', b''], *(query(FRED, each) for each in range(3))),
    # A query below a service tag and a customer tag, below two of the first kind, and below one of them.
    'qinq': pcap(spaced([query(FRED)[:12] + tags + query(FRED)[12:] for tags in (
        b'\x88\xa8\0\x64\x81\0\0\xc8', b'\x88\xa8\0\x64\x88\xa8\0\xc8', b'\x88\xa8\0\x64')], 1)),
    # Nothing of these ports.
    'others': pcap(spaced((SMB, NETBEUI, NETBEUI), 1)),
    'usb': pcap(spaced([bytes(64)] * 3, 1), USB),
    # The first fragment of a datagram whose rest never comes, one of another port, and a last one without its first.
    'fragments': pcap(spaced((fragment(udp(138, 138, DATAGRAM), 0, 800, 7), fragment(udp(53, 53, bytes(900)), 0, 800, 8),
                              fragment(udp(138, 138, DATAGRAM), 800, None, 9), query(FRED)), 1)),
    'life': life(), 'fronts': fronts(), 'gaps': gaps(), 'chance': chance()}


if __name__ == '__main__':
    for name, capture in CAPTURES.items():
        written(f'{sys.argv[1]}/{name}.pcap', capture)
