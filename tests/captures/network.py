#!/usr/bin/env python3
"""A pcap file with what a network makes of NetBIOS packets, and what nbt-look --lines has to print of it.

Usage: tests/captures/network.py PCAP >EXPECTED
"""
import datetime
import ipaddress
import struct
import sys

sys.dont_write_bytecode = True
sys.path.insert(1, f'{sys.path[0]}/../lib')
from wire import *

AGAIN, NO_START = ' left out: sent again with other bytes', ' left out: of a TCP stream whose start is missing, %d bytes'
ASKED = sent(137, QUERY)
COUNTS = '56 frames, 19 packets, 1 malformed, 18 left out: 1 cut by the snap length, 2 after a gap in TCP, 2 after a bad header, 1 of a TCP stream whose \
start is missing, 1 with RST, 3 sent again with other bytes, 2 a session packet whose rest is missing, 1 fragments of IP whose others are missing, 4 with \
a header that is cut, 1 with a bad header'


def ends(packet):
    """Where a packet comes from, and where it goes, and the port of its service."""
    form, first, size = ('[%s]:%d', 8, 16) if packet[0] >> 4 == 6 else ('%s:%d', 12, 4)
    numbers = struct.unpack_from('>HH', packet, first + 2 * size)
    hosts = (ipaddress.ip_address(packet[at:at + size]) for at in (first, first + size))
    return ' > '.join(form % each for each in zip(hosts, numbers)), next((each for each in numbers if each in (137, 138, 139)), None)


class Network:
    """The frames of the pcap file, and beside them the lines that they have to give."""

    def __init__(self, file):
        self.file, self.number = file, 0
        self.file.write(pcap_header(1))

    def frame(self, moment, packet, *given, captured=None, tag=b''):
        """A frame at so many milliseconds, of which so many bytes were captured, and the lines that it gives: of bytes the comment on the frame
        and a payload, of a number a tick, of a text what is said of the frame."""
        self.file.write(pcap_record((700 + moment) * 1000, bytes(12) + tag + ethernet(packet)[12:], captured))
        self.number += 1
        when = datetime.datetime.fromtimestamp(1_700_000_000, datetime.timezone.utc) + datetime.timedelta(milliseconds=700 + moment)
        comment, port = ends(packet)
        for each in given:
            if isinstance(each, bytes):
                print(f'# frame {self.number} {when:%Y-%m-%dT%H:%M:%S.%fZ} {comment}\n{port} {moment} {each.hex() or "empty"}')
            elif isinstance(each, int):
                print('tick', each)
            else:
                print(f'# frame {self.number}{each}')


class Side:
    """One end of a TCP stream, which counts from this sequence number; at a moment, perhaps, it sends a SYN before that."""

    def __init__(self, network, source, target, first, opens=None):
        self.network, self.source, self.target, self.first = network, source, target, first
        if opens is not None:
            self.sends(opens, -1, b'', flags=SYN if target == 139 else SYN | ACK)

    def sends(self, moment, place, payload, *given, flags=ACK, captured=None):
        ends = (SERVER, CLIENT) if self.source == 139 else (CLIENT, SERVER)
        packet = ip(TCP, tcp(self.source, self.target, self.first + place, payload, flags, 0), *ends)
        self.network.frame(moment, packet, *given, captured=captured)


def network(network):
    """What is usual, of each service, and what goes wrong."""
    for part in (datagrams, calls, strangers, overlaps, rarities, cuts, again, starts, closes):
        part(network)
    print('# ' + COUNTS)


def datagrams(network):
    """Ports 137 and 138, and what stands beside them."""
    network.frame(0, sent(53, b'no NetBIOS'))
    network.frame(250, ASKED, QUERY, tag=b'\x81\0\0\x05')
    whole = udp(138, 138, DATAGRAM)
    network.frame(900, ip(UDP, whole[800:], fragment=100, identifier=7))
    network.frame(1100, ip(UDP, whole[:800], fragment=0x2000, identifier=7), 1000, DATAGRAM)
    network.frame(1200, ip(ICMP, struct.pack('>BBHL', 3, 3, 0, 0) + ASKED))
    network.frame(1300, ip6(UDP, udp(137, 137, QUERY)), QUERY)
    network.frame(1350, ip(UDP, udp(137, 40_000, RESPONSE), SERVER, CLIENT), RESPONSE)
    network.frame(1400, sent(138, b''), b'')
    network.frame(1450, sent(138, DATAGRAM), ' cut: 100 of 1082 bytes', captured=142)


def calls(network):
    """A stream whose numbers pass 2^32, with segments early, again and missing, and one of a byte that keeps it alive."""
    client, server = Side(network, 1025, 139, 2**32 - 10, 1500), Side(network, 139, 1025, 7, 1501)
    sent = REQUEST + SHORT + OTHER + LONG
    client.sends(1510, 0, REQUEST, REQUEST)
    server.sends(1520, 0, POSITIVE, POSITIVE)
    client.sends(1600, 80, sent[80:95])
    client.sends(1610, 0, REQUEST)
    client.sends(1620, 72, sent[72:80], SHORT)
    client.sends(1630, 95, sent[95:60_000], OTHER)
    client.sends(1640, 59_999, b'x')
    client.sends(1700, 60_000, sent[60_000:], LONG)
    client.sends(1800, len(sent) + 5, KEEPALIVE)
    client.sends(1810, len(sent), b'\0\0')
    client.sends(1820, len(sent) + 2, b'reset', ' left out: with RST, 5 bytes', flags=RST)


def strangers(network):
    """After a pause, streams whose start isn't captured, or that aren't NetBIOS."""
    Side(network, 1026, 139, 500).sends(
        9000, 0, KEEPALIVE + KEEPALIVE, 2000, 3000, 4000, 9000, KEEPALIVE, KEEPALIVE)
    Side(network, 1027, 139, 1, 9100).sends(9110, 0, FOREIGN, ' left out: after a bad header, 16 bytes')
    Side(network, 1028, 139, 1, 9200).sends(9210, 0, b'\x86\0\0\x01x' + KEEPALIVE, ' left out: after a bad header, 9 bytes')


def overlaps(network):
    """From 20 seconds on, a stream whose segments overlap, which Wireshark itself doesn't put into order."""
    client, sent = Side(network, 1029, 139, 1, 20_000), SHORT + OTHER + KEEPALIVE
    client.sends(20_100, 8, sent[8:20])
    client.sends(20_200, 0, sent[:7])
    client.sends(20_300, 4, sent[4:10], 10_000, 11_000, 12_000, 20_000, SHORT)
    client.sends(20_400, 17, sent[17:], OTHER, KEEPALIVE)


def rarities(network):
    """A fragment alone, and UDP lengths other than IP's."""
    query = udp(137, 137, QUERY)
    network.frame(20_600, ip(UDP, query[:32], fragment=0x2000, identifier=8))
    network.frame(20_700, ip(UDP, query + b'surplus'), QUERY)
    network.frame(20_800, ip(UDP, struct.pack('>HHHH', 137, 137, 3, 0) + QUERY))


def cuts(network):
    """Frames that the snap length cut: in the header of UDP and of TCP, in a segment, before all of a segment's bytes."""
    for captured in 34, 36, 38:
        network.frame(20_900, ASKED, captured=captured)
    client = Side(network, 1030, 139, 1, 20_910)
    client.sends(20_920, 0, SHORT, captured=46)
    client.sends(20_930, 0, SHORT + OTHER, ' left out: after a gap in TCP', captured=54)
    client.sends(20_940, 0, SHORT + OTHER, ' left out: after a gap in TCP, 18 bytes', captured=72)


def again(network):
    """Bytes that come again with other values: after they were cut, and while they wait for those before them."""
    client = Side(network, 1031, 139, 1, 20_950)
    client.sends(20_951, 0, SHORT, SHORT)
    client.sends(20_952, 0, SHORT)
    client.sends(20_953, 10, b'XY', AGAIN)
    client.sends(20_954, 21, b'er one')
    client.sends(20_955, 14, OTHER[:7] + b'XX', OTHER, AGAIN)
    client.sends(20_956, 19, b'XX', AGAIN)


def starts(network):
    """A stream without its start: short segments, and bytes before what is taken for the start."""
    client = Side(network, 1032, 139, 100)
    client.sends(20_960, 0, b'abc', NO_START % 3)
    client.sends(20_961, 10, KEEPALIVE, KEEPALIVE)
    client.sends(20_962, 6, KEEPALIVE)


def closes(network):
    """A stream that ends in the middle of a packet, and what comes after that."""
    client = Side(network, 1033, 139, 1, 20_970)
    client.sends(20_971, 0, SHORT[:6], flags=FIN | ACK)
    client.sends(20_972, 0, SHORT[:6], flags=FIN | ACK)
    client.sends(20_973, 7, b'')


if __name__ == '__main__':
    with open(sys.argv[1], 'wb') as pcap:
        network(Network(pcap))
