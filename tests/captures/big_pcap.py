#!/usr/bin/env python3
"""A pcap file of as many packets as are wanted, for the cost of nbt-look; always the same for a number.

Usage: tests/captures/big_pcap.py PACKETS PCAP

Of ten packets some four are name service (UDP 137), three are datagrams (UDP 138), and three are segments (TCP 139) of
streams that begin, carry some messages and end, 64 of them at a time. 724,638 packets are 200 MB. The frames are Ethernet,
1 to 5 ms apart.
"""
import argparse
import random
import sys

sys.dont_write_bytecode = True
sys.path.insert(1, f'{sys.path[0]}/../lib')
from wire import ACK, FIN, FRED, NB, POSITIVE, REQUEST, SYN, Frames, datagram, pcap_header, pcap_record, record, service, session

STREAMS = 64
LAST_HOST = 250


def main():
    parser = argparse.ArgumentParser()
    parser.add_argument('packets', metavar='PACKETS', type=int)
    parser.add_argument('path', metavar='PCAP')
    given = parser.parse_args()
    rng, network, moment = random.Random('big'), Frames(), 0
    streams = [stream(rng) for _ in range(STREAMS)]
    with open(given.path, 'wb') as file:
        file.write(pcap_header())
        for _ in range(given.packets):
            moment += rng.randrange(1_000, 5_000)
            network.add(moment / 1_000, *packet(rng, streams))
            file.write(pcap_record(*network.frames.pop()))


def packet(rng, streams):
    """From where to where a packet goes, and what it has."""
    kind, place = rng.randrange(10), rng.randrange(STREAMS)
    if kind < 4:
        return (host(rng), 137), (host(rng), 137), 137, names(rng)
    if kind < 7:
        said = datagram(rng.randrange(65_536), rng.randbytes(rng.randrange(20, 401)), host(rng))
        return (host(rng), 138), (host(rng), 138), 138, said
    while (segment := next(streams[place], None)) is None:
        streams[place] = stream(rng)
    return segment


def host(rng):
    return bytes([10, 0, 0, rng.randrange(1, LAST_HOST)])


def names(rng):
    """A query, or the response to it."""
    number = rng.randrange(65_536)
    if rng.randrange(2):
        return service(number, 0x0110, FRED, NB)
    return service(number, 0x8500, FRED, told=record(NB, b'\x60\0' + host(rng), 300_000))


def stream(rng):
    """The segments of a session: a request, its answer, some messages, and the end of both sides."""
    client, server = (host(rng), rng.randrange(1_024, 65_536)), (host(rng), 139)
    forth, back = (client, server, 139), (server, client, 139)
    yield from ((*forth, b'', SYN), (*back, b'', SYN | ACK), (*forth, REQUEST), (*back, POSITIVE))
    for _ in range(rng.randrange(10, 50)):
        yield (*rng.choice((forth, back)), session(0, rng.randbytes(rng.randrange(20, 781))))
    yield from ((*forth, b'', FIN | ACK), (*back, b'', FIN | ACK))


if __name__ == '__main__':
    main()
