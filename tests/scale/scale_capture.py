#!/usr/bin/env python3
"""Captures for tests/scale.sh, always the same.  Usage: tests/scale/scale_capture.py KIND.. FOLDER

many   FOLDER/many, 9 MiB: 400 datagrams of 50 senders in pieces of 128 bytes, shuffled, with repeats and one liar
few    FOLDER/few, 40 MiB: the same of 250 datagrams of 50 senders, in pieces of 64 bytes
keys   FOLDER/keys: 66,000 datagrams, each in one packet
gaps   FOLDER/gaps: 40 bursts of packets, five seconds apart, a tick after each; only the last is held at the end
flow   FOLDER/flow: a packet each 5 ms, and a tick each 100 ms, so that keys live across each tick
ever   FOLDER/ever: the same of more than 16 MiB, of longer packets
wide   FOLDER/wide: 16,500 datagrams, each in one packet, whose table has 21 MB; all addresses are even
"""
import os
import random
import sys

sys.path.insert(1, f'{sys.path[0]}/../lib')
from wire import datagram, pieces


def line(moment, packet):
    return '138 %d %s\n' % (moment, packet.hex())


def own(place, data):
    """A datagram in one packet, each place's another, of one of 50 senders."""
    return datagram(place // 50, data, bytes([10, 0, 0, 1 + place % 50]))


def few(rng):
    return many(rng, 5, 40, 64)


def many(rng, of_each=8, size=9, piece=128):
    lines = []
    for sender in range(1, 51):
        for identifier in range(of_each):
            data = rng.randbytes(rng.randrange(4_000, 6_000))
            for each in (data, data[:640][::-1] + data[640:]) if (sender, identifier) == (7, 7) else (data,):
                lines += [line(0, it) for it in pieces(identifier, each, piece, source=bytes([10, 0, 0, sender]))]
    missing = size * 1_048_576 - sum(map(len, lines))
    while missing > 0:
        lines.append(rng.choice(lines))
        missing -= len(lines[-1])
    rng.shuffle(lines)
    return lines


def keys(_rng):
    return [line(0, own(place, b'')) for place in range(66_000)]


def gaps(rng):
    for burst in range(40):
        for place in range(60):
            yield line(5_000 * burst + place, datagram(burst, rng.randbytes(300), bytes([10, 0, 0, 1 + place % 50]), flags=3))
        yield 'tick %d\n' % (5_000 * burst + 3_000)
    for place in range(2_000):
        yield line(200_000 + place, own(place, rng.randbytes(100)))


def flow(rng, packets=4_000, size=200):
    for place in range(packets):
        if place % 20 == 19:
            yield 'tick %d\n' % (5 * place)
        yield line(5 * place, own(place, rng.randbytes(size)))


def ever(rng):
    return flow(rng, 16_000, 450)


def wide(rng):
    for place in range(16_500):
        yield line(0, datagram(place // 25, rng.randbytes(550), bytes([10, 0, 0, 2 + 2 * (place % 25)])))


def main():
    *kinds, folder = sys.argv[1:]
    for kind in kinds:
        with open(os.path.join(folder, kind), 'w') as file:
            file.writelines(globals()[kind](random.Random(kind)))


if __name__ == '__main__':
    main()
