#!/usr/bin/env python3
"""Payloads for the programs over the library, a line each: a port and digits, or `empty`.

Usage: tests/captures/payloads.py [--seed N] library|values|worst|inputs COUNT

library  as those of tests/fuzz.py, good and changed
values   for tests/model/values.py: packets of port 137 that are made by chance, with names that lead into each other and records of each
         type; some of these are changed, or cut at each length; any bytes after a header; and of other ports
worst    those that cost the most, or of which the most is said, as long as they may be
inputs   those of a fuzzer's inputs, words of digits on standard input, where saved tables have `table` for a port
"""
import argparse
import random
import struct
import sys

sys.path[1:1] = [f'{sys.path[0]}/../{it}' for it in ('.', 'lib')]
from fuzz_inputs import Inputs
from fuzz_traffic import ServicePacket, session_packet
from model.limits import LINE_ROOM

LONGEST, MOST_CUTS = 1_500, 150
# How many bytes of a payload a datagram of UDP has.
IN_DATAGRAM = 65_503


def library(rng):
    """Payloads without an end, with their ports."""
    inputs = Inputs(rng)
    while True:
        yield inputs.payload()


def values(rng):
    """The same, mostly of port 137."""
    inputs = Inputs(rng)
    while True:
        packet, *others = (ServicePacket(rng).made() for _ in range(9))
        yield from ((137, each[:LONGEST]) for each in (packet, others[0], *map(inputs.changed, others)))
        yield 137, struct.pack('>6H', 1, 0x8500, *[rng.randrange(3) for _ in range(4)]) + rng.randbytes(rng.randrange(80))
        yield 139, inputs.changed(session_packet(rng))[:LONGEST]
        for port, payload in (inputs.payload() for _ in range(4)):
            yield port, payload[:LONGEST]
        if len(packet) < MOST_CUTS and rng.random() < 0.1:
            yield from ((137, packet[:length]) for length in range(len(packet)))


def longest_name(is_netbios):
    """The spelling of the longest name as a text: bytes that are escaped, in as few labels as there can be."""
    front, rest = (b'\x20' + b'B' * 32, (63, 63, 63, 28)) if is_netbios else (b'', (63, 63, 63, 61))
    return front + b''.join(bytes([each]) + b'\x01' * each for each in rest) + b'\0'


def longest_phrases():
    """The payloads of which the longest phrases are said: where no name has more than 19 bytes, and where names have any length. Zeros
    follow up to the length of a capture's line."""
    name = bytes([32]) + b'EB' * 16 + b'\0'
    status = b'\xc0\x0c\0\x21\0\x01' + b'\xff' * 4 + (1 + 255 * 18).to_bytes(2, 'big') + b'\xff' + b'ABCDEFGHIJKLMNO \x80\0' * 255
    claim = bytes.fromhex('000178000001000000000004') + name + bytes.fromhex('00210001') + status * 4
    addresses = bytes.fromhex('000020000100000000') + (6 * 1_004).to_bytes(2, 'big') + b'\0\0\xff\xff\xff\xff' * 1_004
    redirect = bytes.fromhex('000180000000000100000001') + longest_name(False) + bytes.fromhex('000200010000000000ff') + longest_name(False) + addresses
    return [payload.ljust(LINE_ROOM, b'\0') for payload in (claim, redirect)]


def worst(_):
    """The longest phrases; a question with the longest name and as many pointers to it as there is room for; a datagram between the longest
    names; and a redirection of the longest name to a server of the longest name."""
    netbios = longest_name(True)
    yield from ((137, each) for each in longest_phrases())
    for name in (netbios, longest_name(False)):
        pointers = (IN_DATAGRAM - 12 - len(name) - 4) // 6
        header = b'\xff' * 4 + (1 + pointers).to_bytes(2, 'big') + bytes(6)
        yield 137, header + name + b'\0\x20\0\1' + b'\xc0\x0c\0\x20\0\1' * pointers
    yield 138, b'\x11\2\0\1' + b'\xff' * 6 + (2 * len(netbios)).to_bytes(2, 'big') + bytes(2) + netbios * 2
    yield 137, bytes.fromhex('000180000000000000010000') + netbios + b'\0\2\0\1' + b'\xff' * 4 + b'\0\xff' + netbios


def inputs(_):
    """The ports and the payloads of inputs, as tests/library/corpus.c cuts them."""
    for data in map(bytes.fromhex, sys.stdin.read().split()):
        while len(data) >= 3:
            end = 3 + int.from_bytes(data[1:3], 'big')
            yield (137, 138, 139, 'table')[data[0] % 4], data[3:end]
            data = data[end:]


def main():
    """Prints as many as are asked for."""
    parser = argparse.ArgumentParser()
    parser.add_argument('--seed', type=int, default=1)
    parser.add_argument('kind', choices=('library', 'values', 'worst', 'inputs'))
    parser.add_argument('count', type=int)
    words = parser.parse_args()
    for (port, payload), _ in zip(globals()[words.kind](random.Random(words.seed)), range(words.count)):
        print(port, payload.hex() or 'empty')


if __name__ == '__main__':
    main()
