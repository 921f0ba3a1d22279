#!/usr/bin/env python3
"""What the plugin for Wireshark says of payloads, beside what nbt_brief says of them.

Usage: NBT_LIBRARY=FILE tests/plugin/plugin_phrases.py TSHARK FOLDER COUNT CONNECTIONS [SEED]

So many payloads of each port, good, changed and made by chance, each in a frame of its own, of port 139 in a connection of its own; and
so many connections to port 139, good to their end or up to bytes of no packet, cut into segments anywhere; segments come again, as they
were or cut otherwise, and their numbers pass 2**32. A packet is told where its last byte comes, and what it lacks where it begins; bytes
that came before say nothing. Phrases, faults and places have to be those of nbt_brief of each packet. Connections are read with TCP's own
joining of segments and without it, in one pass and in two. A case is a payload, or a connection in one of these ways; the last line is
'N passed, M failed'.
"""
import random
import re
import sys

sys.dont_write_bytecode = True
sys.path[1:1] = [f'{sys.path[0]}/../{it}' for it in ('.', 'captures', 'lib', '../bindings/python')]
import nbt
from fuzz_inputs import Inputs
from parts import tally
from plugin_files import packets
from plugin_pcap import datagram_frame, fields_of, segment_frame
from wire import SYN, pcap, spaced, written

REFUSED = re.compile(r'refused: (.*?)(?:, at byte (\d+)(?: of the name)?)?')
ONE_BY_ONE = ['-o', 'tcp.desegment_tcp_streams:FALSE']
# TCP then hands on also what it has seen before; where it joins segments too, it then loses some itself.
REPEATED = ['-o', 'tcp.analyze_sequence_numbers:FALSE']
WAYS = ([], ['-2'], ONE_BY_ONE, [*ONE_BY_ONE, '-2'], [*ONE_BY_ONE, *REPEATED])
LENGTHS = (1, 3, 30, 500, 1_400)


def payloads(rng, count):
    """So many payloads that came to each port. Wireshark hands no empty ones on."""
    inputs, found = Inputs(rng), {137: [], 138: [], 139: []}
    while any(len(each) < count for each in found.values()):
        port, payload = inputs.payload()
        if len(found[port]) < count and 0 < len(payload) < 60_000:
            found[port].append(payload)
    return found


class Stream:
    """A direction's bytes, and what is said where the first of them are at hand."""

    def __init__(self, data):
        self.data, self.ends = data, [0]
        while self.ends[-1] < len(data):
            try:
                self.ends.append(self.ends[-1] + nbt.SessionPacket.read(data, self.ends[-1]).used)
            except nbt.NbtError:
                self.ends.append(len(data))

    def told(self, before, after):
        """The phrases of a frame that brings the bytes from `before` to `after`."""
        found = []
        for start, end in zip(self.ends, self.ends[1:]):
            at_hand, had = self.data[start:min(end, after)], self.data[start:max(start, before)]
            if before < end and after > start:
                says, said = nbt.brief(139, at_hand), nbt.brief(139, had) if had else ''
                if said.startswith('refused'):
                    break
                if len(at_hand) == end - start or says.startswith('refused') or not had:
                    found.append(says)
        return found


def frames_of(rng, port, stream):
    """The frames of a connection, and what each says."""
    first, length = rng.choice((1, 2**32 - 50, rng.randrange(2**32))), max(rng.choice(LENGTHS), len(stream.data) // 200)
    found, at = [(segment_frame(port, first - 1, b'', SYN), [])], 0
    while at < len(stream.data):
        if at and rng.random() < 0.2:
            start = rng.randrange(max(0, at - 3_000), at)
            end = rng.randrange(start, at) + 1
            found.append((segment_frame(port, first + start, stream.data[start:end][:1_400]), []))
        size = max(1, min(length * rng.randrange(1, 4), 1_400))
        found.append((segment_frame(port, first + at, stream.data[at:at + size]), stream.told(at, min(at + size, len(stream.data)))))
        at += size
    return found


def fields_with(phrases):
    """What is wanted of the three fields."""
    faults = [match for match in map(REFUSED.fullmatch, phrases) if match]
    return [phrases, [match[1] for match in faults], [match[2] for match in faults if match[2]]]


def compared(tshark, path, cases, *words):
    """Each case, a name and frames with their phrases, and what is wrong with what is said of it."""
    written(path, pcap(spaced(frame for _, frames in cases for frame, _ in frames)))
    rows = fields_of(tshark, path, ['nbt.says', 'nbt.refused', 'nbt.place'], *words)
    print(f'{len(rows)} frames, {sum(len(row[1]) for row in rows)} refused, {sum(len(row[0]) for row in rows)} phrases')
    left = iter(rows)
    for name, frames in cases:
        wrong = [(row, wanted) for (_, phrases), row in zip(frames, left) if row != (wanted := fields_with(phrases))]
        yield f'{name} {" ".join(words)}', wrong and f'{wrong[0][0]}, not {wrong[0][1]}'
    yield from [(path, f'{len(rows)} rows')] * (len(rows) != sum(len(frames) for _, frames in cases))


def cases(tshark, folder, count, connections, seed='1'):
    """All cases."""
    for port, sent in payloads(random.Random(int(seed)), int(count)).items():
        frames = [(segment_frame(1_024 + number, 1, each) if port == 139 else datagram_frame(port, each),
                   Stream(each).told(0, len(each)) if port == 139 else [nbt.brief(port, each)]) for number, each in enumerate(sent)]
        yield from compared(tshark, f'{folder}/{port}.pcap', [(f'{port} {each.hex()}', [frame]) for each, frame in zip(sent, frames)])
    rng = random.Random('streams')
    streams = [frames_of(rng, 1_024 + number, Stream(b''.join(packets(rng, 70_000)))) for number in range(int(connections))]
    for words in WAYS:
        named = [(f'connection {number}', each) for number, each in enumerate(streams)]
        yield from compared(tshark, f'{folder}/streams.pcap', named, *words)


if __name__ == '__main__':
    sys.exit(tally(cases(*sys.argv[1:])))
