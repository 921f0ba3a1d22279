#!/usr/bin/env python3
"""Random networks through tools/nbt-look-tshark --summary, through the modules of the page, in node, and through a slow model of what is said of names.

Usage: tests/look/random_networks.py COUNT [SEED [PROGRAM]]: networks of the seeds SEED and on (1), with nbt on PATH for nbt-look-tshark, and
PROGRAM for the page. In a network stations claim, give up, look for and answer to a few names, and who makes it knows each packet: the rows of
these names are those of tests/model/said.py, in both programs. Among them are parts of the captures of tests/summary/, with stations exchanged,
other names, and other bits of headers, of every other network with bytes changed, and frames cut, left out, doubled and moved: both programs say
the same of all. The last line is 'N passed, M failed'; a capture that fails is kept in the folder of temporary files, and named.
"""
import os
import random
import re
import shutil
import struct
import sys
import tempfile
from dataclasses import replace

sys.dont_write_bytecode = True
sys.path[1:1] = [f'{sys.path[0]}/../{it}' for it in ('captures', 'lib', 'model')]
from parts import tally
import said
import summary
from wire import NB, NBSTAT, NS, NULL, TCP, UDP, Frames, first_level, pcap, record, service, written

PART = 10
UNREAD = 'not read here'         # what the page says alone
SNAPS = (None,) * 6 + (96, 110, 128)
TELLING = (0, 0x40, 0x80, 0xc0, 255)
# A MAC or an address whose station is one of some, and a name as it stands in a packet.
STATIONS = b'\x05\x06\x07\x08\x09'
STATION = re.compile(rb'(\x02\0\0\0\0|\x0a[\0\1]\0)([%s])' % STATIONS)
NAME = re.compile(rb'\x20[A-P]{32}\0')
# In a frame its protocol, its payload with UDP, and the last byte of an identifier, which flags follow.
PROTOCOL, PAYLOAD, HEADER = 23, 42, (43, 44, 44, 45, 45)
# The ports of TCP, and that of the service.
PORTS, SESSION = (34, 36), b'\0\x8b'
# The names of which each packet is known, who sends them, some from a second address, and where to.
KNOWN, ANY, ANYBODY = ('KITE<20>', 'LARK<00>', 'MOTH<1d>'), '*' + r'\00' * 14 + '<00>', first_level(b'*' + bytes(14), 0)
SENDERS, SERVER = ('10.0.0.5', '10.0.0.6', '10.0.0.7', '10.1.0.5'), '10.0.0.1'
TARGETS = (SERVER, SERVER, '10.0.0.255', '10.0.0.255', '10.1.0.255', '10.0.0.6')
# Flag words: of requests, those of queries last; what answers claims, releases and queries, without the operation.
CLAIMS, QUERIES = (0x2910, 0x2910, 0x2900, 0x2810, 0x2800, 0x7900, 0x7810, 0x4000, 0x4810, 0x3000, 0x3010, 0x3010), (0x0110, 0x0100, 0x0000, 0x0010)
ANSWERS = {'claim': (0x580, 0x580, 0x500, 0x586, 0x585, 0x583, 0x587, 0x589), 'release': (0x400, 0x400, 0x406, 0x405),
           'query': (0x500, 0x580, 0x583, 0x585, 0x587)}
# Of an exchange, what answers.
ORDERLY = (False, False, False, False, True, True, True)
DELAYS = (0, 1_000, 200_000, 2_000_000, 9_999_999, 10_000_000, 10_000_001, 12_345_678)
TABLES = {'names': (said.names, 13), 'several': (said.several, 14), 'refusals': (said.refusals, 8), 'queries that found nothing': (said.queries, 8)}
# Where the name, and after it the type, of the first item of a payload ends.
NAME_END, TYPE_END = 46, 48


class Story:
    """Packets about the known names, with their payloads and how much of each is in the file."""

    def __init__(self, rng):
        self.rng, self.at, self.sent = rng, 0, []

    def exchange(self):
        """A request, its repeats, and what comes back. Some of it isn't in the file."""
        rng, self.at = self.rng, self.at + self.rng.choice(DELAYS) * self.rng.choice((0, 1, 1, 40))
        who, target, name = rng.choice(SENDERS), rng.choice(TARGETS), rng.choice(KNOWN)
        word, kind = rng.choice(CLAIMS), NB
        if rng.random() < 0.45:
            word, kind, name = rng.choice(QUERIES), rng.choice((NB, NBSTAT)), rng.choice((name, name, ANY))
        asked = self.packet(who, target, name, word, kind, self.places(who) if word > 0x1000 else (), rng.randint(1, 3))
        for says in rng.choice((ORDERLY, ORDERLY, ORDERLY, rng.sample(ORDERLY, len(ORDERLY))))[rng.randint(0, 4):rng.randint(4, 7)]:
            self.at += rng.choice(DELAYS)
            self.answer(asked) if says else self.sends(asked)

    def answer(self, asked):
        rng = self.rng
        source = rng.choice((*SENDERS, SERVER, asked.target, asked.target)) if asked.target[-3:] != '255' else rng.choice((*SENDERS, SERVER))
        target, number = rng.choice((asked.source,) * 9 + SENDERS), rng.choice((asked.identifier,) * 9 + (2,))
        about = 'query' if asked.operation == 0 else 'release' if asked.operation == 6 else 'claim'
        word = 0x8000 | asked.operation << 11 | rng.choice(ANSWERS[about])
        kind, entries, more = NB, self.places(source), {}
        if rng.random() < 0.12:
            word, kind, entries, more = 0xbc00, NULL, (), {'waits_for': rng.choice((asked.operation, asked.operation, 0, 5, 6))}
        elif about == 'query' and asked.type == NBSTAT and rng.random() < 0.8:
            kind, entries = NBSTAT, ()
            flags = lambda: rng.choice((0, 0x8000)) | rng.choice((0x400, 0x400, 0xc00, 0))
            more, word = {'listed': tuple((each, flags()) for each in rng.sample(KNOWN, rng.randint(0, 3)))}, 0x8400
        elif about == 'query' and (word & 15 or rng.random() < 0.1):
            kind, entries = (NULL if word & 15 else NS), ()
        self.sends(self.packet(source, target, asked.name, word, kind, entries, number, **more))

    def packet(self, source, target, name, word, kind, entries, number, **more):
        mac = self.rng.choice((source,) * 12 + SENDERS).rpartition('.')[2]
        return said.Packet(0, 0, source, target, f'02:00:00:00:00:{int(mac):02x}', target.endswith('.255'), number, word, name, kind,
                           self.rng.choice((0, 60, 600, 300_000)) if entries else None, entries, **more)

    def places(self, source):
        """The entries of a record."""
        few = self.rng.choice(((source,),) * 5 + ((source, '10.1.0.5'), ('10.0.0.6',), ('10.0.0.6', '10.0.0.7'), ()))
        return tuple((self.rng.choice((0, 0, 0x8000)), each) for each in dict.fromkeys(few))

    def sends(self, packet):
        """Sends a packet, perhaps one that is cut or malformed."""
        payload = payload_of(packet)
        size = self.rng.choice((len(payload),) * 12 + (self.rng.randrange(NAME_END - 1, len(payload) + 1), NAME_END, TYPE_END))
        stands = {} if size == len(payload) else {'ttl': None, 'entries': (), 'listed': (), 'waits_for': None, 'name': packet.name if size >= NAME_END else None,
                                                  'type': packet.type if size >= TYPE_END else None}
        bad = bool(stands) and self.rng.random() < 0.3
        self.sent.append((replace(packet, at=self.at, malformed=bad, **stands), payload[:size] if bad else payload, size))


def payload_of(it):
    """The payload of a packet that is whole."""
    data = b''.join(struct.pack('>H', flags) + bytes(map(int, address.split('.'))) for flags, address in it.entries)
    if it.waits_for is not None:
        data = struct.pack('>H', it.waits_for << 11)
    elif it.type == NBSTAT and it.response:
        listed = (name[:-4].ljust(15).encode() + struct.pack('>BH', int(name[-3:-1], 16), flags) for name, flags in it.listed)
        data = bytes([len(it.listed)]) + b''.join(listed) + bytes(46)
    elif it.type == NS:
        data = b'\xc0\x0c'
    name = ANYBODY if it.name == ANY else first_level(it.name[:-4], int(it.name[-3:-1], 16))
    told = record(it.type, data, it.ttl or 0) if it.response or it.entries else b''
    payload = service(it.identifier, it.word, name, None if it.response else it.type, told)
    return payload[:6] + b'\0\0\0\1' + payload[10:] if it.type == NS else payload


def network(seed, captures):
    """The frames of a network, by the chances of a seed, and what is known of them."""
    rng = random.Random(f'network {seed}')
    story, known = Story(rng), Frames()
    for _ in range(rng.randint(6, 30)):
        story.exchange()
    for packet, payload, size in story.sent:
        ends = ((bytes(map(int, each.split('.'))), 137) for each in (packet.source, packet.target))
        known.add(packet.at / 1000, *ends, 137, payload, snap=PAYLOAD + size if size < len(payload) else None, mac=bytes([int(packet.mac[-2:], 16)]))
    # A sort that moves no equal ones; of one in a few networks the order isn't that of the times.
    late = rng.choice((0, 0, 0, 0.1))
    frames = sorted(enumerate(known.frames + others(seed, captures, rng)), key=lambda each: each[1][0] + (rng.random() < late) * 3_000_000)
    number, begin = {old: new for new, (old, _) in enumerate(frames, 1)}, frames[0][1][0]
    packets = [replace(packet, frame=number[old], at=packet.at - begin) for old, (packet, *_) in enumerate(story.sent)]
    return [each for _, each in frames], sorted(packets, key=lambda each: each.frame)


def others(seed, captures, rng):
    """Parts of captures."""
    frames, start = [], 0
    least, names = rng.choice(SNAPS), rng.sample(sorted({name for it in captures for _, data, _ in it for name in NAME.findall(data)} - {ANYBODY}), 3)
    for _ in range(rng.randint(0, 60)):
        capture = rng.choice(captures)
        first = rng.choice((0, rng.randrange(len(capture))))
        part = capture[first:first + rng.randint(1, 8)]
        start += rng.choice((0, 3, 245, 400, 3_000, 12_000, 400_000)) * 1_000 + rng.randint(0, 999)
        frames += [(start + at - part[0][0], data, snap or (least and min(least, len(data)))) for at, data, snap in moved(part, names, rng, seed)]
        start += rng.choice((0, max(part[-1][0] - part[0][0], 0)))
    frames.sort(key=lambda each: each[0])
    return list(changed(frames, rng)) if seed % 2 else frames


def moved(part, names, rng, seed):
    """Frames among other stations, perhaps, about these names, some with another bit of their headers; ports of clients are this network's."""
    others = dict(zip(STATIONS, rng.sample(STATIONS, len(STATIONS)) if rng.random() < 0.6 else STATIONS))
    named = {}
    for at, data, snap in part:
        data = STATION.sub(lambda it: it[1] + bytes([others[it[2][0]]]), data)
        data = bytearray(NAME.sub(lambda it: named.setdefault(it[0], rng.choice(names)), data))
        if data[PROTOCOL] == UDP and rng.random() < 0.08:
            data[rng.choice(HEADER)] ^= 1 << rng.randrange(8)
        for place in PORTS if data[PROTOCOL] == TCP else ():
            if data[place:place + 2] != SESSION:
                data[place] = (data[place] + seed) % 256
        yield at, bytes(data), snap


def changed(frames, rng):
    """The frames as nobody sends them."""
    for at, data, snap in rng.sample(frames, len(frames)) if rng.random() < 0.3 else frames:
        at = max(at + rng.choice((0,) * 30 + (rng.randint(-5_000_000, 5_000_000),)), 0)
        if rng.random() < 0.07:
            snap = rng.randint(20, len(data))
        elif rng.random() < 0.25 and len(data) > 54:
            data = bytearray(data)
            for _ in range(rng.choice((1, 1, 2, 5))):
                place = rng.randrange(PAYLOAD if data[PROTOCOL] == UDP else 54, len(data)) if len(data) > 55 else 54
                data[place] = rng.choice((data[place] ^ 1 << rng.randrange(8), rng.randrange(256), rng.choice(TELLING)))
        yield from [(at, bytes(data), snap)] * rng.choice((1,) * 24 + (0, 2))


def main():
    count, first = int(sys.argv[1]), int(sys.argv[2]) if sys.argv[2:] else 1
    program = summary.program_of(sys.argv[3:])
    captures = [summary.frames_of(each, program) for each in summary.cases()]
    networks = [network(seed, captures) for seed in range(first, first + count)]
    with tempfile.TemporaryDirectory() as folder:
        paths = [written(f'{folder}/{seed}.pcap', pcap(frames)) for seed, (frames, _) in enumerate(networks, first)]
        # Some at a time, since each time may take so long alone.
        by_page = [each for at in range(0, count, PART) for each in summary.shown_by_page(program, paths[at:at + PART])]
        by_tool = map(summary.shown_by_tool, paths, summary.rows_of_all([frames for frames, _ in networks], folder))
        return tally((path, difference(path, *tables, known)) for path, (_, known), *tables in zip(paths, networks, by_page, by_tool))


def difference(path, page, tool, known):
    """The tables that the page and the tool don't show alike, and those that aren't what is known; a capture of which something is different is kept."""
    wrong = [f'{each}: the page {page.get(each)}, nbt-look-tshark {tool.get(each)}' for each in sorted((page.keys() | tool.keys()) - {UNREAD})
             if page.get(each) != tool.get(each)]
    for title, (table, count) in TABLES.items():
        wanted, given = sorted(table(known)), sorted(filter(is_known, (tuple(row[at] for at in range(count)) for row in tool.get(title, []))))
        if given != wanted:
            wrong.append(f'{title}: {sorted(set(given) - set(wanted))}, not {sorted(set(wanted) - set(given))}')
    kept = wrong and shutil.copy(path, os.path.join(tempfile.gettempdir(), f'network-{os.path.basename(path)}'))
    return wrong and f'{kept}: ' + '; '.join(wrong)


def is_known(cells):
    return cells[0].removeprefix('! ') in (*KNOWN, ANY)


if __name__ == '__main__':
    sys.exit(main())
