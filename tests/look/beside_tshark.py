#!/usr/bin/env python3
"""Captures through tools/nbt-look-tshark, whose last lines count what it prints, and files beside the fields of tshark too.

Usage: tests/look/beside_tshark.py COUNT [SEED], or .. FILE..

Random captures are those of tests/captures/random_pcap.py, ten in a file: datagrams, fragments of IP and TCP streams as networks deliver
them, below VLAN tags, with snap lengths. What the last lines count adds up.

Of each frame of a file the packets are those that tshark dissects: nbns by the number and the word of its header, nbdgm by its kind and
number, nbss by its type and length. Of a packet that is refused their count alone is compared; a frame of which something is left out,
with a reason, may differ; of a packet that is cut the header is the same, where it stands. What ICMP quotes is no packet, and for tshark
neither is a payload of no bytes. The last line is 'N passed, M failed'; a random capture that fails is kept in the folder of temporary
files, and named.
"""
import collections
import json
import re
import subprocess
import sys
import tempfile

sys.dont_write_bytecode = True
sys.path[1:1] = [f'{sys.path[0]}/../{it}' for it in ('captures', 'lib')]
from parts import tally
from random_pcap import pcap_of
from seeds import compared
from wire import written

TOOLS = f'{sys.path[0]}/../../tools'
FIELDS = ('frame.number', 'frame.protocols', 'nbns.id', 'nbns.flags', 'nbdgm.type', 'nbdgm.dgram_id', 'nbss.type', 'nbss.length')
WANTED = '(nbss.type || frame.protocols matches ":(nbns|nbdgm)(:|$)") && !icmp && !icmpv6'
SESSION_TYPES = {'message': 0x00, 'request': 0x81, 'positive': 0x82, 'negative': 0x83, 'retarget': 0x84, 'keepalive': 0x85}
DATAGRAM_TYPES = {'unique': 0x10, 'group': 0x11, 'broadcast': 0x12, 'error': 0x13, 'find': 0x14, 'found': 0x15, 'missing': 0x16}
REFUSED, EMPTY = None, 'truncated 0'


def main():
    if sys.argv[1].endswith('.pcap'):
        return tally((path, first_difference(path, unlike_tshark)) for path in sys.argv[1:])
    return compared('looks', ten, first_difference)


def ten(rng):
    """Random captures, one after the other in a file."""
    with tempfile.TemporaryDirectory() as folder:
        paths = [written(f'{folder}/{number}.pcap', pcap_of(rng)) for number in range(10)]
        return subprocess.run(['mergecap', '-a', '-F', 'pcapng', '-w', '-', *paths], stdout=subprocess.PIPE, check=True).stdout


def first_difference(path, beside=lambda path, objects: ''):
    """What the tool shows of a capture that the others don't find, or the other way round."""
    done = run(f'{TOOLS}/nbt-look-tshark', '--json', path)
    objects = [json.loads(line, object_pairs_hook=members) for line in done.stdout.splitlines()]
    packets = [each for each in objects if 'left_out' not in each and 'cut' not in each]
    return beside(path, objects) or miscounted(done.stderr, objects, packets)


def members(pairs):
    """An object of JSON: no two of its members have one name, and flags are a text."""
    found = dict(pairs)
    assert len(found) == len(pairs) and isinstance(found.get('flags', ''), str), pairs
    return found


def unlike_tshark(path, objects):
    """The first frame of which tshark has other packets."""
    theirs, ours = found_by_tshark(path), collections.defaultdict(list)
    left_out = {each['frame'] for each in objects if 'left_out' in each or 'cut' in each}
    for each in objects:
        found = theirs.get((each['frame'], each.get('port')), [])
        if 'cut' in each:
            if ('id' in each or 'kind' in each) and found and said(each) not in (REFUSED, *found):
                return f'a cut packet: {each}, and tshark has {found}'
        elif 'left_out' not in each and each.get('refused') != EMPTY:
            ours[each['frame'], each['port']].append(said(each))
    for key in sorted(ours.keys() | theirs.keys()):
        one, other = ours.get(key, []), theirs.get(key, [])
        if key[0] not in left_out and (len(one) != len(other) or not all(each in (REFUSED, its) for each, its in zip(one, other))):
            return 'frame %d, port %d: %s, and tshark has %s' % (*key, one, other)
    return ''


def said(packet):
    """What both say of a packet, by its object of JSON."""
    if 'refused' in packet:
        return REFUSED
    if packet['port'] == 137:
        return int(packet['id'], 16), int(packet['word'], 16)
    if packet['port'] == 138:
        return DATAGRAM_TYPES[packet['kind']], int(packet['key'].rpartition('/')[2], 16)
    return SESSION_TYPES[packet['kind']], packet['used'] - 4


def found_by_tshark(path):
    """The packets of each frame and service."""
    rows = run('tshark', '-n', '-r', path, '-Y', WANTED, '-T', 'fields', *(f'-e{each}' for each in FIELDS)).stdout
    found = {}
    for line in rows.splitlines():
        number, protocols, *values = line.split('\t')
        protocols = protocols.split(':')
        parted = ((137, 'nbns' in protocols, values[:2]), (138, 'nbdgm' in protocols, values[2:4]), (139, values[4], values[4:]))
        for service, is_there, pair in parted:
            if is_there:
                found[int(number), service] = list(zip(*([int(it, 0) if it else None for it in each.split(',')] for each in pair)))
    return found


def miscounted(summary, objects, packets):
    """What the last lines of the tool count otherwise than its objects do."""
    found = re.fullmatch(r'(\d+) frames?, (\d+) packets?, (\d+) malformed, (\d+) left out(?:: (.*))?', summary.splitlines()[0])
    frames, *counts = map(int, found.groups()[:4])
    wanted = [len(packets), sum('refused' in each for each in packets), len(objects) - len(packets)]
    if counts != wanted:
        return f'{summary.strip()}, not {wanted}'
    without = re.search(r'^(\d+) frames? without a packet: (.*)$', summary, re.MULTILINE)
    missing = [frames - len({each['frame'] for each in objects})] * 2 if packets else []
    sums = [int(without[1]), sum(int(each.split()[0]) for each in without[2].split(', '))] if without else missing and [0, 0]
    return '' if not packets or sums == missing else f'{summary.strip()}, not {missing[0]} frames without a packet'


def run(*words):
    return subprocess.run(words, capture_output=True, text=True, timeout=120, check=False)


if __name__ == '__main__':
    sys.exit(main())
