#!/usr/bin/env python3
"""Sessions of TCP, and packets that came in fragments of IP, as the program nbt-look of crates/nbt_look lists them: in random networks of which is
known what was sent, beside a slow model, beside tshark's reassembly; cases by hand; and what streams and fragments that never end take.

Usage: tests/look_traffic.py [PROGRAM [COUNT]], with COUNT random networks (60); its last line is 'N passed, M failed, K skipped'. A network that
fails is kept in the folder of temporary files, and named. tests/captures/random_traffic.py makes them, tests/model/traffic.py reads them.
"""
import collections
import itertools
import os
import random
import re
import shutil
import subprocess
import sys
import tempfile

sys.dont_write_bytecode = True
HERE = os.path.dirname(os.path.abspath(__file__))
sys.path[1:1] = [f'{HERE}/{it}' for it in ('lib', 'captures', 'bench', 'look', '.')]
from model.phrases import said
from bench_rows import least, processor_seconds
from endless import DIRECTIONS, PACKETS, ROOM, STREAMS, in_vain, waiting
from parts import check, equal, finish, part, skip
from random_traffic import HEADERS, SPACE, Network, is_honest
from reassembled import by_tshark, datagrams_apart, sessions_apart
from traffic_listed import counts_in, ends_of, listed, modelled, told_in, told_of, unfinished_of
from wire import ACK, ICMP, OTHER, QUERY, REQUEST, SHORT, SYN, TCP, ethernet, ip, pcap, sent, spaced, tcp, written

# Of how many conversations a random network is, and the one that tshark reads.
CONVERSATIONS, BESIDE_TSHARK = 12, 300
BYTES = re.compile(r', ([0-9]+) bytes?$')
FEWER = 'TCP: too many directions'
# How many times as much a piece past a gap may cost that is one of ten times as many, as it is measured.
MOST_TIMES = 1.5


def main():
    program = os.path.abspath(sys.argv[1] if sys.argv[1:] else f'{HERE}/../crates/nbt_look/out/nbt_look')
    count = int(sys.argv[2]) if sys.argv[2:] else 60
    with tempfile.TemporaryDirectory() as room:
        networks = [Network(random.Random(f'network {seed}'), CONVERSATIONS) for seed in range(count)]
        part('networks', lambda: in_networks(program, room, networks))
        if shutil.which('tshark'):
            part('tshark', lambda: beside_tshark(program, room))
        else:
            skip('tshark', "it isn't there")
        part('cases', lambda: by_hand(program, room))
        part('pieces', lambda: past_a_gap(program, room))
        part('endless', lambda: endless(program, room))
    return finish()


# ---- random networks

def in_networks(program, room, networks):
    for seed, network in enumerate(networks):
        path = written(f'{room}/network-{seed}.pcap', pcap(network.frames))
        given, counts = listed(program, path)
        wanted, wanted_counts = modelled(network.frames)
        wrong = [differing([*given, counts], [*wanted, wanted_counts]), *untrue(network, given, unfinished_of(counts))]
        kept = any(wrong) and shutil.copy(path, tempfile.gettempdir())
        for each in wrong:
            check(not each, f'{kept}: {each}')


def differing(given, wanted):
    """The first frame of which other things are listed."""
    for one, other in zip([*given, None], [*wanted, None]):
        if one != other:
            return f'{str(one)[:400]}, not {str(other)[:400]}'
    return ''


def untrue(network, given, unfinished):
    """Of the sessions, and of the packets in fragments, what is shown and wasn't sent, or is missing without a word."""
    yield next(untrue_sessions(network, given, unfinished[0]), '')
    yield next(untrue_datagrams(network, given, unfinished[1]), '')


def untrue_sessions(network, given, unfinished):
    packets, left_out, is_said, silent = collections.defaultdict(list), collections.Counter(), set(), []
    for each in given:
        if each['port'] == 139 and 'left_out' in each:
            is_said.add(ends_of(each))
            left_out[ends_of(each)] += sum(map(int, BYTES.findall(each['brief'])))
        elif each['port'] == 139:
            packets[ends_of(each)].append(each)
    for ends, captured in network.captured.items():
        lives = network.lives[ends]
        missing = next(not_in([run for life in lives for run in runs_of(*life)], packets[ends]), None)
        # A byte that keeps alive is taken for data where nothing after it came before.
        if missing and ends not in network.doubtful:
            yield f'nobody sent {str(missing)[:400]}'
        # Of bytes before the first one that is read nothing is said.
        came = sum((number - first) % SPACE < SPACE // 2 for first, known in lives for number in known)
        count = sum(each['used'] for each in packets[ends])
        if count + left_out[ends] > captured:
            yield f'{ends}: {count} bytes are shown, and {left_out[ends]} left out, of {captured}'
        if count < came and ends not in is_said:
            silent.append(ends)
    if len(silent) > unfinished:
        yield f'of {silent} bytes are missing without a word, and {unfinished} are said to be unfinished'


def runs_of(first, known):
    """The runs of bytes of a life, of which none is missing, in order."""
    runs, due = [], None
    for place, byte in sorted(((number - first) % SPACE, byte) for number, byte in known.items()):
        if place != due:
            runs.append(bytearray())
        runs[-1].append(byte)
        due = place + 1
    return runs


def not_in(runs, packets):
    """Those of the packets that don't stand in these runs, one after another."""
    number, at = 0, 0
    for each in packets:
        told = told_in(each)
        size, header = told['used'], HEADERS[told['kind']] + (told['used'] - 4).to_bytes(3, 'big')
        while number < len(runs):
            at = runs[number].find(header, at)
            if at < 0:
                number, at = number + 1, 0
            elif told_of(139, bytes(runs[number][at:at + size])) == told:
                at += size
                break
            else:
                at += 1
        else:
            yield each


def untrue_datagrams(network, given, unfinished):
    by_frame, silent = collections.defaultdict(list), 0
    for each in given:
        by_frame[each['frame']].append(each)
    for key, pieces in network.pieces.items():
        found = [each for frame, *_ in pieces for each in by_frame[frame]]
        silent += not found
        for each in found if is_honest(network, key) else []:
            told = [told_of(port, payload) for port, payload in network.wholes[key]]
            if 'left_out' not in each and told_in(each) not in told:
                yield f'nobody sent {str(each)[:400]}'
    if silent > unfinished:
        yield f'of {silent} packets of IP fragments are missing without a word, and {unfinished} are said to be unfinished'


# ---- beside tshark

def beside_tshark(program, room):
    """What tshark puts together: each session packet that both show, and each datagram, is equal, with its frame. What one shows alone falls under
    a rule: at the end stands how often each was needed."""
    network = Network(random.Random('tshark'), BESIDE_TSHARK, (None,))
    path = written(f'{room}/tshark.pcap', pcap(network.frames))
    given, _ = listed(program, path)
    sessions, datagrams = by_tshark(path)
    rules = collections.Counter()
    for rule, wrong in itertools.chain(sessions_apart(network, given, sessions), datagrams_apart(network, given, datagrams)):
        rules[rule] += 1
        check(not wrong, wrong)
    for rule, count in sorted(rules.items()):
        print(f'{count} beside tshark: {rule}')


# ---- cases by hand

def segment(place, data=b'', flags=ACK, first=1_000, cut=0):
    """A frame with bytes of a stream from this place on, of which the last ones aren't captured."""
    frame = ethernet(ip(TCP, tcp(1_025, 139, first + place, data, flags)))
    return frame, len(frame) - cut


def quoting(packet):
    """A frame with an error of ICMP that quotes a packet."""
    return ethernet(ip(ICMP, b'\3\3' + bytes(6) + packet)), None


OPENS, BOTH = segment(-1, flags=SYN), REQUEST + SHORT
GAP = 'left out: after a gap in TCP, %s'
WRAPS = 2**32 - 7
QUOTED = segment(0, SHORT + OTHER)[0][14:]
PIECES = [(ethernet(ip(TCP, tcp(1_025, 139, 1_000, SHORT)[at:at + 16], fragment=at // 8 | (at < 32) << 13, identifier=7)), None) for at in (0, 16, 32)]
# What frames are, and what is listed of each; then how many directions, and packets of IP, are unfinished.
CASES = (
    ('two packets in a frame, beside ICMP messages that quote them', [OPENS, segment(0, SHORT + OTHER), quoting(QUOTED), quoting(sent(137, QUERY))],
     [(2, SHORT), (2, OTHER)], (0, 0)),
    ('a keep-alive after a segment that was cut', [OPENS, segment(0, SHORT, cut=4), segment(13, b'x'), segment(14, OTHER)],
     [(2, GAP % '10 bytes'), (3, GAP % '1 byte'), (4, OTHER)], (0, 0)),
    ('a keep-alive after one that was cut and waits', [OPENS, segment(14, OTHER, cut=7), segment(26, b'x'), segment(0, SHORT), segment(14, OTHER)],
     [(4, SHORT), (5, OTHER)], (0, 0)),
    ('a keep-alive after the end', [OPENS, segment(0, SHORT), segment(13, b'x'), segment(14, OTHER)], [(2, SHORT), (4, OTHER)], (0, 0)),
    ('a byte alone that comes late', [OPENS, segment(0, SHORT[:5]), segment(6, SHORT[6:]), segment(5, SHORT[5:6])], [(4, SHORT)], (0, 0)),
    ('numbers that wrap', [segment(-1, flags=SYN, first=WRAPS), segment(40, BOTH[40:], first=WRAPS), segment(3, BOTH[3:40], first=WRAPS),
                           segment(0, BOTH[:4], first=WRAPS)], [(4, REQUEST), (4, SHORT)], (0, 0)),
    ('another SYN while bytes wait', [OPENS, segment(0, SHORT[:6]), segment(-1, flags=SYN, first=9_000), segment(0, OTHER, first=9_000)], [(4, OTHER)], (1, 0)),
    ('the same SYN while bytes wait', [OPENS, segment(0, SHORT[:6]), OPENS, segment(6, SHORT[6:])], [(4, SHORT)], (0, 0)),
    ('fragments of a segment', [OPENS, *PIECES[::-1]], [(4, SHORT)], (0, 0)),
    ('fragments of which the first is missing', [OPENS, *PIECES[1:]], [], (0, 1)))


def by_hand(program, room):
    for what, frames, wanted, unfinished in CASES:
        given, counts = listed(program, written(f'{room}/case.pcap', pcap([(number, *frame) for number, frame in enumerate(frames)])))
        phrases = [(number, text if isinstance(text, str) else said(139, text)) for number, text in wanted]
        equal(([(each['frame'], each['brief']) for each in given], unfinished_of(counts)), (phrases, unfinished), what)


# ---- time and memory

def past_a_gap(program, room):
    """Ten times as many pieces past a gap cost each as much."""
    few, many = (written(f'{room}/{count}.pcap', pcap(spaced(frame for stream in range(50_000 // count) for frame in waiting(stream, count))))
                 for count in (1_000, 10_000))
    for path, count in ((few, 1_000), (many, 10_000)):
        equal(sum(each['kind'] == 'keepalive' for each in listed(program, path)[0]), 50_000 // count * (count + 1), f'packets of {count} pieces')
    costs = [least(processor_seconds, [program, '-'], path) for path in (few, many)]
    check(costs[1] <= costs[0] * MOST_TIMES, f'10,000 pieces past a gap: {costs[1]:.3f} s, and {costs[0]:.3f} s of as many in ten streams')


def endless(program, room):
    """Streams that are half open, and fragments of packets that are never whole, of which more came than are kept."""
    path = f'{room}/endless.pcap'
    with open(path, 'wb') as file:
        in_vain(file)
    done = subprocess.run(['/usr/bin/time', '-f', '%M', '-o', f'{room}/peak', program, '--json', '--kind', 'conflict', path], stdout=subprocess.PIPE, check=True)
    os.remove(path)
    with open(f'{room}/peak', encoding='utf-8') as kept:
        peak = int(kept.read().split()[-1])
    check(peak <= ROOM, f'{peak} kB')
    counts = counts_in(done.stdout)
    equal(unfinished_of(counts), (DIRECTIONS, PACKETS), 'what lacks something')
    equal(counts['left_out'][FEWER], STREAMS - DIRECTIONS, FEWER)


if __name__ == '__main__':
    sys.exit(main())
