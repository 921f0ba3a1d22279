"""The session packets, and the datagrams of UDP, that tshark makes of the segments and fragments of a random network, beside those that nbt-look
shows: each that both show is equal, with its frame, and where one shows more a rule says why."""
import collections
import ipaddress
import itertools
import subprocess

from random_traffic import HEADERS, SPACE, is_honest
from traffic_listed import ends_of, told_in, told_of

FIELDS = ('frame.number', 'frame.protocols', 'ip.src', 'ipv6.src', 'ip.dst', 'ipv6.dst', 'tcp.srcport', 'tcp.dstport', 'nbss.type', 'nbss.length', 'data.data',
          'udp.payload')
OPTIONS = 'tcp.reassemble_out_of_order:TRUE', 'tcp.check_checksum:FALSE', 'udp.check_checksum:FALSE'


def by_tshark(path):
    """Of each direction the packets in order, each with its frame, type, length, and data where it is a message; and the payload of each frame that
    has a datagram. What ICMP quotes is none."""
    words = ['tshark', '-n', '-r', path, '-T', 'fields', '-E', 'separator=/t', *(word for each in FIELDS for word in ('-e', each))]
    done = subprocess.run([*words, *(word for each in OPTIONS for word in ('-o', each))], capture_output=True, text=True, check=True)
    sessions, datagrams = collections.defaultdict(list), {}
    for row in (dict(zip(FIELDS, line.split('\t'))) for line in done.stdout.splitlines()):
        number = int(row['frame.number'])
        if 'icmp' in row['frame.protocols']:
            continue
        if row['nbss.type']:
            hosts = [str(ipaddress.ip_address(row['ip.' + each] or row['ipv6.' + each])) for each in ('src', 'dst')]
            sessions[*hosts, int(row['tcp.srcport']), int(row['tcp.dstport'])] += packets_of(number, row)
        elif row['udp.payload']:
            datagrams[number] = bytes.fromhex(row['udp.payload'].partition(',')[0])
    return sessions, datagrams


def packets_of(number, row):
    """The session packets of a row."""
    data = [each for each in row['data.data'].split(',') if each]
    for kind, length in zip(row['nbss.type'].split(','), map(int, row['nbss.length'].split(','))):
        is_said = int(kind, 0) == 0 and length and data
        yield number, int(kind, 0), length, data.pop(0) if is_said else ''


def sessions_apart(network, given, sessions):
    """Of each direction whether tshark shows the same packets, or by which rule others; and what is wrong where the rule doesn't say why."""
    ours, left_out = collections.defaultdict(list), set()
    for each in given:
        if 'left_out' in each:
            left_out.add(ends_of(each))
        elif each['port'] == 139:
            ours[ends_of(each)].append((each['frame'], HEADERS[each['kind']][0], each['used'] - 4, each.get('data', '')))
    for ends, lives in network.lives.items():
        one, other, segments = ours[ends], sessions[ends], network.segments[ends]
        is_whole = len(lives) == 1 and sum(4 + size for _, _, size, _ in one) == len(lives[0][1])
        if one == other:
            yield 'directions that are equal', ''
        elif ends in network.forged | network.doubtful:
            yield 'directions of which bytes came with other values: the first one counts', ''
        elif ends in left_out or not is_whole:
            yield 'directions with a gap, or without a start', ''
        elif ends in network.reset or len(network.lives.get((*ends[1::-1], *ends[:1:-1]), [])) > 1:
            yield 'directions of a connection that was reset, or whose other end began anew', ''
        elif sum(count for _, count in segments) > len(lives[0][1]):
            yield 'directions of which bytes came again', ''
        else:
            is_right = is_hard(segments, lives[0][0], one)
            yield ('directions out of order, with a header in two segments, or a message without data',
                   '' if is_right else f'{ends}: {str(one)[:200]}, and tshark has {str(other)[:200]}')


def is_hard(segments, first, packets):
    """Whether segments aren't in order, or one of the packets that stand from a number on is a message without data, or no segment has all of its
    header."""
    places = [(number - first) % SPACE for number, _ in segments]
    starts = itertools.accumulate((4 + size for _, _, size, _ in packets), initial=first)
    return places != sorted(places) or any((kind, size) == (0, 0) or all((start - number) % SPACE + 4 > count for number, count in segments)
               for start, (_, kind, size, _) in zip(starts, packets))


def datagrams_apart(network, given, datagrams):
    """The same of each packet of UDP in fragments."""
    ours = {each['frame']: each for each in given if each['port'] in (137, 138)}
    for key, pieces in network.pieces.items():
        here, there = ([(frame, found[frame]) for frame, *_ in pieces if frame in found][:1] for found in (ours, datagrams))
        port = next(port for port, _ in network.wholes[key])
        told = [(frame, told_of(port, payload)) for frame, payload in there] if port != 139 else []
        if [(frame, told_in(each)) for frame, each in here] == told:
            yield 'packets in fragments that are equal', ''
        elif not is_honest(network, key):
            yield 'packets of which fragments disagree', ''
        elif not all(is_whole for _, _, is_whole, _ in pieces):
            yield 'packets with a fragment that is cut', ''
        else:
            is_late = pieces[-1][1] - pieces[0][1] >= 60_000_000
            yield 'packets whose fragments lie 60 s apart', '' if is_late else f'{key}: {str(here)[:200]}, and tshark has {str(there)[:200]}'
