#!/usr/bin/env python3
"""The program nbt-look of crates/nbt_look, beside tshark and the model of phrases, over captures; and what it says of files that end
early or are none.

Usage: tests/look_program.py [PROGRAM [CAPTURE..]]; without captures those of tests/captures and random ones, without which alone
what is said of other files is tried too. The last line is 'N passed, M failed, K skipped'. Where tshark isn't installed what it reads is left out.

tshark gives number, time, ends, ports and payload of each datagram of UDP (RFC 768) from or to port 137 or 138 that is neither in a
tunnel, nor a fragment of IP, nor quoted; tests/model says the phrase, and this script lays the line out. What is listed of fragments and
of port 139 of TCP other scripts hold. Whether a frame ends early is
known by its place in the file alone. A header of which the snap length left a part is left out by the program, whatever tshark reads of it.
"""
import datetime
import ipaddress
import itertools
import json
import os
import random
import re
import shutil
import struct
import subprocess
import sys
import tempfile

sys.dont_write_bytecode = True
HERE = os.path.dirname(os.path.abspath(__file__))
sys.path[1:1] = [f'{HERE}/{it}' for it in ('lib', 'captures', '.', '../tools')]
from model.objects import front_of, shown as packet_shown
from model.phrases import said
from nbt_look.kinds import kinds_of
from nbt_look.vocabulary import KINDS_OF
from parts import equal, finish, part, skip
from random_pcap import pcap_of
from wire import QUERY, RESPONSE, ethernet, pcap, sent, spaced, written

FIELDS = ('frame.number', 'frame.time_epoch', 'frame.interface_name', 'frame.interface_id', 'frame.len', 'frame.cap_len', 'frame.protocols',
          'ip.src', 'ip.dst', 'ipv6.src', 'ipv6.dst', 'ip.flags.mf', 'ip.frag_offset', 'ipv6.fraghdr.offset', 'ipv6.fraghdr.more', 'udp.srcport', 'udp.dstport',
          'udp.length', 'udp.checksum', 'udp.payload', 'tcp.srcport', 'tcp.dstport')
SERVICES = 137, 138
BILLION = 10**9
# A line of a packet; an address of the form that RFC 4291 section 2.5.5.1 gives up, which tshark writes with dots.
UTC_LINE = re.compile(rb' *[0-9]+ +([0-9]{4}-|-)')
COUNTS = re.compile(rb'[0-9]+ frames?, [0-9]+ packets?, ')
LINE, DOTTED = re.compile(r' *[0-9]+ +[-0-9]'), re.compile(r'::[0-9]+(\.[0-9]+){3}')
# An interface in a cell.
LABEL = re.compile(r'%\S+')


def main():
    program = os.path.abspath(sys.argv[1] if sys.argv[1:] else f'{HERE}/../crates/nbt_look/out/nbt_look')
    with tempfile.TemporaryDirectory() as room:
        if sys.argv[2:]:
            beside_tshark(program, sys.argv[2:])
            return finish()
        if shutil.which('tshark'):
            part('tshark', lambda: beside_tshark(program, captures(room)))
            part('filters', lambda: filters(program, captures(room)))
            part('kinds', lambda: kinds(program, captures(room)))
            part('objects', lambda: objects(program, captures(room)))
            part('colours', lambda: colours(program, captures(room)))
            part('merged', lambda: merged_beside_mergecap(program, room, captures(room)))
        else:
            skip('tshark', "it isn't there")
        part('several', lambda: several(program, room))
        part('prefixes', lambda: prefixes(program, room))
        part('others', lambda: others(program, room))
    return finish()


def captures(room):
    """The captures of the tests, and random ones."""
    subprocess.run([f'{HERE}/captures/look_captures.py', room], check=True)
    found = [f'{HERE}/../examples/{each}.pcap' for each in ('office', 'samba')]
    found += sorted(f'{room}/{each}' for each in os.listdir(room) if is_capture(f'{room}/{each}'))
    return found + [written(f'{room}/random-{seed}', pcap_of(random.Random(seed))) for seed in range(40)]


def is_capture(path):
    with open(path, 'rb') as file:
        return file.read(4) in (bytes.fromhex(each) for each in ('a1b2c3d4', 'd4c3b2a1', 'a1b23c4d', '4d3cb2a1', '0a0d0d0a'))


def run(program, path, data=None, words=()):
    return subprocess.run([program, *words, path], input=data, stdout=subprocess.PIPE, stderr=subprocess.PIPE, check=False)


# ---- beside tshark

def beside_tshark(program, paths):
    for each in paths:
        one_beside_tshark(program, each)


def one_beside_tshark(program, path):
    rows = tshark_rows(path)
    # tshark reads below tunnels, and what is quoted; of what is in none both have the same lines.
    left = {each['frame.number'] for each in rows if not is_plain(each)}
    given = [line for line in run(program, path).stdout.decode(errors='surrogateescape').splitlines() if LINE.match(line) and line.split()[0] not in left]
    lines, state = [], {'first': None, 'label': None, 'widths': [5, 9, 15, 15]}
    for row in rows:
        lines += line_of(row, state)
    squeezed = lambda texts: [' '.join(LABEL.sub('', each).split()) for each in texts]
    name = os.path.basename(path)
    given, lines = (given, lines) if not left else (squeezed(given), squeezed(lines))
    differing = [pair for pair in itertools.zip_longest(given, lines) if pair[0] != pair[1]]
    equal(differing[:1], [], name)


def tshark_rows(path):
    words = ['tshark', '-n', '-r', path, '-T', 'fields', '-E', 'separator=/t', *(word for each in FIELDS for word in ('-e', each))]
    for each in ('ip.defragment', 'ipv6.defragment', 'udp.check_checksum', 'tcp.desegment_tcp_streams'):
        words += ['-o', each + ':FALSE']
    done = subprocess.run(words, stdout=subprocess.PIPE, stderr=subprocess.DEVNULL, check=False)
    return [dict(zip(FIELDS, line.split('\t'))) for line in done.stdout.decode(errors='surrogateescape').splitlines()]


def is_plain(row):
    """Whether a frame has a packet of IP in no tunnel, or none, which is neither a fragment nor of port 139 of TCP."""
    if is_fragment(row) or '139' in (row['tcp.srcport'], row['tcp.dstport']):
        return False
    layers = row['frame.protocols'].split(':')
    return sum(each in ('ip', 'ipv6') for each in layers) <= 1 and not any(each.startswith('icmp') for each in layers) and ',' not in row['udp.srcport']


def line_of(row, state):
    """The line of a row, if there is one."""
    second, _, rest = row['frame.time_epoch'].partition('.')
    at = int(second) * BILLION + int(rest.ljust(9, '0')[:9]) if second else None
    if state['first'] is None:
        state['first'] = at
    if not is_plain(row):
        return []
    ports = [int(row[each] or 0) for each in ('udp.dstport', 'udp.srcport')]
    service = service_of(row)
    if service is None or not row['udp.checksum'] or int(row['udp.length']) < 8:
        return []
    phrase = phrase_of(row, service)
    name = row['frame.interface_name']
    label = ''.join(map(shown, name.encode(errors='surrogateescape'))) if name not in ('', 'unknown') else row['frame.interface_id']
    state['label'] = state['label'] or label
    source, target = (place(row['ip.' + each] or row['ipv6.' + each], port, service) for each, port in (('src', ports[1]), ('dst', ports[0])))
    cells = [row['frame.number'], '-' if at is None else since(at - state['first']), source + ('' if label == state['label'] else '%' + label), target]
    state['widths'] = [max(width, len(each)) for width, each in zip(state['widths'], cells)]
    number, time, start, end = state['widths']
    return ['%*s %*s %-*s %-*s %s' % (number, cells[0], time, cells[1], start, cells[2], end, cells[3], phrase)]


def shown(byte):
    return chr(byte) if 32 <= byte <= 126 else f'\\x{byte:02x}'


def is_fragment(row):
    """Whether a frame has a fragment of IP: one that begins at 0 and goes on nowhere is whole (RFC 6946)."""
    said = [each for key in ('ip.flags.mf', 'ip.frag_offset', 'ipv6.fraghdr.offset', 'ipv6.fraghdr.more') for each in row[key].split(',')]
    return any(each not in ('', '0', 'False') for each in said)


def phrase_of(row, service):
    payload, size = bytes.fromhex(row['udp.payload'].replace(':', '')), int(row['udp.length']) - 8
    captured, full = int(row['frame.cap_len']), int(row['frame.len'])
    if size <= len(payload):
        return said(service, payload[:size])
    if captured == full:
        return 'left out: a length that the packet lacks'
    if not payload:
        return f'left out: cut by the snap length, {captured} of {full} bytes'
    return f'cut: {len(payload)} of {size} bytes'


def place(address, port, service):
    if DOTTED.fullmatch(address):
        address = str(ipaddress.ip_address(address))
    if port == service:
        return address
    return f'[{address}]:{port}' if ':' in address else f'{address}:{port}'


def since(span):
    second, rest = divmod(abs(span), BILLION)
    return '%s%d.%06d' % ('-' if span < 0 else '', second, rest // 1000)


# ---- filters

def filters(program, paths):
    """What is shown of some hosts, networks and ports, beside tshark's fields; and of the first packets."""
    random_of = random.Random(7)
    for path in paths:
        rows = [each for each in tshark_rows(path) if is_plain(each)]
        shown_whole = shown_rows(program, path, [], rows)
        if not shown_whole:
            continue
        for _ in range(3):
            filtered(program, path, rows, shown_whole, random_of)
        named(program, path, rows, shown_whole, random_of)
        most = random_of.randint(1, len(shown_whole))
        lines = [each for each in run(program, path).stdout.splitlines() if LINE.match(each.decode(errors='surrogateescape'))]
        first = run(program, path, words=['-c', str(most)]).stdout.splitlines()[:most]
        equal(first, lines[:most], f'-c {most} of {os.path.basename(path)}')
        given = [each.decode(errors='surrogateescape').split()[:2] for each in run(program, path, words=['--time', 'utc']).stdout.splitlines() if UTC_LINE.match(each)]
        times = {each['frame.number']: each['frame.time_epoch'] for each in tshark_rows(path)}
        equal([at for _, at in given], [utc(times[number]) for number, _ in given], f'--time utc of {os.path.basename(path)}')


def named(program, path, rows, shown_whole, random_of):
    """Names of the file, whole or without their last byte, in any case: the frames whose payloads have them, by the model."""
    names = {each['frame.number']: names_of(each) for each in shown_whole}
    known = sorted(set().union(*names.values()))
    for name in random_of.sample(known, min(4, len(known))) + ['NO STATION']:
        word = random_of.choice([name, name.partition('<')[0] or name, name.swapcase()])
        wanted = [each['frame.number'] for each in shown_whole if any(is_meant(word, name) for name in names[each['frame.number']])]
        given = [each['frame.number'] for each in shown_rows(program, path, ['--name', word], rows)]
        equal(given, wanted, f'--name {word} of {os.path.basename(path)}')


def is_meant(word, name):
    return word.lower() in (name.lower(), name.partition('<')[0].lower())


def names_of(row):
    """The names in what stands of a row's payload."""
    payload, size = bytes.fromhex(row['udp.payload'].replace(':', '')), int(row['udp.length']) - 8
    return set(names_in([told(service_of(row), payload[:size]) for told in (packet_shown, front_of)]))


def names_in(told):
    """The texts under the names of members that are names."""
    if isinstance(told, list):
        for each in told:
            yield from names_in(each)
    elif isinstance(told, dict):
        for key, value in told.items():
            if key in ('name', 'source', 'destination', 'called', 'calling') and isinstance(value, str):
                yield value
            else:
                yield from names_in(value)


# ---- kinds, objects and colours

# The kinds of packets that are listed.
KIND_WORDS = ('query, status, registration, refresh, release, wack, response, conflict, datagram, unique, group, broadcast, fragment, error, find, found, '
              'missing, session, request, retarget, message, keepalive, positive, negative, malformed or left-out')
OUR_KINDS = [kind for kinds_there in KINDS_OF.values() for kind in kinds_there]


def kinds(program, paths):
    """What is shown of some kinds, beside the tool of tools/ over the model's objects."""
    random_of = random.Random(11)
    for path in paths:
        rows = [each for each in tshark_rows(path) if is_plain(each)]
        shown_whole = shown_rows(program, path, [], rows)
        if not shown_whole:
            continue
        known = {each['frame.number']: set(kinds_of(service_of(each), told_of(each))) for each in shown_whole}
        for words in [random_of.sample(OUR_KINDS, random_of.randint(1, 3)) for _ in range(4)] + [['malformed', 'left-out']]:
            wanted = [each for each, has in known.items() if has & set(words)]
            given = [each['frame.number'] for each in shown_rows(program, path, ['--kind', ','.join(words)], rows)]
            equal(given, wanted, f'--kind {",".join(words)} of {os.path.basename(path)}')


def told_of(row):
    """The object of a row's payload, with what still stands of it; none where no byte or not all of it is there."""
    payload, size, service = bytes.fromhex(row['udp.payload'].replace(':', '')), int(row['udp.length']) - 8, service_of(row)
    if size <= len(payload):
        return packet_shown(service, payload[:size]) | front_of(service, payload[:size])
    return {'cut': True} | front_of(service, payload)


def objects(program, paths):
    """The objects of --json, beside tshark's fields and the model's objects; and the counts."""
    for path in paths:
        rows = {each['frame.number']: each for each in tshark_rows(path) if is_plain(each)}
        done = run(program, path, words=['--json'])
        *given, counts = [json.loads(each) for each in done.stdout.splitlines()] or [None]
        lines = run(program, path, words=['--time', 'utc']).stdout.decode(errors='surrogateescape').splitlines()
        listed = [each for each in lines if LINE.match(each)]
        equal([each['frame'] for each in given], [int(each.split()[0]) for each in listed], f'--json of {os.path.basename(path)}')
        first = next((nanoseconds(each) for each in tshark_rows(path) if each['frame.time_epoch']), None)
        for each in given:
            if str(each['frame']) in rows:
                for own in ('vlans', 'from_mac', 'to_mac'):
                    del each[own]
                equal(each, object_of(rows[str(each['frame'])], first), f'frame {each["frame"]} of {os.path.basename(path)}')
        if counts:
            words = [f'{counts["frames"]} frame', f'{counts["packets"]} packet', f'{counts["malformed"]} malformed']
            line = next(each for each in lines if COUNTS.match(each.encode(errors='surrogateescape')))
            equal([word in line for word in words] + [sum(each['frames'] for each in counts['left_out'])],
                  [True] * 3 + [int(line.split(' left out')[0].rsplit(' ', 1)[1])], f'the counts of {os.path.basename(path)}')
            quiet = run(program, path, words=['--json', '--quiet']).stdout.splitlines()
            equal(quiet, done.stdout.splitlines()[:-1], f'--quiet of {os.path.basename(path)}')


def nanoseconds(row):
    second, _, rest = row['frame.time_epoch'].partition('.')
    return int(second) * BILLION + int(rest.ljust(9, '0')[:9])


def object_of(row, first):
    """The object of a row, but for what tshark's fields don't say: VLANs and hardware addresses, which are the program's own."""
    service, size, payload = service_of(row), int(row['udp.length']) - 8, bytes.fromhex(row['udp.payload'].replace(':', ''))
    name, phrase = row['frame.interface_name'], phrase_of(row, service)
    ends = [str(ipaddress.ip_address(row['ip.' + each] or row['ipv6.' + each])) for each in ('src', 'dst')]
    told = told_of(row)
    if told.pop('cut', False):
        captured, full = int(row['frame.cap_len']), int(row['frame.len'])
        if captured == full:
            told = {'left_out': 'a length that the packet lacks'}
        elif not payload:
            told = {'left_out': 'cut by the snap length'}
        else:
            told = {'cut': size} | packet_shown(service, payload) | front_of(service, payload)
    return {
        'frame': int(row['frame.number']), 'time': utc(row['frame.time_epoch']), 'from': ends[0], 'to': ends[1],
        'source_port': int(row['udp.srcport']) or None, 'target_port': int(row['udp.dstport']) or None,
        'interface': ''.join(map(shown, name.encode(errors='surrogateescape'))) if name not in ('', 'unknown') else None,
        'size': int(row['frame.len']), 'captured': int(row['frame.cap_len']), 'port': service,
        'moment': max(nanoseconds(row) - first, 0) // 10**6, 'brief': phrase} | told


SGR = re.compile(r'\x1b\[(?:31|33|35)m(.*)\x1b\[0m')


def colours(program, paths):
    """Lines in colours are the same but for these; without a terminal there are none."""
    for path in paths[:8]:
        plain, always = (run(program, path, words=words).stdout.decode(errors='surrogateescape') for words in ([], ['--color', 'always']))
        equal([SGR.sub(r'\1', each) for each in always.splitlines()], plain.splitlines(), f'--color always of {os.path.basename(path)}')
        red = [SGR.sub(r'\1', each) for each in always.splitlines() if each.startswith('\x1b[31m')]
        equal(red, [each for each in plain.splitlines() if LINE.match(each) and ' refused: ' in each], f'what is red of {os.path.basename(path)}')
        equal(run(program, path, words=['--color', 'never']).stdout.decode(errors='surrogateescape'), plain, f'--color never of {os.path.basename(path)}')


def utc(epoch):
    """The date and time of day at a time in seconds since 1970, as tshark writes them."""
    second, _, rest = epoch.partition('.')
    moment = datetime.datetime(1970, 1, 1) + datetime.timedelta(seconds=int(second))
    return f"{moment:%Y-%m-%dT%H:%M:%S}.{rest.ljust(6, '0')[:6]}Z"


def filtered(program, path, rows, shown_whole, random_of):
    """Some words for --host and --port, of what the file has or not."""
    row = random_of.choice(shown_whole)
    ends = [row['ip.src'] or row['ipv6.src'], row['ip.dst'] or row['ipv6.dst']]
    hosts = [network_of(random_of.choice(ends), random_of) for _ in range(random_of.randrange(3))]
    ports = [random_of.choice([row['udp.srcport'], row['udp.dstport'], '137', '138', '9']) for _ in range(random_of.randrange(2 + (not hosts)))]
    words = [word for each in hosts for word in ('--host', each)] + [word for each in ports for word in ('--port', each)]
    wanted = [each['frame.number'] for each in shown_whole if is_wanted(each, hosts, ports)]
    given = [each['frame.number'] for each in shown_rows(program, path, words, rows)]
    equal(given, wanted, f"{' '.join(words)} of {os.path.basename(path)}")
    lines = run(program, path, words=words).stdout.splitlines()
    counts = [each for each in lines if COUNTS.match(each)]
    shown = sum(bool(LINE.match(each.decode(errors='surrogateescape'))) for each in lines)
    equal([each.partition(b'; ')[2] for each in counts], [b'%d shown' % shown if words else b''], f"the counts of {' '.join(words)}")


def network_of(address, random_of):
    """An address, or a network that it is in."""
    whole = ipaddress.ip_address(address)
    return address if random_of.random() < .4 else f'{whole}/{random_of.randint(0, whole.max_prefixlen)}'


def is_wanted(row, hosts, ports):
    ends = [ipaddress.ip_address(each) for each in (row['ip.src'] or row['ipv6.src'], row['ip.dst'] or row['ipv6.dst'])]
    networks = [ipaddress.ip_network(each, strict=False) for each in hosts]
    is_between = not networks or any(end in network for end in ends for network in networks)
    numbers = {row['udp.srcport'], row['udp.dstport'], str(service_of(row))}
    return is_between and (not ports or bool(numbers & set(ports)))


def service_of(row):
    return next((each for each in (int(row['udp.dstport'] or 0), int(row['udp.srcport'] or 0)) if each in SERVICES), None)


def shown_rows(program, path, words, rows):
    """The rows of the frames that have a line."""
    lines = run(program, path, words=words).stdout.decode(errors='surrogateescape').splitlines()
    numbers = {each.split()[0] for each in lines if LINE.match(each)}
    return [each for each in rows if each['frame.number'] in numbers]


# ---- several files

def merged_beside_mergecap(program, room, paths):
    """Two or three files: the lines of what mergecap makes of them. Where an interface has no name, its number in its own file is shown, whatever
    mergecap makes of it."""
    random_of = random.Random(11)
    for number in range(40):
        chosen = [random_of.choice(paths) for _ in range(random_of.choice((2, 2, 3)))]
        whole = f'{room}/merged-{number}'
        done = subprocess.run(['mergecap', '-F', 'pcapng', '-w', whole, *chosen], stderr=subprocess.DEVNULL, check=False)
        if done.returncode:
            continue
        given, wanted = (unmarked(run(program, each[-1], words=each[:-1])) for each in (chosen, [whole]))
        equal(given, wanted, ' '.join(map(os.path.basename, chosen)))


def unmarked(done):
    """The words of each line but the last ones, without what interfaces are called."""
    lines = done.stdout.decode(errors='surrogateescape').splitlines()
    return [' '.join(LABEL.sub('', each).split()) for each in lines if LINE.match(each)], [each for each in lines if COUNTS.match(each.encode(errors='replace'))]


def several(program, room):
    """Files side by side: whose turn it is where times are equal; one that is cut, or none, among good ones; what can't be opened."""
    frame = ethernet(sent(137, QUERY))
    other = ethernet(sent(137, RESPONSE))
    one, two = (written(f'{room}/{name}', pcap([(second * 1_000_000, each, None) for second in seconds])) for name, each, seconds in (
        ('one', frame, (1, 2, 2, 4)), ('two', other, (2, 3))))
    said_of = lambda *words: [each.split()[4:] for each in run(program, words[-1], words=words[:-1]).stdout.decode().splitlines()[:-1]]
    query, response = said_of(one)[0], said_of(two)[0]
    equal(said_of(one, two), [query, response, query, query, response, query], 'of two times that are equal the later file')
    equal(said_of(two, one), [query, query, query, response, response, query], 'the same in the other order')
    equal(said_of('-r', one, '-r', two), said_of(one, two), '-r')
    cut = written(f'{room}/cut', pcap([(second * 1_000_000, other, None) for second in (2, 3)])[:-1])
    for words in ([one, cut, two], [cut, two, one]):
        done = run(program, words[-1], words=words[:-1])
        equal((done.stdout.splitlines()[-1], done.stderr, done.returncode), (
            b'7 frames, 7 packets, 0 malformed, 0 left out', f'nbt-look: {cut}: cut at byte {24 + 16 + len(other)}, after frame 1\n'.encode(), 1), words)
    empty = written(f'{room}/nothing', b'')
    done = run(program, empty, words=[cut, one])
    equal((len(done.stderr.splitlines()), done.stdout.splitlines()[-1][:8], done.returncode), (2, b'5 frames', 1), 'two faults')
    for words, text, status in (([one, f'{room}/absent'], 'there is no file of this name', 3), ([one, '-'], 'several files are read by their names', 2)):
        done = run(program, words[-1], words=words[:-1])
        equal((done.stdout, text in done.stderr.decode(), done.returncode), (b'', True, status), words)
    equal(len(run(program, two, words=['-c', '3', one]).stdout.splitlines()), 4, '-c 3 of two files')


# ---- files that end early, or are none

FRAMES = pcap(spaced(ethernet(sent(137, each)) for each in (QUERY, RESPONSE, QUERY)))


def prefixes(program, room):
    """Each prefix of a file: the lines of the frames that stand in it, and the byte at which the rest begins."""
    ends, at = [24], 24
    while at < len(FRAMES):
        at += 16 + struct.unpack_from('<L', FRAMES, at + 8)[0]
        ends.append(at)
    whole = run(program, '-', FRAMES).stdout.decode().splitlines()
    for size in range(1, len(FRAMES)):
        done = run(program, written(f'{room}/prefix', FRAMES[:size]))
        frames = sum(each <= size for each in ends[1:])
        begun = max((each for each in ends if each <= size), default=0)
        if size in ends:
            wanted = b'', 0
        else:
            wanted = f'nbt-look: {room}/prefix: cut at byte {begun}, after frame {frames}\n'.encode(), 1
        equal((done.stderr, done.returncode), wanted, f'{size} bytes')
        equal(done.stdout.decode().splitlines()[:frames], whole[:frames], f'the lines of {size} bytes')


def others(program, room):
    """What is no capture, and what can't be opened."""
    words = b'nbt-look: %s: '
    bad = FRAMES[:32] + struct.pack('<L', 262_145) + FRAMES[36:]
    for name, data, text, status in (
            ('empty', b'', b'it is empty, and a capture file has a header: capture anew', 1),
            ('gzip', b'\x1f\x8b\x08' + bytes(20), b'it is compressed by gzip: zcat FILE | nbt-look - reads it', 1),
            ('text', b'137 0 00\n' * 10, b'neither pcap nor pcapng: give what tcpdump -w or Wireshark wrote; nbt show reads captures as text', 1),
            ('long', bad, b'too long a frame or block at byte 24, after frame 0', 1)):
        path = written(f'{room}/{name}', data)
        done = run(program, path)
        equal((done.stderr, done.returncode), (words % path.encode() + text + b'\n', status), name)
    for path, text in ((f'{room}/absent', b'there is no file of this name'), (room, b'it is a directory: give a file of it')):
        done = run(program, path)
        equal((done.stdout, done.stderr, done.returncode), (b'', words % path.encode() + text + b'\n', 3), path)
    with open(f'{HERE}/../CHANGELOG.md', encoding='utf-8') as file:
        version = re.search(r'^## ([0-9.]+),', file.read(), re.MULTILINE)[1]
    equal(run(program, '--version').stdout.decode(), f'nbt-look {version}\n', 'the version of CHANGELOG.md')
    for given in ([], ['--frobnicate', '-']):
        done = subprocess.run([program, *given], stdin=subprocess.DEVNULL, stdout=subprocess.PIPE, stderr=subprocess.PIPE, check=False)
        equal((done.stdout, done.returncode, bool(done.stderr)), (b'', 2, True), given)
    for given in ('10.0.0', '10.0.0.0/33', '::/129', '10.0.0.0/', 'fred'):
        done = run(program, '-', FRAMES, ['--host', given])
        said_so = f'nbt-look: {given}: no address: give one such as 10.0.0.5, or a network as 10.0.0.0/8\n'.encode()
        equal((done.stdout, done.stderr, done.returncode), (b'', said_so, 2), given)
    done = run(program, '-', FRAMES, ['--time', 'local'])
    said_so = b'nbt-look: local: no way to show times: give start, or utc\n'
    equal((done.stdout, done.stderr, done.returncode), (b'', said_so, 2), '--time local')
    for given in ('queries', 'query,'):
        done = run(program, '-', FRAMES, ['--kind', given])
        said_so = f"nbt-look: {given.split(',')[-1]}: no kind: give {KIND_WORDS}\n".encode()
        equal((done.stdout, done.stderr, done.returncode), (b'', said_so, 2), f'--kind {given}')
    done = run(program, '-', FRAMES, ['--color', 'red'])
    said_so = b'nbt-look: red: no way to choose colours: give auto, always, or never\n'
    equal((done.stdout, done.stderr, done.returncode), (b'', said_so, 2), '--color red')
    full = subprocess.run([program, '-'], input=FRAMES, stdout=open('/dev/full', 'wb'), stderr=subprocess.PIPE, check=False)
    equal((full.stderr, full.returncode), (b"nbt-look: standard output can't be written\n", 3), 'a full device')
    live(program)


def live(program):
    """A line is there once its packet came, however the bytes come."""
    child = subprocess.Popen([program, '-'], stdin=subprocess.PIPE, stdout=subprocess.PIPE)
    second = 24 + 16 + len(ethernet(sent(137, QUERY)))
    for each in FRAMES[:second]:
        child.stdin.write(bytes([each]))
        child.stdin.flush()
    equal(child.stdout.readline().split()[:2], [b'1', b'0.000000'], 'the first line of a pipe')
    rest, _ = child.communicate(FRAMES[second:])
    equal(rest.splitlines()[-1], b'3 frames, 3 packets, 0 malformed, 0 left out', 'the last line of a pipe')


if __name__ == '__main__':
    sys.exit(main())
