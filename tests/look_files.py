#!/usr/bin/env python3
"""Capture files of all sorts through the program nbt-look of crates/nbt_look: beside tshark, beside the page's reader, cut at each byte, read in
small pieces, with each request for memory and each read refused, and with lengths that no file has.

Usage: tests/look_files.py [PROGRAM [COUNT]], with COUNT random files, and as many that were changed after (60); its last line is 'N passed, M failed,
K skipped'. tests/captures/random_files.py makes them. Where several programs read a file that isn't whole, what one of them refuses isn't
compared: at the end stands why, and of how many files. What tshark or node has to read is left out where they aren't there.
"""
import collections
import contextlib
import itertools
import json
import os
import random
import re
import shutil
import struct
import subprocess
import sys
import tempfile

sys.dont_write_bytecode = True
HERE = os.path.dirname(os.path.abspath(__file__))
sys.path[1:1] = [f'{HERE}/{it}' for it in ('lib', 'captures', '.')]
import random_files
from bundled import bundled
from every_request import tried
from look_program import BILLION, COUNTS, FRAMES, LABEL, LINE, is_plain, line_of, run, tshark_rows
from parts import check, equal, finish, part, skip
from random_files import PACKET, SIMPLE_PACKET, block, changed, file_of, option, parts_of
from served import Program, Run, Served, compiled
from wire import QUERY, ethernet, interface, pcap_header, section, sent, written

SECTION_TYPE = section()[:4]
SIZES = 1, 7, 4_095, 4_096
# The most memory of a run, in kB, with the two MB of GNU time; and where a file describes as many interfaces as it may, with names.
ROOM, DESCRIBED = 8_000, 32_000
UNKNOWN = 'neither pcap nor pcapng: give what tcpdump -w or Wireshark wrote; nbt show reads captures as text'


def main():
    program = os.path.abspath(sys.argv[1] if sys.argv[1:] else f'{HERE}/../crates/nbt_look/out/nbt_look')
    count = int(sys.argv[2]) if sys.argv[2:] else 60
    with tempfile.TemporaryDirectory() as room:
        paths = list(files(room, count))
        if shutil.which('tshark'):
            part('tshark', lambda: beside_tshark(program, paths))
        else:
            skip('tshark', "it isn't there")
        if shutil.which('node') and shutil.which('esbuild'):
            part('page', lambda: beside_page(program, room, paths))
        else:
            skip('page', "node or esbuild isn't there")
        part('prefixes', lambda: prefixes(program, room))
        part('reads', lambda: reads(program, room))
        part('memory', lambda: memory(program, room))
        part('faults', lambda: faults(program, room))
        part('hostile', lambda: hostile(program, room))
    return finish()


def files(room, count):
    """Random files, and such with bytes changed."""
    for seed in range(count):
        yield written(f'{room}/random-{seed}', file_of(random.Random(seed)))
    for seed in range(count):
        rng = random.Random(f'changed {seed}')
        yield written(f'{room}/changed-{seed}', changed(rng, file_of(rng)))


# ---- beside other readers

class Listed:
    """What the program prints of a file: its lines, by the numbers of their frames, and how many frames it read."""

    def __init__(self, program, path):
        done = run(program, path)
        text = done.stdout.decode(errors='surrogateescape').splitlines()
        self.lines = {int(line.split()[0]): line for line in text if LINE.match(line)}
        self.frames = next((int(line.split()[0]) for line in text if COUNTS.match(line.encode())), 0)
        self.why = done.stderr.decode(errors='surrogateescape').partition(f'{path}: ')[2].strip()


def compared(listed, wanted, most, what, labels=False):
    """Holds the lines of the first frames, their columns squeezed, beside others, with or without the names of interfaces."""
    squeezed = lambda line: ' '.join((line if labels else LABEL.sub('', line)).split())
    given = {number: squeezed(line) for number, line in listed.lines.items() if number <= most}
    wanted = {number: squeezed(line) for number, line in wanted.items() if number <= most}
    differing = [(given.get(each), wanted.get(each)) for each in sorted(given.keys() | wanted.keys()) if given.get(each) != wanted.get(each)]
    equal(differing[:1], [], what)


def beside_tshark(program, paths):
    apart = collections.Counter()
    for path in paths:
        rows, listed = tshark_rows(path), Listed(program, path)
        # Raw IP of a version that its link type doesn't name: tshark reads none of it.
        plain = [each for each in rows if is_plain(each) and each['frame.protocols'] != 'raw:data']
        state = {'first': None, 'label': None, 'widths': [5, 9, 15, 15]}
        wanted = {int(each['frame.number']): line for each in rows for line in line_of(each, state)}
        others = {int(each['frame.number']) for each in rows} - {int(each['frame.number']) for each in plain}
        listed.lines = {number: line for number, line in listed.lines.items() if number not in others}
        # tshark numbers the interfaces of each section anew.
        compared(listed, wanted, min(listed.frames, len(rows)), f'{os.path.basename(path)} by tshark', labels=has_one_section(path) and not others)
        if listed.frames != len(rows):
            apart[('nbt-look: ' + re.sub('[0-9]+', 'N', listed.why)) if listed.frames < len(rows) else 'tshark'] += 1
    told(apart)


def has_one_section(path):
    with open(path, 'rb') as file:
        return file.read().count(SECTION_TYPE) < 2


def beside_page(program, room, paths):
    """The same by the reader of the page, of which this takes datagrams alone."""
    subprocess.run([f'{HERE}/../tools/lists.py', '--made'], check=True)
    script, = bundled(room, 'datagrams.mjs')
    names = written(f'{room}/names', '\n'.join(paths).encode())
    done = subprocess.run(['node', script, names], stdout=subprocess.PIPE, check=True)
    apart = collections.Counter()
    for path, said in zip(paths, map(json.loads, done.stdout.splitlines())):
        listed = Listed(program, path)
        objects = map(json.loads, run(program, path, words=('--json', '--quiet')).stdout.splitlines())
        ours = {each['frame'] for each in objects if each['port'] in (137, 138)}
        listed.lines = {number: line for number, line in listed.lines.items() if number in ours}
        state = {'first': int(said['first']) if said['first'] else None, 'label': None, 'widths': [5, 9, 15, 15]}
        wanted = {each['frame']: line for each in said['datagrams'] for line in line_of(row_of(each), state)}
        compared(listed, wanted, min(listed.frames, said['frames']), f'{os.path.basename(path)} by the page')
        if listed.frames != said['frames']:
            less, why = ('nbt-look', listed.why) if listed.frames < said['frames'] else ('the page', said['fault'])
            apart[f'{less}: ' + re.sub('[0-9]+', 'N', why)] += 1
    told(apart)


def row_of(datagram):
    """A datagram that the page found, in the fields of tshark."""
    six = datagram['source'].startswith('[')
    ends = {('ipv6.' if six else 'ip.') + key: datagram[name].strip('[]') for key, name in (('src', 'source'), ('dst', 'destination'))}
    time = f"{int(datagram['time']) // BILLION}.{int(datagram['time']) % BILLION:09}" if datagram['time'] else ''
    row = {'frame.number': str(datagram['frame']), 'frame.time_epoch': time, 'frame.interface_id': '0', 'udp.checksum': '0',
           'udp.length': str(datagram['size'] + 8), 'udp.payload': datagram['payload'], 'frame.cap_len': str(datagram['captured']),
           'frame.len': str(datagram['whole']), 'udp.srcport': str(datagram['ports'][0]), 'udp.dstport': str(datagram['ports'][1])}
    return collections.defaultdict(str, row | ends)


def told(apart):
    """Says of how many files one of two read less, and why."""
    for why, count in sorted(apart.items()):
        print(f'{count} files of which one reads less: {why}')


# ---- files that end early, come in pieces, or can't be read

@contextlib.contextmanager
def fed(program, room, *words):
    """Runs the program over bytes on its standard input, loaded once for all of them."""
    given = os.memfd_create('given')
    with Served(Program(compiled(room, 'refuse_memory'), [program, *words, '-'], given)) as served:
        def answer(data):
            os.truncate(given, 0)
            os.pwrite(given, data, 0)
            return served.run()
        yield answer


def short_files(count, most):
    """So many random files of at most so many bytes, each by its parts."""
    found = (parts_of(random.Random(f'short {seed}')) for seed in itertools.count())
    return itertools.islice((parts for parts in found if sum(len(data) for data, _ in parts) <= most), count)


def standing(parts, size):
    """Of so many bytes of a file where the last part begins that isn't whole, and how many frames stand before; whether there is none such."""
    ends = list(itertools.accumulate(len(data) for data, _ in parts))
    begun = max((end for end in ends if end <= size), default=0)
    return begun, sum(is_frame for end, (_, is_frame) in zip(ends, parts) if end <= size), begun == size


def lines_of(output, most):
    """The lines of the first frames."""
    return [line for line in output.splitlines() if LINE.match(line.decode(errors='surrogateescape')) and int(line.split()[0]) <= most]


def prefixes(program, room):
    """Each front of some files: the frames that stand in it, and the byte at which the rest begins."""
    with fed(program, room) as answer:
        for name, parts in enumerate(short_files(30, 700)):
            data = b''.join(part for part, _ in parts)
            whole = answer(data)
            equal((whole.status, whole.errors), (0, b''), f'file {name}')
            for size in range(1, len(data)):
                front_of_file(answer(data[:size]), whole, standing(parts, size), f'{size} bytes of file {name}')


def front_of_file(ran, whole, stands, what):
    begun, frames, is_whole = stands
    text = b'' if is_whole else b'nbt-look: standard input: cut at byte %d, after frame %d\n' % (begun, frames)
    is_right = (ran.errors, ran.status) == (text, 0 if is_whole else 1) and lines_of(ran.output, frames) == lines_of(whole.output, frames)
    check(is_right and lines_of(ran.output, 10**9) == lines_of(ran.output, frames), f'{what}: {ran}, and {stands}')


def reads(program, room):
    """Reads that give few bytes at a time, and writes that take few."""
    shim = compiled(room, 'devices')
    for path in files(room, 40):
        wanted = by_devices(program, path, {})
        for most in SIZES:
            equal(by_devices(program, path, {'NBT_MOST': str(most)}, shim), wanted, f'{os.path.basename(path)} in reads of {most} bytes')


def by_devices(program, path, asked, shim=''):
    """A run over a file as standard input, over a shim."""
    with open(path, 'rb') as given:
        done = subprocess.run([program, '-'], stdin=given, stdout=subprocess.PIPE, stderr=subprocess.PIPE, check=False,
                              env={**os.environ, 'LD_PRELOAD': shim, **asked} if shim else None)
    return Run(done.returncode, done.stdout, done.stderr)


def faults(program, room):
    """Each read refused in turn: what came before it is shown."""
    shim, most = compiled(room, 'devices'), 100
    for name, parts in enumerate(short_files(5, 1_500)):
        path = written(f'{room}/read', b''.join(data for data, _ in parts))
        whole = by_devices(program, path, {})
        for number in itertools.count(1):
            ran = by_devices(program, path, {'NBT_MOST': str(most), 'NBT_READ_FAILS': str(number)}, shim)
            if ran == whole:
                break
            size = min(most * (number - 1), os.path.getsize(path))
            begun, frames, _ = standing(parts, size)
            text = b"nbt-look: standard input: can't be read at byte %d, after frame %d\n" % (begun, frames)
            equal((ran.errors, ran.status, lines_of(ran.output, 10**9)), (text, 3, lines_of(whole.output, frames)), f'read {number} of file {name}')
        check(number > 3, f'file {name}: only {number - 1} reads')


def memory(program, room):
    """Each request for memory refused in turn."""
    path = written(f'{room}/several', b''.join(data for seed in (3, 4) for data, _ in random_files.sections(random.Random(seed))))
    shim = compiled(room, 'refuse_memory')
    for words in ([], ['--name', 'FRED', '--host', '10.0.0.0/8', '--port', '137', '-c', '3', '--time', 'utc'], ['--help'], ['--frobnicate'],
                  ['--host', 'fred']):
        with open(path, 'rb') as given:
            for what, is_right, why in tried('look', Program(shim, [program, *words, '-'], given.fileno())):
                check(is_right, f"nbt-look {' '.join(words)}: {what}: {why}")


# ---- lengths that no file has, and inputs that are none

def hostile(program, room):
    at_8, at_24, begin = b'\0' * 8, pcap_header(), section() + interface()
    record = lambda captured, data: at_24 + at_8 + struct.pack('<LL', captured, captured) + data
    packet = lambda number, captured, data: begin + block(PACKET, struct.pack('<LLLLL', number, 0, 0, captured, captured) + data, '<')
    frame = ethernet(sent(137, QUERY))
    for name, data, text, status in (
            ('four GB', record(0xffffffff, frame), 'too long a frame or block at byte 24, after frame 0', 1),
            ('the most bytes', record(262_144, frame), 'cut at byte 24, after frame 0', 1),
            ('one more', record(262_145, bytes(300_000)), 'too long a frame or block at byte 24, after frame 0', 1),
            ('a block of eight bytes', begin + struct.pack('<LL', 6, 8) + bytes(20), 'bad block at byte 48, after frame 0', 1),
            ('a block of thirteen', begin + struct.pack('<LL', 6, 13) + bytes(20), 'bad block at byte 48, after frame 0', 1),
            ('a block of four GB', begin + struct.pack('<LL', 6, 0xfffffffc) + bytes(99), 'too long a frame or block at byte 48, after frame 0', 1),
            ('another of four GB', begin + struct.pack('<LL', 99, 0xfffffffc) + bytes(99), 'cut at byte 48, after frame 0', 1),
            ('two lengths', begin + block(PACKET, bytes(20), '<')[:-4] + bytes(4), 'bad block at byte 48, after frame 0', 1),
            ('more than the block', packet(0, 400, frame), 'bad block at byte 48, after frame 0', 1),
            ('no such interface', packet(1, len(frame), frame), 'packet of an unknown interface at byte 48, after frame 0', 1),
            ('no interface', section() + block(SIMPLE_PACKET, bytes(8), '<'), 'packet of an unknown interface at byte 28, after frame 0', 1),
            ('no order', section()[:4] + bytes(24), UNKNOWN, 1),
            ('an option too long', section() + interface(options=struct.pack('<HH', 2, 400)), 'bad block at byte 28, after frame 0', 1),
            ('interfaces', section() + interface() * 65_537, 'too many interfaces at byte 1310748, after frame 0', 1),
            ('names', section() + interface(options=option(2, bytes(250), '<')) * 65_536 + packet(0, len(frame), frame)[48:], '', 0)):
        path = written(f'{room}/hostile', data)
        done = subprocess.run(['/usr/bin/time', '-f', '%M', '-o', f'{room}/room', program, path], stdout=subprocess.PIPE, stderr=subprocess.PIPE, check=False)
        said = f'nbt-look: {path}: {text}\n' if text else ''
        equal((done.stderr.decode(), done.returncode), (said, status), name)
        with open(f'{room}/room', encoding='utf-8') as kept:
            most = int(kept.read().split()[-1])
        check(most <= (DESCRIBED if len(data) > 10**6 else ROOM), f'{name}: {most} kB')
    vanishing(program, room)


def vanishing(program, room):
    """Names that lead nowhere, and a file that goes while it is read."""
    os.symlink(f'{room}/nowhere', f'{room}/link')
    for path, text in ((f'{room}/link', 'there is no file of this name'), (f'{room}/hostile/below', "it can't be opened")):
        done = run(program, path)
        equal((done.stdout, done.stderr, done.returncode), (b'', f'nbt-look: {path}: {text}\n'.encode(), 3), text)
    path = f'{room}/pipe'
    os.mkfifo(path)
    child = subprocess.Popen([program, path], stdout=subprocess.PIPE, stderr=subprocess.PIPE)
    with open(path, 'wb') as given:
        given.write(FRAMES[:60])
        given.flush()
        os.remove(path)
        given.write(FRAMES[60:])
    output, errors = child.communicate()
    equal((lines_of(output, 9), errors, child.returncode), (lines_of(run(program, '-', FRAMES).stdout, 9), b'', 0), 'a file that goes')


if __name__ == '__main__':
    sys.exit(main())
