#!/usr/bin/env python3
"""What nbt-look, nbt-look-tshark and the plugin for Wireshark cost beside tshark.  Usage: tests/bench_tools.py [PLUGIN [PACKETS [PAIRS]]]

Of 724,638 packets of tests/captures/big_pcap.py what the list of crates/nbt_look's program costs, where that is built: processor seconds beside
those of tshark, which prints the same fields; instructions beside those of the plain program of tests/plain/, which prints the same lines; and how
much memory it takes, of a file ten times as long too. Of 10^6 segments of one stream what each costs beside one of 10^4, in order and shuffled.

Then, of so many packets (100,000), the processor seconds of nbt-look-tshark, with those of tshark and nbt, beside those of tshark alone with the
fields that it asks for.

Then, where PLUGIN is there, out/nbt.so without it, the list that tshark prints with it and without, in one pass and in two, its frame
numbers and its trees; and of as many packets at other ports. A run with the plugin and one without it go on at the same time, so that
what else the machine does meets both: the ratio is the median of so many pairs' (7), of processor seconds, and the least and the largest
stand beside it. How many bytes a packet tshark has more in memory is a median too. As root nobody runs it. Status 1 where a bar is passed
by more than a twentieth.
"""
import os
import shutil
import statistics
import subprocess
import sys
import tempfile
import types

sys.dont_write_bytecode = True
HERE = os.path.dirname(os.path.abspath(__file__))
TOOLS = os.path.join(HERE, '..', 'tools')
sys.path[1:1] = [*(f'{HERE}/{each}' for each in ('bench', 'captures', 'lib')), TOOLS]
import endless
import plain_program
from bench_rows import HEADING, Row, heading, instructions, least, peak, printed, processor_seconds, show
from nbt_look.frames import FIELDS, STATISTICS
from nbt_pcap.arguments import SERVICES
from nbt_pcap.tshark import command_of
from parts import check, finish
from wire import QUERY, SHORT, TCP, ethernet, ip, pcap, sent, spaced, tcp, written

# How many times tshark's own cost, and how many bytes a packet.
LIST, OTHER_PORTS, BYTES = 1.2, 1.05, 200
NOBODY = 65_534
# Of the program of crates/nbt_look: how many packets, how many times tshark's seconds and the plain program's instructions, and how much memory.
PROGRAM, LONG = f'{HERE}/../crates/nbt_look/out/nbt_look', 724_638
PROVED, PLAIN, MEGABYTES, TIMES = 1 / 40, 2, 8, 10
SHOWN = ('frame.number', 'frame.time_relative', 'ip.src', 'udp.srcport', 'tcp.srcport', 'ip.dst', 'udp.dstport', 'tcp.dstport', 'udp.payload', 'nbss.type',
         'nbss.length')
# How many segments streams have, within how many they are shuffled, and how many times as much one may cost of the longer streams.
FEW, MANY, WIDTHS, SEGMENT = 10_000, 1_000_000, (1, 1_000), 1.4


def of_program(folder):
    """The rows of the list of crates/nbt_look's program."""
    path, plain = f'{folder}/long.pcap', plain_program.compiled(folder)
    subprocess.run([f'{HERE}/captures/big_pcap.py', str(LONG), path], check=True)
    fields = [word for each in SHOWN for word in ('-e', each)]
    alone = processor_seconds(['tshark', '-n', '-r', path, '-Y', 'udp.port in {137, 138} || nbss', '-T', 'fields', *fields], path)
    yield Row("tshark, the list's fields", seconds=alone)
    taken = least(processor_seconds, [PROGRAM, path], path)
    yield Row('nbt-look', seconds=taken, of=taken / alone, most=PROVED, said=f'1 of {alone / taken:.0f}')
    if plain:
        check(printed([plain, 'look'], path) == printed([PROGRAM, '-'], path), 'the plain program prints the same list')
        one, other = (instructions(command, path) for command in ([PROGRAM, '-'], [plain, 'look']))
        yield Row('nbt-look beside plain Rust', counted=one and one // LONG, of=one and one / other, most=PLAIN)
    most = peak([PROGRAM, '-'], path)
    yield Row('nbt-look: MB of memory', of=most and most / 1_000, most=MEGABYTES)
    more = peak_of_several(path)
    yield Row(f'nbt-look: MB of memory, of {TIMES} times the file', of=more and more / 1_000, most=MEGABYTES)
    check(not most or abs(more - most) < 200, f'nbt-look: {most} kB, and {more} of {TIMES} times the file')
    os.remove(path)


def of_streams(folder):
    """The rows of streams: as many segments of a hundred streams, and of one."""
    path = f'{folder}/streams.pcap'
    for width in WIDTHS:
        costs = []
        for count in (FEW, MANY):
            with open(path, 'wb') as file:
                endless.streams(file, MANY // count, count, width)
            costs.append(least(processor_seconds, [PROGRAM, '-'], path))
            title = f'nbt-look: segments of a stream of {count:,}' + (f', shuffled within {width:,}' if width > 1 else '')
            yield Row(title, seconds=costs[-1], of=costs[-1] / costs[0], most=SEGMENT)
    os.remove(path)


def peak_of_several(path):
    """The most kB of a list of the file's frames so many times over."""
    repeated = f'{{ cat "$1"; for _ in $(seq {TIMES - 1}); do tail -c +25 "$1"; done; }} | /usr/bin/time -f %M "$0" - 2>&1 >/dev/null'
    done = subprocess.run(['sh', '-c', repeated, PROGRAM, path], stdout=subprocess.PIPE, check=True)
    return int(done.stdout.split()[-1]) if os.path.exists('/usr/bin/time') else None


def of_look(path):
    """The rows of nbt-look-tshark."""
    options = types.SimpleNamespace(ports=[(each, each) for each in SERVICES], file=path, live=False, interface=None)
    alone = least(processor_seconds, command_of(options, FIELDS, STATISTICS), path)
    yield Row('tshark alone', seconds=alone)
    for words in ([], ['--json', '--quiet'], ['--summary']):
        taken = least(processor_seconds, [f'{TOOLS}/nbt-look-tshark', *words, path], path)
        yield Row(' '.join(['nbt-look-tshark', *words]), seconds=taken, of=taken / alone)


def home_with(folder, plugin):
    """A home whose user has the plugin, or with None none."""
    home = os.path.join(folder, 'with' if plugin else 'without')
    os.mkdir(home)
    if plugin:
        environment = {**os.environ, 'HOME': home}
        words = subprocess.run(['tshark', '-G', 'folders'], capture_output=True, text=True, check=True, env=environment).stdout
        place = next(line.split(':', 1)[1].strip() for line in words.splitlines() if line.startswith('Personal Plugins:'))
        os.makedirs(f'{place}/epan')
        shutil.copy(plugin, f'{place}/epan/nbt.so')
    return home


def pair(homes, words):
    """Processor seconds of a run in each home, at the same time, and the most that it had in memory, in bytes."""
    user = {'user': NOBODY, 'group': NOBODY, 'extra_groups': []} if os.getuid() == 0 else {}
    user |= {'stdout': subprocess.DEVNULL, 'stderr': subprocess.DEVNULL}
    found = []
    for child in [subprocess.Popen(['tshark', '-n', *words], env={'PATH': os.environ['PATH'], 'HOME': it}, **user) for it in homes]:
        _, status, usage = os.wait4(child.pid, 0)
        child.returncode = os.waitstatus_to_exitcode(status)
        if child.returncode:
            raise SystemExit(f'{" ".join(child.args)}: status {child.returncode}')
        found.append((usage.ru_utime + usage.ru_stime, usage.ru_maxrss * 1024))
    return found


def of_plugin(homes, path, other, packets, pairs):
    """The rows of the plugin."""
    numbers = ['-T', 'fields', '-e', 'frame.number']
    ways = (('the list', path, [], LIST), ('the list, in two passes', path, ['-2'], LIST), ('frame numbers', path, numbers, None),
            ('all trees', path, ['-V'], None), ('the list of other ports', other, [], OTHER_PORTS),
            ('frame numbers of other ports', other, numbers, OTHER_PORTS))
    for title, file, words, most in ways:
        runs = [pair(homes, ['-r', file, *words]) for _ in range(pairs)]
        ratios = [taken[0] / alone[0] for taken, alone in runs]
        seconds, alone = (statistics.median(run[which][0] for run in runs) for which in range(2))
        memory, without = (statistics.median(run[which][1] for run in runs) for which in range(2))
        yield Row(title, seconds=seconds, of=statistics.median(ratios), most=most,
                  said=f'{min(ratios):.2f} to {max(ratios):.2f}; {alone:.2f} s without')
        yield Row(f'{title}: bytes a packet', of=(memory - without) / packets, most=BYTES, said=f'{without / packets:.0f} without')


def main():
    plugin, packets, pairs = (sys.argv[1:] + [f'{HERE}/../out/nbt.so', '100000', '7'][len(sys.argv) - 1:])
    packets, pairs = int(packets), int(pairs)
    with tempfile.TemporaryDirectory() as folder:
        os.chmod(folder, 0o755)
        if os.path.exists(PROGRAM):
            print(f'{LONG:,} packets')
            heading(*HEADING)
            show(of_program(folder))
            show(of_streams(folder))
            print()
        path, other = f'{folder}/big.pcap', f'{folder}/other.pcap'
        subprocess.run([f'{HERE}/captures/big_pcap.py', str(packets), path], check=True)
        print(f'{packets:,} packets, {pairs} pairs, load {os.getloadavg()[0]:.1f} of {os.cpu_count()} processors')
        heading(*HEADING)
        show(of_look(path))
        if os.path.exists(plugin):
            homes = [home_with(folder, os.path.realpath(plugin)), home_with(folder, None)]
            frames = [ethernet(sent(53, QUERY)), ethernet(ip(TCP, tcp(50_000, 80, 1, SHORT)))]
            written(other, pcap(spaced(frames * (packets // 2))))
            show(of_plugin(homes, path, other, packets, pairs))
    return finish()


if __name__ == '__main__':
    sys.exit(main())
