#!/usr/bin/env python3
"""What the calls of the library cost, from C, from Python and in WebAssembly, each beside what it is held against.

Usage: tests/bench_library.py [PROGRAM [LIBRARY]]. LIBRARY is a folder with libnbt.a and libnbt.so.0, out/lib without it; nbt.mjs
lies in the folder above it, if `make targets` made it.

100,000 payloads of an office's stations, the same in each run; the rows of port 137 have 100,000 of it alone. Instructions, those of
a payload, are counted by valgrind's callgrind where it is installed: those of a run less those of one that reads the same and calls
once less. Seconds are of processor time, the least of five runs; of Python beside dpkt and samba one run, in turns. Status 1 where a
bar is passed by more than a twentieth; the last line counts them.
"""
import os
import random
import shutil
import subprocess
import sys
import tempfile

sys.dont_write_bytecode = True
sys.path[1:1] = [f'{sys.path[0]}/{it}' for it in ('bench', 'lib')]
import plain_program
from bench_captures import Office, line, office, one_address, written
from bench_rows import HEADING, Row, call_seconds, heading, instructions, least, printed, processor_seconds, ratio, show
from parts import finish
from served import requests

TOP = os.path.join(os.path.dirname(os.path.abspath(__file__)), '..')
LOOPS = os.path.join(TOP, 'tests', 'bench')
COUNTS = {137: 50_000, 138: 25_000, 139: 25_000}
ALL, KEYS = sum(COUNTS.values()), 60_000
# Of what `nbt show` takes, less its lines; node's seconds of those with them, since callgrind counts no instructions that an engine makes.
MOST_OF_C, MOST_OF_PYTHON, MOST_OF_NODE = 1.0, 3.0, 5.0
MOST_OF_OBJECTS, MOST_OF_ITEMS, MOST_OF_DPKT, MOST_OF_ABSORB = 2.0, 1.0, 1.5, 1.0
# What it costs to judge a packet whole before its items, which judge themselves: it may get no worse.
MOST_OF_JUDGED = 1.2
# Readers in Python besides: what they read, and the module that they stand in.
OTHERS = {'dpkt': ("dpkt's NS, its attributes read", 'dpkt.netbios'),
          'samba': ("samba's name_packet, values read", 'samba.dcerpc.nbt')}


class Calls:
    """The loops over the library, and the captures that they read."""

    def __init__(self, library, folder):
        self.library, self.folder = library, folder
        self.loop = os.path.join(folder, 'service_loop')
        compiler = [os.environ.get('CC', 'cc'), '-O2', f'-I{TOP}/include']
        subprocess.run([*compiler, '-o', self.loop, f'{LOOPS}/service_loop.c', f'{library}/libnbt.a'], check=True)
        lines = [each for port, count in COUNTS.items() for each in office(port, count)]
        assert len(lines) == ALL
        stations = Office(random.Random(137))
        self.payloads = written(folder, 'payloads', lines)
        self.comments = written(folder, 'comments', (b'#' + each for each in lines))
        self.service = written(folder, 'service', (line(moment, stations.service(), 137) for moment in range(ALL)))

    def row(self, title, command, path, beside=None, most=None, rounds='21'):
        """The row of a program that calls as often as its first word says: a run of none may end in another way than others."""
        program, *words = command
        more, fewer = (instructions([*program, count, *words], path) for count in rounds)
        row = Row(title, more and (more - fewer) // ALL, least(call_seconds, [*program, '1', *words], path))
        return beside_row(row, beside, most)

    def shown(self, program):
        """`nbt show`, what it takes less its lines, and beside that the same from C, Python and JavaScript, and objects."""
        show = [program, 'show', '--input-limit', str(1 << 40)]
        whole, lines = (instructions(show, path) for path in (self.payloads, self.comments))
        seconds = [least(processor_seconds, show, path) for path in (self.payloads, self.comments)]
        yield Row('nbt show', whole and whole // ALL, seconds[0])
        bar = Row('nbt show, less its lines', whole and (whole - lines) // ALL, seconds[0] - seconds[1])
        from_c = self.row('nbt_show, from C', [[self.loop], 'show'], self.payloads, bar, MOST_OF_C)
        yield from (bar, from_c, self.row('nbt_json, from C', [[self.loop], 'json'], self.payloads, from_c, MOST_OF_OBJECTS))
        python = [sys.executable, f'{LOOPS}/service_loop.py']
        yield self.row('nbt.show, from Python', [python, 'show'], self.payloads, bar, MOST_OF_PYTHON, '10')
        targets = os.path.dirname(self.library)
        if shutil.which('node') and os.path.exists(os.path.join(targets, 'nbt.mjs')):
            command = ['node', '--experimental-wasm-memory64', f'{LOOPS}/show_loop.mjs', targets, '1']
            taken = least(call_seconds, command, self.payloads)
            yield Row('show, from JavaScript', None, taken, taken / seconds[0], MOST_OF_NODE)

    def items(self):
        """A packet of port 137 with all that it has, beside a reader in plain Rust, and how much memory the calls ask for."""
        plain, path = plain_program.compiled(self.folder), self.service
        bar = Row("the plain program's reading of port 137", said=plain_program.WANTED)
        if plain:
            bar = self.row(bar.title, [[plain]], path)
            ways = ([self.loop, '1', 'items'], [self.loop, '1', 'judged'], [plain, '1'])
            sums = {printed(command, path).split()[0] for command in ways}
            assert len(sums) == 1, f'they read other values: {sums}'
        yield bar
        yield self.row('nbt_service_header, each item and part, from C', [[self.loop], 'items'], path, bar, MOST_OF_ITEMS)
        yield self.row('the same after nbt_service_read', [[self.loop], 'judged'], path, bar, MOST_OF_JUDGED)
        taken = self.asked('1', 'items') + self.asked('1', 'judged') - 2 * self.asked('0', 'items')
        yield Row('requests of these calls for memory', of=float(taken), most=0.0)

    def asked(self, *words):
        """How many requests for memory the loop makes."""
        with open(self.service, 'rb') as given:
            return requests(self.folder, [self.loop, *words], stdin=given)

    def in_python(self):
        """ServicePacket.read with its values, beside dpkt and samba, in one run."""
        python, there = python_of({name: module for name, (_, module) in OTHERS.items()})
        words = printed([python, f'{LOOPS}/service_loop.py', '1', 'nbt', *there], self.service).decode().split()
        seconds = {name: int(spent) / 1e9 for name, spent in zip(words[::3], words[2::3])}
        ours = Row('ServicePacket.read, values read, from Python', None, seconds['nbt'])
        yield beside_row(ours, Row('', None, seconds['dpkt']), MOST_OF_DPKT) if 'dpkt' in seconds else ours
        for name, (title, _) in OTHERS.items():
            yield Row(title, None, seconds.get(name), said='' if name in seconds else f"python3-{name} isn't installed")

    def absorbing(self):
        """A table of one key, taken in by a station of many: beside the key saved, loaded, and a look at each key that is held."""
        path, rows = written(self.folder, 'keys', one_address(KEYS + 1)), []
        for what, title in (('save', 'that key saved'), ('load', 'that key taken in where none is'),
                            ('look', f'a look at each of {KEYS:,} keys'), ('absorb', f'nbt_station_absorb of a key, {KEYS:,} held')):
            counted, without = (instructions([self.loop, rounds, what], path) for rounds in '10')
            rows.append(Row(title, counted and counted - without, least(call_seconds, [self.loop, '1', what], path)))
        *parts, absorb = rows
        bar = Row('', rows[0].counted and sum(row.counted for row in parts), sum(row.seconds for row in parts))
        return [*parts, beside_row(absorb, bar, MOST_OF_ABSORB)]


def beside_row(row, bar, most):
    """A row that is held against another one, if there is one."""
    row.of, row.most = bar and ratio(row, bar), most
    return row


def python_of(modules):
    """The Python that has the most of these modules, by their names, and which these are: this one, or the system's, which Debian's
    packages are for."""
    has = lambda python, module: not subprocess.run([python, '-c', f'import {module}'], capture_output=True, check=False).returncode
    pythons = [each for each in (sys.executable, '/usr/bin/python3') if os.path.exists(each)]
    found = [(each, [name for name, module in modules.items() if has(each, module)]) for each in pythons]
    return max(found, key=lambda one: len(one[1]))


def main():
    program = sys.argv[1] if len(sys.argv) > 1 else os.path.join(TOP, 'crates', 'nbt', 'out', 'nbt')
    library = os.path.abspath(sys.argv[2] if len(sys.argv) > 2 else os.path.join(TOP, 'out', 'lib'))
    os.environ.update(NBT_LIBRARY=os.path.join(library, 'libnbt.so.0'), PYTHONPATH=os.path.join(TOP, 'bindings', 'python'),
                      PYTHONDONTWRITEBYTECODE='1')
    heading(*HEADING)
    with tempfile.TemporaryDirectory() as folder:
        calls = Calls(library, folder)
        for rows in (calls.shown(program), calls.items(), calls.in_python(), calls.absorbing()):
            show(rows)
    return finish()


if __name__ == '__main__':
    sys.exit(main())
