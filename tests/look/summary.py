#!/usr/bin/env python3
"""The cases of tests/summary/, captures as text, and the tables that they have (docs/SUMMARY.md has the rules), through tools/nbt-look-tshark --summary,
or with --page through the modules of the page, in node: each has the tables that stand there, and no others.

Usage: tests/look/summary.py [--page] [PROGRAM], with nbt on PATH for nbt-look-tshark, or PROGRAM in its place where packets are made, and where
the page asks the library. The last line is 'N passed, M failed'.

A file has cases, each after a line `== WHAT`. A line of packets is `MOMENTS FROM > TO WORDS`, with ` < WORDS` behind it for each packet
that comes back, and ` > WORDS` for further ones. MOMENTS are milliseconds with commas between: one for each of them, or those at which a
single one is sent again. FROM and TO are addresses, with a port where it isn't the service's own. WORDS are

  syn, ack, rst   a SYN, a SYN with ACK, or a reset of the session service
  skip N          N bytes of a stream that aren't in the capture; below 0 it goes back, by 100,000 more before a SYN that comes again
  ad86 ..         a response with this flag word to the line's first packet: the kind of its record where it isn't 0020, its TTL and its RDATA;
                  or NAME=FLAGS,.. UNIT, a node status
  others          those of `nbt build`: a packet each of what it prints

and before them an option is cut=N, a snap length; mac=DIGITS, the last two of the sender's MAC; patch=AT:HEX, other bytes of the payload,
from AT on; front=N, so many bytes of the payload alone; by=ADDRESS, another sender; or pick=N,.., at each moment the N-th packet alone. A
row of a table, which is named as --summary has it, is `TABLE: CELLS | COLUMN=TEXT ..`: the cells of the first columns, two spaces between them,
a mark before the first one, and those of others; more rows follow behind `; `. `note: TEXT` stands below the tables. Tables and notes that aren't there must not be shown, but
for what is left out and, unless it is there, stations.
"""
import functools
import glob
import json
import os
import re
import runpy
import shutil
import subprocess
import sys
import tempfile
from dataclasses import dataclass, field

sys.dont_write_bytecode = True
HERE = os.path.dirname(os.path.abspath(__file__))
TOOLS = f'{HERE}/../../tools'
sys.path[1:1] = [*(f'{HERE}/../{it}' for it in ('captures', 'lib')), TOOLS]
from bundled import bundled
from nbt_look import arguments, frames, looking, summary  # noqa: F401: what the tool would import anew for each capture
from nbt_pcap import tshark
from nbt_pcap.frames import COUNTED
from parts import tally
from wire import ACK, RST, SYN, Frames, pcap, written

TOOL = f'{TOOLS}/nbt-look-tshark'
PACKETS = re.compile(r'([\d.,]+) +(\S+) (> \S+) +(.*)')
STEPS = re.compile(r' +([<>]) ')
OPTION = re.compile(r'(cut|mac|patch|front|pick|by)=(\S+) +')
FLAG_WORD = re.compile('[0-9a-f]{4}')
COUNTS = re.compile('[0-9]+ frames?')
SEGMENTS = {'syn': SYN, 'ack': SYN | ACK, 'rst': RST | ACK}
TITLES = {'queries': 'queries that found nothing', 'failed': 'failed datagrams', 'left-out': 'left out'}
# What is shown of nearly each capture, or counted elsewhere.
BESIDES = {'stations', 'left out'}


@dataclass
class Case:
    """A capture, and by its title each table that it has: of each row the cells that are compared, by their columns, and the first ones by number."""

    file: str
    what: str
    packets: list = field(default_factory=list)
    tables: dict = field(default_factory=dict)


def cases():
    """All cases."""
    found = []
    for path in sorted(glob.glob(f'{HERE}/../summary/*.txt')):
        with open(path, encoding='utf-8') as file:
            lines = file.read().splitlines()
        for line in lines:
            if line.startswith('== '):
                found.append(Case(os.path.basename(path), line[3:]))
            elif line[:1].isdigit():
                found[-1].packets.append(line)
            elif line and not line.startswith('#'):
                name, _, text = line.partition(': ')
                found[-1].tables.setdefault(TITLES.get(name, name), []).extend(map(row_of, text.split('; ')))
    return found


def row_of(text):
    """The cells of a row."""
    cells, *others = text.split(' | ')
    return dict(enumerate(cells.split('  '))) | {column: cell for column, _, cell in (each.rpartition('=') for each in others)}


class Network(Frames):
    """The frames of a case."""

    def __init__(self, program):
        super().__init__()
        self.program = program

    def says(self, line):
        """Adds the packets of a line."""
        moments, source, target, rest = PACKETS.fullmatch(line).groups()
        moments, (_, *steps) = moments.split(','), STEPS.split(f' > {rest}')
        ways, said = steps[::2], [options_of(each) for each in steps[1::2]]
        assert len(said) in (1, len(moments)), line
        asked = [each for each in said[0][1] if each != '--broadcast'][1:3]
        for number, moment in enumerate(moments):
            options, words = said[number % len(said)]
            ends = (source, target[2:]) if ways[number % len(said)] == '>' else (options.get('by', target[2:]), source)
            if FLAG_WORD.fullmatch(words[0]):
                word, *kind, lifetime, data = words if '=' not in words[1] else (words[0], '0021', '0', status_of(*words[1:]))
                words = ['response', asked[0], word, asked[1], *(kind or ['0020']), lifetime, data]
            for port, payload, flags in self.payloads(words, options, ends, number):
                snap = int(options['cut']) if 'cut' in options else None
                mac = bytes.fromhex(options.get('mac', ''))
                self.add(float(moment), *(ends_of(each, port) for each in ends), port, payload, flags, snap, mac)

    def payloads(self, words, options, ends, number):
        """Port, payload and flags of TCP of each packet; `number` is that of its moment."""
        verb = words[0]
        if verb in SEGMENTS:
            return [(139, b'', SEGMENTS[verb])]
        if verb == 'skip':
            key = tuple(ends_of(each, 139) for each in ends)
            self.due[key] = self.due.get(key, 1_000) + int(words[1])
            return []
        lines = built(self.program, *words)
        lines = lines[int(options['pick'].split(',')[number]) - 1:][:1] if 'pick' in options else lines
        place, _, other = options.get('patch', '0:').partition(':')
        found, at = [], 2 * int(place)
        for port, _, digits in map(str.split, lines):
            digits = digits.replace('empty', '')
            payload = bytes.fromhex(digits[:at] + other + digits[at + len(other):])
            found.append((int(port), payload[:int(options.get('front', len(payload)))], ACK))
        return found


@functools.cache
def built(program, *words):
    """The lines of `nbt build`."""
    return subprocess.run([program, 'build', *words], stdout=subprocess.PIPE, check=True, text=True).stdout.splitlines()


def status_of(names, unit):
    """RDATA of a node status."""
    listed = [re.fullmatch('(.+)<(..)>=(....)', each) for each in names.split(',')]
    return f'{len(listed):02x}' + ''.join(each[1].ljust(15).encode().hex() + each[2] + each[3] for each in listed) + unit


def options_of(text):
    """The options of a packet, and its words."""
    options = {}
    while match := OPTION.match(text):
        options[match[1]] = match[2]
        text = text[match.end():]
    return options, text.split()


def ends_of(text, port):
    address, _, given = text.partition(':')
    return bytes(map(int, address.split('.'))), int(given or port)


def frames_of(case, program):
    """The frames of a case."""
    network = Network(program)
    for line in case.packets:
        network.says(line)
    return network.frames


def tables_in(text):
    """The tables of a summary, of each title the rows, and the notes."""
    *blocks, last = text.split('\n\n')
    notes = [{0: each} for each in last.splitlines() if not COUNTS.match(each)]
    found = {'note': notes} if notes else {}
    for block in blocks:
        title, *lines = block.splitlines()
        if lines and lines[0].startswith('  '):
            _, *starts = (match.start() for match in re.finditer(r'(?<=  )\S', lines[0]))
            columns, *rows = ([line[start:end].strip() for start, end in zip([0, *starts], [*starts, None])] for line in lines)
            found[title] = rows_of(columns, rows)
    return found


def rows_of(columns, rows):
    """Rows of texts by their columns, and by number."""
    return [dict(enumerate(row)) | dict(zip(columns, row)) for row in rows]


def difference(case, shown):
    """What is shown that isn't there, or the other way round; nothing where all is well."""
    for title in [*case.tables, *sorted(shown.keys() - case.tables.keys() - BESIDES)]:
        wanted, given = case.tables.get(title, []), shown.get(title, [])
        if len(given) != len(wanted) or not all(one.items() <= other.items() for one, other in zip(wanted, given)):
            return f'{title}: {given}, not {wanted}'
    return ''


def main():
    program = program_of([each for each in sys.argv[1:] if each != '--page'])
    chosen = cases()
    captures = [frames_of(each, program) for each in chosen]
    with tempfile.TemporaryDirectory() as folder:
        paths = [written(f'{folder}/{number}', pcap(each)) for number, each in enumerate(captures)]
        shown = shown_by_page(program, paths) if '--page' in sys.argv else list(map(shown_by_tool, paths, rows_of_all(captures, folder)))
    return tally((f'{each.file}: {each.what}', difference(each, tables)) for each, tables in zip(chosen, shown))


def program_of(words):
    """The program that is given, or nbt on PATH."""
    program = words[0] if words else shutil.which('nbt')
    if not program or not os.access(program, os.X_OK):
        sys.exit(f'{sys.argv[0]}: {program or "nbt on PATH, or PROGRAM in its place,"} is missing: `make build` makes it')
    return program


def rows_of_all(captures, folder):
    """Of each capture a place of a tshark that prints what tshark prints of it. One run of tshark has them all, one after the other, and says as
    much of their frames as of those of a capture alone, but for their numbers."""
    options = arguments.options_of(['--summary', written(f'{folder}/all', pcap(sum(captures, [])))])
    firsts = ','.join(str(1 + sum(map(len, captures[:at]))) for at in range(len(captures)))
    command = tshark.command_of(options, frames.FIELDS, ())
    command[command.index('-Y') + 1] += f' || frame.number in {{{firsts}}}'
    done = subprocess.run(command, capture_output=True, check=True, env=tshark.environment(folder))
    rows, before = {int(at): row for at, tab, row in (line.partition(b'\t') for line in done.stdout.splitlines(True)) if tab}, 0
    for number, capture in enumerate(captures):
        os.mkdir(f'{folder}/{number}-tshark')
        printed = b''.join(b'%d\t%s' % (at, rows[before + at]) for at in range(1, len(capture) + 1) if before + at in rows)
        printed += b'%s%d\nEND\n' % (COUNTED.encode(), len(capture))
        os.chmod(written(f'{folder}/{number}-tshark/tshark', b"#!/bin/sh\nexec cat <<'END'\n" + printed), 0o755)
        yield f'{folder}/{number}-tshark:'
        before += len(capture)


def shown_by_tool(path, places=''):
    """What the tool shows of a capture, in a process that has its modules from the start; programs are looked for in these places first."""
    with tempfile.TemporaryFile() as shown:
        if not (child := os.fork()):
            os.dup2(shown.fileno(), 1)
            os.environ['PATH'] = places + os.environ['PATH']
            sys.argv = [TOOL, '--summary', path]
            try:
                runpy.run_path(TOOL, run_name='__main__')
            except SystemExit as end:
                os._exit(end.code)
            except BaseException as why:
                print(f'nbt-look-tshark {path}: {why!r}', file=sys.stderr)
            os._exit(70)
        status = os.waitpid(child, 0)[1]
        shown.seek(0)
        return tables_in(shown.read().decode()) if not status else {f'status {status}': [{}]}


def shown_by_page(program, paths):
    with tempfile.TemporaryDirectory() as folder:
        script, = bundled(folder, 'summary.mjs')
        done = subprocess.run(['node', script, program, *paths], stdout=subprocess.PIPE, text=True, timeout=300, check=True)
    return [{title: rows_of(**each) for title, each in json.loads(line).items()} for line in done.stdout.splitlines()]


if __name__ == '__main__':
    sys.exit(main())
