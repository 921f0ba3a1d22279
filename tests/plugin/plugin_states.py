#!/usr/bin/env python3
"""What the plugin for Wireshark says of datagrams, beside the report of `nbt replay`.

Usage: tests/plugin/plugin_states.py SHARKD PROGRAM FOLDER COUNT FILE..

So many captures of fragments that are shuffled, lost, repeated and changed, with pauses, times that go back, packets of other kinds and
ports and frames that are cut. All are read by one sharkd, which has the plugin, one after the other, for a station with names or for all,
with the timer or without it; the program replays the same with the ticks of nbt-look --lines or without. Of each payload of port 138 the
state, the key and the data have to be those of the report, and the links and what is missing those of a plain model. Of long data a
column shows the front, and the frame's tree all. Then sharkd opens the files, in turn and back: it says the same of each as another one
that opens it alone, also where names are none, and then one. A case is a capture or a file; the last line is 'N passed, M failed'.
"""
import collections
import json
import random
import re
import subprocess
import sys

sys.dont_write_bytecode = True
sys.path.insert(1, f'{sys.path[0]}/../lib')
from limits import MANY
from parts import tally
from plugin_captures import Made
from wire import pcap, written

COLUMNS = ('nbt.state', 'nbt.key', 'nbt.datagram', 'nbt.whole_in', 'nbt.spoilt_in', 'nbt.missing', 'nbt.fragment')
# How sharkd shows no bytes, and of how many digits it shows the front; and how the tree has all, as a filter.
NO_BYTES, DIGITS, ALL = '<MISSING>', 72, re.compile(r'nbt\.datagram == ([0-9a-f:]*)')
TIMER_OF = 4
BOOLEANS = ('FALSE', 'TRUE')


class Sharkd:
    """sharkd as a process: requests, and their answers."""

    def __init__(self, command):
        self.process = subprocess.Popen([command, '-'], stdin=subprocess.PIPE, stdout=subprocess.PIPE, stderr=subprocess.DEVNULL, text=True)
        self.count = 0

    def ask(self, method, **words):
        self.count += 1
        request = {'jsonrpc': '2.0', 'id': self.count, 'method': method, **({'params': words} if words else {})}
        self.process.stdin.write(json.dumps(request) + '\n')
        self.process.stdin.flush()
        while line := self.process.stdout.readline():
            answer = json.loads(line)
            if answer.get('id') == self.count:
                if 'error' in answer:
                    raise ValueError(f'{method}: {answer["error"]}')
                return answer['result']
        raise ValueError(f'{method}: sharkd ended with status {self.process.wait()}')

    def prefer(self, names, timer):
        for name, value in (('nbt.names', ' '.join(names)), ('nbt.timer', BOOLEANS[timer])):
            self.ask('setconf', name=name, value=value)

    def rows(self, path, *others):
        """Of each frame the columns."""
        self.ask('load', file=path)
        columns = {f'column{number}': each + ':0' for number, each in enumerate(COLUMNS + others)}
        return {frame['num']: frame['c'] for frame in self.ask('frames', **columns)}

    def data(self, frame):
        """All of the data of the datagram that this frame completes."""
        found = ALL.search(json.dumps(self.ask('frame', frame=frame, proto=True)))
        return found and found[1].replace(':', '')

    def end(self):
        self.process.stdin.close()
        return self.process.wait(timeout=60)


def report_of(program, lines, names):
    """What is reported of each line, by its number."""
    done = subprocess.run([program, 'replay', *MANY, '--', *names], input='\n'.join([*lines, '']), capture_output=True, text=True, check=True)
    return {int(number): words for number, _, words in (line.partition(' ') for line in done.stdout.splitlines())}


def wanted_of(words):
    """State, key and data by a report."""
    kind, *rest = words.split(' ')
    if kind not in ('kept', 'spoilt', 'delivered', 'unheard'):
        return [kind, '', None]
    return [kind, rest[0], rest[-1].replace('empty', '') if kind == 'delivered' else None]


def shown(data):
    """The texts of which sharkd shows one for data: the second is that of Wireshark 4.0."""
    if data is None:
        return ('',)
    return data or NO_BYTES, data[:DIGITS] + '…' if len(data) > DIGITS else data or NO_BYTES


def first_difference(made, sharkd, path, states):
    """The first frame that isn't as wanted, in words; '' where there is none."""
    links = made.links({frame: state[0] for frame, state in states.items()})
    rows = sharkd.rows(path)
    for frame in range(1, len(made.frames) + 1):
        state, key, data = states.get(frame, ['', '', None])
        wanted = [[state, key, text, *links.get(frame, ['', '', '', ''])] for text in shown(data)]
        if rows[frame] not in wanted:
            return f'frame {frame}: {rows[frame]}, not {wanted[-1]}'
        if data and len(data) > DIGITS and sharkd.data(frame) != data:
            return f'frame {frame}: {sharkd.data(frame)}, not {data}'
    return ''


def opened(command, sharkd, files):
    """Each file, and whether other things are said of it after others."""
    sharkd.prefer([], True)
    alone = {path: Sharkd(command).rows(path, 'nbt.says') for path in files}
    for path in [*files, *reversed(files)]:
        yield path, sharkd.rows(path, 'nbt.says') != alone[path] or not any(map(any, alone[path].values()))
    sharkd.prefer(['NO<2'], True)
    yield 'names that are none: all are heard', sharkd.rows(files[0], 'nbt.says') != alone[files[0]]
    sharkd.prefer(['NOBODY<20>'], True)
    yield 'a name again', not any(row[0] == 'unheard' for row in sharkd.rows(files[0]).values())


def cases(command, program, folder, count, *files):
    """Each capture, and what is wrong with what is said of it; what is reported is counted."""
    sharkd, seen = Sharkd(command), collections.Counter()
    for number in range(int(count)):
        timer = number % TIMER_OF != TIMER_OF - 1
        made = Made(random.Random(f'states-{number}'), timer)
        names = sorted(made.names) or ['FRED<20>']
        asked = names[::2] if number % 2 else []
        path = written(f'{folder}/states-{number}.pcap', pcap(made.frames))
        sharkd.prefer(asked, timer)
        report = report_of(program, made.lines, asked or names)
        seen.update(words.split(' ')[0] for words in report.values())
        states = {frame: wanted_of(report[line]) for frame, line in made.datagrams.items()}
        yield path, first_difference(made, sharkd, path, states)
    yield from opened(command, sharkd, files)
    yield 'the end of sharkd', sharkd.end()
    print(', '.join(f'{number} {each}' for each, number in sorted(seen.items())))


if __name__ == '__main__':
    sys.exit(tally(cases(*sys.argv[1:])))
