#!/usr/bin/env python3
"""What the built program's commands cost, over captures made here, beside bars.  Usage: tests/bench.py [--small] [PROGRAM]

Prints the lines of the first two tables of docs/PERFORMANCE.md. A row is a command and a workload: instructions a packet (counted by
valgrind's cachegrind, where it is installed; they are the same from run to run), the peak of resident memory, how many times the instructions
are those of the plain program of tests/plain/ on the same crates, or of the same packets as text, beside the most that they may be
(tests/bench/bench_bars.py), and packets a second (the best of three runs). Then come rows on growth. A number that is more than 5 % past its
bar, or past what it is known to be, is a failure, and the last line counts them. With --small captures are a tenth as long, those of an
office a twentieth, one run is timed, and rows on growth have two sizes of three.
"""
import os
import random
import shutil
import subprocess
import sys
import tempfile

sys.dont_write_bytecode = True
sys.path[1:1] = [f'{sys.path[0]}/{it}' for it in ('bench', 'lib')]
import plain_program
from bench_bars import GROWN, GROWTH, KNOWN, PER_SOURCE, PIECES, PLAIN, TEXT, WITHOUT, WORST
from bench_captures import (MOST_IN_A_CAPTURE, descending, labels, office, one_address, pointed, refused, saved_after, shuffled,
                            unfragmented, written)
from bench_rows import Row, heading, instructions, peak, printed, show, shown, wall_seconds
from limits import MANY, MOST_KEYS
from parts import check, counts, finish

HERE = os.path.dirname(os.path.abspath(__file__))
PROGRAM = os.path.join(HERE, '..', 'crates', 'nbt', 'out', 'nbt')
REPLAY, SHOW, SAVE, MERGE = ['replay', 'FRED<20>'], ['show'], ['save', *MANY], ['merge', *MANY]
# The order of lines is nothing to `show`, which has the same pieces shuffled.
LAST_FIRST = 'pieces of a byte, descending'
# How many tables of a byte each are merged into one entry.
TABLES = 1_000
GROWING = (('pieces of a byte, shuffled', REPLAY, lambda size: shuffled(random.Random(size), 1, size, 1), PIECES),
           (LAST_FIRST, REPLAY, lambda size: descending(random.Random(size), size), GROWTH),
           ('keys', ['replay', *MANY, 'FRED<20>'], one_address, GROWTH),
           ('keys of an address, counted', ['replay', *MANY, '--per-source', str(MOST_KEYS - 1), 'FRED<20>'], one_address, GROWTH),
           ('lines', SHOW, lambda size: office(138, size), GROWTH),
           ('keys', SAVE, one_address, GROWTH),
           ('keys', MERGE, one_address, GROWTH))


def captured(folder, title, lines):
    """The file of a capture, and its number of packets."""
    lines = list(lines)
    path = written(folder, title, lines)
    assert os.path.getsize(path) <= MOST_IN_A_CAPTURE
    return path, sum(each.startswith(b'13') for each in lines)


def workloads(folder, part=1):
    """Writes captures of fragments, or one of so many parts of them, and yields each one's title, file and number of packets."""
    rng = random.Random(139)
    made = (('unfragmented', unfragmented(rng, 25_000 // part)),
            ('pieces of 32 bytes, shuffled', shuffled(rng, 1_000 // part, 2_048, 32)),
            ('pieces of a byte, shuffled', shuffled(rng, 1, 65_467 // part, 1)),
            (LAST_FIRST, descending(rng, 65_467 // part)),
            ('pieces of 400 bytes, shuffled', shuffled(rng, 100 // part, 65_000, 400)))
    for title, lines in made:
        yield title, *captured(folder, title, lines)


def saved_parts(program, folder, path):
    """A file with eight saved tables, a line each: those of eight parts of the capture."""
    with open(path, 'rb') as capture:
        lines = capture.readlines()
    saved = os.path.join(folder, 'saved')
    with open(saved, 'wb') as out:
        for part in range(8):
            text = b''.join(each for each in lines[part::8] if each.startswith(b'138'))
            subprocess.run([program, *SAVE], input=text, stdout=out, check=True)
    return saved


class Bench:
    """The program that is measured, and the plain one if it can be compiled."""

    def __init__(self, program, small, folder):
        self.program, self.folder, self.small = program, folder, small
        self.part, self.times, least = (10, 1, 100) if small else (1, 4, 250)
        self.sizes = [least, least * 100] if small else [least, least * 10, least * 100]
        self.plain = plain_program.compiled(folder)

    def row(self, words, title, path, packets, beside=None, bar=None):
        """Prints the row of a command, and gives its instructions. The last column has them beside so many others."""
        command = [self.program, *words]
        counted = instructions(command, path)
        cells = (shown(None if counted is None else counted // packets), shown(peak(command, path)))
        rate = packets / min(wall_seconds(command, path) for _ in range(1 if self.small else 3))
        name = ' '.join([words[0], *(it for it in words if it in TEXT)])
        self.judged(name, title, counted / beside if counted and beside else None, bar, cells, f'{rate:,.0f} packets a second')
        return counted

    def judged(self, name, title, of, bar, cells, said=''):
        """Prints a row beside its bar, if it has one."""
        key = name, title
        known = KNOWN[key][self.small] if key in KNOWN else 0
        show([Row(f'`{name}` | {title}', of=of, most=None if key in WITHOUT else bar, said=said, known=known, cells=cells)])

    def beside_plain(self, words, title, path, packets):
        """The row of a command beside the plain program, which prints the same."""
        beside = None
        if self.plain:
            beside, same = instructions([self.plain, *words], path), printed([self.plain, *words], path) == printed([self.program, *words], path)
            check(same, f'{words[0]}, {title}: the plain program prints the same')
        return self.row(words, title, path, packets, beside, PLAIN[words[0]])

    def fragments(self):
        """The rows of captures of fragments, for each command."""
        for title, path, packets in workloads(self.folder, self.part):
            for words in (REPLAY, SHOW) if title != LAST_FIRST else (REPLAY,):
                text = self.beside_plain(words, title, path, packets)
                self.row(words + ['--json'], title, path, packets, text, TEXT['--json'])
            self.beside_plain(SAVE, title, path, packets)
            saved = saved_parts(self.program, self.folder, path)
            if os.path.getsize(saved) <= MOST_IN_A_CAPTURE:
                self.beside_plain(MERGE, title, saved, packets)

    def stations(self):
        """The rows of what an office's stations send to each port, as text, as phrases and as objects."""
        for port, count in ((137, 50_000), (138, 40_000), (139, 40_000)):
            title = f'an office, port {port}'
            capture = captured(self.folder, title, office(port, count // (20 if self.small else 1)))
            text = self.beside_plain(SHOW, title, *capture)
            for form, bar in TEXT.items():
                self.row(SHOW + [form], title, *capture, text, bar)

    def longest(self):
        """The rows of packets of 64,800 bytes: one that is refused, and beside it the one of which most labels are read."""
        least = self.row(SHOW, '64,800 bytes, refused', *captured(self.folder, 'refused', refused(64_800, self.times)))
        self.row(SHOW, '10,800 to 111 labels', *captured(self.folder, 'pointed', pointed(labels(111), 10_800, self.times)), least, WORST)

    def flood(self):
        """The rows of one address's keys: not counted, all of them counted, and limited to fewer."""
        path, packets = captured(self.folder, 'one address', one_address(60_000 // self.part))
        free = self.row(['replay', *MANY, 'FRED<20>'], 'one address', path, packets)
        for most in (60_000, 1_000, 64):
            words = ['replay', *MANY, '--per-source', str(most), 'FRED<20>']
            self.row(words, f'one address, {most:,} keys of it', path, packets, free, PER_SOURCE)

    def growth(self):
        """A line for each way to grow: the instructions of one among so many, and among up to a hundred times as many."""
        if not shutil.which('valgrind'):
            counts['skipped'] += len(GROWING) + 1
            return
        costs = [(words, title, list(self.costs_of_one(words, lines)), bar) for title, words, lines, bar in GROWING]
        costs.append((MERGE, 'bytes of an entry that grows', [self.cost_of_a_byte(size) for size in self.sizes], GROWN))
        for words, title, of_sizes, bar in costs:
            self.judged(words[0], title, of_sizes[-1] / of_sizes[0], bar, tuple(f'{each:,.0f}' for each in of_sizes))

    def cost_of_a_byte(self, held):
        """The instructions for a saved table of a byte that is merged behind so many bytes of its key: these grow in place."""
        alone, grown = (written(self.folder, f'{count} tables', saved_after(held, count)) for count in (0, TABLES))
        return (instructions([self.program, *MERGE], grown) - instructions([self.program, *MERGE], alone)) / TABLES

    def costs_of_one(self, words, lines):
        """The instructions for each packet of each size, without those for none."""
        command, is_merge = [self.program, *words], words == MERGE
        none = instructions(command, written(self.folder, 'none', [b'4e42543200000000\n' * 8] if is_merge else []))
        for size in self.sizes:
            path, packets = captured(self.folder, 'growing', lines(size))
            yield (instructions(command, saved_parts(self.program, self.folder, path) if is_merge else path) - none) / packets


def main():
    words = [each for each in sys.argv[1:] if each != '--small']
    with tempfile.TemporaryDirectory() as folder:
        bench = Bench(words[0] if words else PROGRAM, '--small' in sys.argv, folder)
        heading('Command', 'Capture', 'Instructions', 'Peak kB', 'Times, of at most')
        for rows in (bench.fragments, bench.stations, bench.longest, bench.flood):
            rows()
        print()
        heading('Command', 'Of', *(f'{size:,}' for size in bench.sizes), 'Times, of at most')
        bench.growth()
    if not bench.plain:
        print('skipped: the rows beside the plain program: ' + plain_program.WANTED)
    return finish()


if __name__ == '__main__':
    sys.exit(main())
