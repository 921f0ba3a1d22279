"""Tables of what is measured, a row for each way, beside its bar: for the scripts tests/bench*.py. And what measures."""
import atexit
import functools
import os
import re
import resource
import shutil
import subprocess
import tempfile
import time
from dataclasses import dataclass
from typing import Optional

from parts import check, counts
from served import Program, Served, compiled

RUNS = 5
FOLDER = tempfile.TemporaryDirectory()
# By how much a bar may be missed: what differs from run to run, and from compiler to compiler.
SLACK = 1.05


@dataclass
class Row:
    """What a way costs. `of` is how many times that of the way that it is held against, `most` how many it may be, and `known` how many it is known
    to be where that is more."""

    title: str
    counted: Optional[int] = None    # instructions for a payload, where they can be counted
    seconds: Optional[float] = None  # of processor time, for all payloads
    of: Optional[float] = None
    most: Optional[float] = None
    said: str = ''                   # what else was found, or why nothing was
    known: float = 0.0
    cells: tuple = ()                # what stands in the place of instructions and seconds

    def __str__(self):
        cells = self.cells or (shown(self.counted), '' if self.seconds is None else f'{self.seconds:.3f}')
        return f'| {self.title} | {" | ".join(cells)} | {self.times()} |  {self.said}'.rstrip()

    def times(self):
        if self.of is None or self.most is None:
            return '' if self.of is None else f'{self.of:.2f}'
        return f'{self.of:.2f} of {self.most:.2f}' + (f', known to be {self.known:.2f}' if self.known and self.of > self.most else '')


def heading(*words):
    print(f'| {" | ".join(words)} |\n|{"---|" * len(words)}', flush=True)


def show(rows):
    """Prints rows as they are measured, and judges each that has a bar; a number that couldn't be had is left out."""
    for row in rows:
        print(row, flush=True)
        if row.most is not None and row.of is None:
            counts['skipped'] += 1
        elif row.most is not None:
            most = max(row.most, row.known)
            check(row.of <= most * SLACK, f'{row.title}: {row.of:.2f}, where at most {most:.2f} was expected')


HEADING = ('Way', 'Instructions', 'Seconds', 'Times, of at most')


def shown(number):
    return '' if number is None else f'{number:,}'


def ratio(row, bar):
    """How many times another row's cost a row's is: in instructions, where they were counted."""
    if row.counted and bar.counted:
        return row.counted / bar.counted
    return row.seconds / bar.seconds if row.seconds and bar.seconds else None


def run(command, path, **streams):
    """A command, given a file."""
    with open(path, 'rb') as given:
        return subprocess.run(command, stdin=given, check=True, **{'stdout': subprocess.DEVNULL, **streams})


def printed(command, path):
    """The bytes that a command prints, given a file."""
    return run(command, path, stdout=subprocess.PIPE).stdout


def instructions(command, path):
    """How many instructions the command takes over an input, or None without valgrind."""
    if not shutil.which('valgrind'):
        return None
    given, served = counted(*command)
    os.truncate(given, 0)
    with open(path, 'rb') as file:
        os.pwrite(given, file.read(), 0)
    did = served.run(seconds=3_600)
    assert did.status == 0, did
    return int(re.search(rb'I +refs: +([\d,]+)', did.errors).group(1).replace(b',', b''))


@functools.cache
def counted(*command):
    """The input of a command, and the command, which valgrind's cachegrind loads once for all of its runs."""
    given, shim = os.memfd_create('given'), compiled(FOLDER.name, 'refuse_memory', '-DSERVES_ONLY')
    count = ['valgrind', '--tool=cachegrind', '--cache-sim=no', '--cachegrind-out-file=/dev/null']
    served = Served(Program(shim, command, given, count))
    atexit.register(served.__exit__)
    return given, served


def peak(command, path):
    """The most kB that were resident, by GNU time, whose own two MB are the least that it shows, or None without it."""
    if not os.path.exists('/usr/bin/time'):
        return None
    return int(run(['/usr/bin/time', '-f', '%M'] + command, path, stderr=subprocess.PIPE).stderr.split()[-1])


def wall_seconds(command, path):
    """The wall seconds of one run."""
    start = time.perf_counter()
    run(command, path)
    return time.perf_counter() - start


def call_seconds(command, path):
    """The processor time that a command says its calls took."""
    return int(printed(command, path).split()[-1]) / 1e9


def processor_seconds(command, path):
    """The processor time of a command."""
    before = resource.getrusage(resource.RUSAGE_CHILDREN)
    run(command, path)
    after = resource.getrusage(resource.RUSAGE_CHILDREN)
    return after.ru_utime + after.ru_stime - before.ru_utime - before.ru_stime


def least(measure, *words):
    return min(measure(*words) for _ in range(RUNS))
