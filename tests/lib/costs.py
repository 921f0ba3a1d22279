#!/usr/bin/env python3
"""Runs a command, and prints what the checks that it started cost, crate by crate.  Usage: tests/lib/costs.py COMMAND [WORD ..]

ps looks at the processes of the prover once a second. A row of the table, as docs/PROOFS.md has it, is a crate: the processor seconds of its proof
and its program, and the most memory that its processes had at one time. What a process used in its last second is missing, so the rows add up to a
little less than the last line, which counts all that the command used. Both stand before the command's own last line; the status is the command's.
"""
import os
import re
import resource
import subprocess
import sys
import threading
import time
from collections import defaultdict

# Of each process its number, its parent's, the seconds that it and its dead children took, its kB of memory, and its words.
LISTED = ['ps', 'S', '-eo', 'pid=,ppid=,cputimes=,rss=,args=']
PROVER = re.compile(r'(?:\S*/)?rattle\S* .*--crate-name (\w+)')


class Costs:
    """What has been seen of the prover's processes."""

    def __init__(self):
        self.seconds, self.peaks = {}, defaultdict(int)

    def look(self):
        """Takes in the processes that there are now."""
        lines = subprocess.run(LISTED, stdout=subprocess.PIPE, text=True, errors='replace').stdout.splitlines()
        rows = {int(number): (int(parent), int(spent), int(memory), PROVER.match(words))
                for number, parent, spent, memory, words in (line.split(None, 4) for line in lines)}
        spent, memory = defaultdict(int), defaultdict(int)
        for number, row in rows.items():
            if row[3] and (above := list(ancestors(rows, number)))[-1] == os.getpid():
                top = [each for each in (number, *above) if each in rows and rows[each][3]][-1]
                spent[top, row[3][1]] += row[1]
                memory[row[3][1]] += row[2]
        self.seconds.update(spent)
        for crate, size in memory.items():
            self.peaks[crate] = max(self.peaks[crate], size)

    def table(self):
        """The lines of the table, in the order of crates.txt."""
        with open('crates.txt', encoding='utf-8') as file:
            listed = re.findall(r'^(\w+)\b[^:#\n]*:', file.read(), re.MULTILINE)
        yield '| Crate | Processor seconds | Memory, GB |\n|---|---|---|'
        for crate in sorted(self.peaks, key=lambda each: listed.index(each) if each in listed else len(listed)):
            yield f'| {crate} | {sum(spent for (_, name), spent in self.seconds.items() if name == crate):,} | {self.peaks[crate] / 2**20:.1f} |'
        yield f'| all | {sum(self.seconds.values()):,} | |'


def ancestors(rows, number):
    """The processes above one, up to this one or the first."""
    while number in rows and number != os.getpid():
        number = rows[number][0]
        yield number


def main():
    """Runs the command, looking at the processes meanwhile."""
    costs, began, ended, last = Costs(), time.monotonic(), threading.Event(), ''

    def watch():
        while not ended.wait(1):
            costs.look()

    watcher = threading.Thread(target=watch, daemon=True)
    with subprocess.Popen(sys.argv[1:], stdout=subprocess.PIPE, text=True, errors='replace') as command:
        watcher.start()
        for line in command.stdout:
            print(last, end='', flush=True)
            last = line
    ended.set()
    watcher.join()
    used = resource.getrusage(resource.RUSAGE_CHILDREN)
    print(*costs.table(), sep='\n')
    print(f'{(used.ru_utime + used.ru_stime) / 60:.1f} processor minutes in {(time.monotonic() - began) / 60:.1f} minutes '
          f'on {len(os.sched_getaffinity(0))} processors')
    print(last, end='', flush=True)
    return 128 - command.returncode if command.returncode < 0 else command.returncode


if __name__ == '__main__':
    sys.exit(main())
