#!/usr/bin/env python3
"""Random and changed captures, saved tables, streams and command lines for the built program.

Usage: tests/fuzz.py [--seconds N] [--seed N] [--inputs N] [PROGRAM]. They are made in rounds, by tests/program/chance.py. The runs are held against rules:

- told: within limits of time and memory it prints what the model does and ends as that says (tests/model, written from the pages alone;
  tests/program/printed.py): of any capture and any lines, whatever the order and number of fragments and tables, of any names, and of what is
  built; a command line that clap answers prints a help, or ends with status 2 and its text on standard error;
- the same answer twice: the same words and input give the same output, errors and status;
- short reads: so they do over devices that move few bytes or are interrupted (tests/lib/devices.c);
- memory refused: with a request for memory refused (tests/lib/refuse_memory.c) it does what tests/lib/every_request.py has a command do.

It prints the seed, the number of rounds and of runs, how often each rule was applied, and for each failure the rule and the command that repeats
it, with the file that has its input. The status is 1 where there was a failure, or a rule that was never applied.
"""
import argparse
import collections
import os
import random
import resource
import shlex
import shutil
import subprocess
import sys
import tempfile
import time

sys.path[1:1] = [f'{sys.path[0]}/program']
from beside_model import LONGEST_PRINTED, ROOT, Cases, unlike
from chance import made_by_chance
from every_request import command
from fuzz_inputs import Inputs
from parts import counts
from served import Run, compiled

SECONDS, MEMORY = 30, 512 << 20
RULES = ('told', 'the same answer twice', 'short reads', 'memory refused')
# How often one of the last three is applied to a run.
OFTEN = {'the same answer twice': 0.3, 'short reads': 0.1, 'memory refused': 0.1}


class Fuzz(Cases):
    """Runs under limits of time and memory beside the model, of which some are repeated: as they were, over slow devices, and with too little
    memory."""

    def __init__(self, program, rng, folder):
        super().__init__(program, rng)
        self.folder, self.shims = folder, {it: compiled(folder, it) for it in ('devices', 'refuse_memory')}
        self.statuses, self.applied = collections.Counter(), collections.Counter()

    def run(self, words, given, shim=None, **asked):
        """What a run did; a shim is asked by variables. One that takes too long has no status."""
        env = os.environ | asked | ({'LD_PRELOAD': self.shims[shim]} if shim else {})
        limit = lambda: resource.setrlimit(resource.RLIMIT_AS, (MEMORY, MEMORY))
        try:
            made = subprocess.run([self.program, *words], input=given, capture_output=True, timeout=SECONDS, preexec_fn=limit, env=env)
        except subprocess.TimeoutExpired as late:
            made = subprocess.CompletedProcess(late.cmd, None, b'', b'')
        self.statuses[made.returncode] += 1
        return Run(made.returncode, made.stdout, made.stderr)

    def judge(self, words, given, why, rule='told', **asked):
        """Counts a case. Where its rule doesn't hold the input is kept, and the command that repeats it is printed."""
        self.applied[rule] += 1
        if why:
            path = f'{self.folder}/input-{counts["failed"]}'
            with open(path, 'wb') as kept:
                kept.write(given)
            line = [*(f'{name}={value}' for name, value in asked.items()), 'nbt', *map(shlex.quote, words)]
            print(f'    {" ".join(line)} <{path}'.encode('utf-8', 'surrogateescape').decode('utf-8', 'replace')[:LONGEST_PRINTED])
        super().judge(words, given, why and f'rule "{rule}": {why}')

    def check(self, words, given):
        """A command beside the model; and by chance it is repeated."""
        super().check(words, given)
        rules = {'the same answer twice': self.twice, 'short reads': self.slowly, 'memory refused': self.without_memory}
        chosen = [rule for rule, often in OFTEN.items() if self.rng.random() < often]
        made = self.run(words, given) if chosen else None
        for rule in chosen:
            rules[rule](rule, words, given, made)

    def twice(self, rule, words, given, made):
        self.judge(words, given, unlike(self.run(words, given), made), rule)

    def slowly(self, rule, words, given, made):
        """Reads and writes that move few bytes, and are interrupted, make no difference. A word @FILE would be another one."""
        if not any(it.startswith('@') for it in words):
            choice = self.rng.choice
            most = choice((1, 2, 7, 100, 4_095)) if len(given) + len(made.output) < 20_000 else 1_000
            asked = {'NBT_MOST': most, 'NBT_READ_INTERRUPTS': choice((0, 0, 1, 5)), 'NBT_WRITE_INTERRUPTS': choice((0, 0, 1, 5))}
            asked = {name: str(value) for name, value in asked.items()}
            self.judge(words, given, unlike(self.run(words, given, 'devices', **asked), made), rule, **asked)

    def without_memory(self, rule, words, given, made):
        """Some requests for memory are refused, one in each run."""
        path = f'{self.folder}/requests'
        self.judge(words, given, unlike(self.run(words, given, 'refuse_memory', NBT_REQUESTS=path), made), rule)
        with open(path, encoding='ascii') as counted:
            requests = range(1, int(counted.read()) + 1)
        self.judge(words, given, '' if requests else 'it asks for no memory', rule)
        for which in self.rng.sample(requests, min(len(requests), 3)):
            short = self.run(words, given, 'refuse_memory', NBT_REFUSED=str(which))
            is_right = command(made, short, words) is not None
            self.judge(words, given, '' if is_right else f'it ends with {short.status}, {short.errors!r}', rule, NBT_REFUSED=which)


def main():
    parser = argparse.ArgumentParser(description=__doc__.split('\n\n')[0])
    parser.add_argument('--seconds', type=float, default=60)
    parser.add_argument('--seed', type=int, default=random.SystemRandom().randrange(1 << 32))
    parser.add_argument('--inputs', type=int, default=1 << 62, help='the most rounds')
    parser.add_argument('program', nargs='?', default=os.path.join(ROOT, 'crates', 'nbt', 'out', 'nbt'))
    given = parser.parse_args()
    print(f'seed {given.seed}', flush=True)
    fuzz, rounds = Fuzz(os.path.realpath(given.program), random.Random(given.seed), tempfile.mkdtemp(prefix='nbt-fuzz-')), 0
    inputs, end = Inputs(fuzz.rng), time.monotonic() + given.seconds
    while rounds < given.inputs and time.monotonic() < end:
        rounds += 1
        made_by_chance(fuzz, inputs)
    statuses = ', '.join(f'{fuzz.statuses[status]} of status {status}' for status in range(4))
    print(f'{rounds} rounds, {sum(fuzz.statuses.values())} runs ({statuses}), {counts["failed"]} failed')
    print('applied: ' + ', '.join(f'{it} {fuzz.applied[it]}' for it in RULES))
    missed = [it for it in RULES if not fuzz.applied[it]]
    if missed:
        print(f'never applied: {", ".join(missed)}')
    if not counts['failed']:
        shutil.rmtree(fuzz.folder)
    sys.exit(counts['failed'] > 0 or bool(missed))


if __name__ == '__main__':
    main()
