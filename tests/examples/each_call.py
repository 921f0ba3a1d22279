#!/usr/bin/env python3
"""Calls that examples make between marks, with their requests for memory refused.  Usage: each_call.py SHIM PROGRAM SUBJECT

SHIM is tests/lib/refuse_memory.c, compiled, PROGRAM that of nb_examples, which answers one line of examples/SUBJECT.txt in each run. Of `memory` each
call asks for memory: its Nth request is refused, for N from 1 on until no call meets a refusal. Of `quiet` none does, and it answers as ever with
its first request refused. The last line is 'N passed, M failed'.
"""
import functools
import os
import pathlib
import re
import sys
import tempfile

sys.path.insert(1, f'{sys.path[0]}/../lib')
from example_lines import lines_of
from parts import tally
from served import Program, Served


def ran(served, counted, number=0):
    """What the program did of a line with this request of each call refused, and how many requests each call made."""
    os.truncate(counted, 0)
    did = served.run(of_call=number)
    return did, list(map(int, pathlib.Path(counted).read_text('ascii').split()))


def is_told(did):
    """Whether memory ran out in a call, its object answered as before, and then what the line has. A header is what a device has given by then."""
    lines = did.output.decode(errors='replace').splitlines()
    line, told, *_, last = lines if len(lines) > 2 else ('', '', '')
    answered = re.fullmatch('    answered: (.*memory,.*)', told)
    is_as_ever = answered and re.sub('memory, (as before, |4 bytes taken, )?', '', answered[1]) == line.partition(' = ')[2]
    return is_as_ever and (did.status, last) == (1, '1 examples, 1 wrong')


def memory(run):
    """Each request refused: whether each run goes as it should."""
    did, calls = run()
    most = max(calls, default=0)
    yield 'it asks for memory', did.status == 0 and most > 0
    for number in range(1, most + 1):
        yield f'request {number} of {most} refused', is_told(run(number)[0])
    yield 'no request refused', run(most + 1)[0].status == 0


def quiet(run):
    """The first request refused."""
    did, calls = run(1)
    yield 'no request between marks', did.status == 0 and calls and not any(calls)


def cases(shim, program, subject):
    """Each case, and whether it went wrong."""
    given = os.memfd_create('given')
    with tempfile.NamedTemporaryFile('r') as counted:
        os.environ['NBT_CALLS'] = counted.name
        with Served(Program(shim, [program], given)) as served:
            run = functools.partial(ran, served, counted.name)
            for line in lines_of(subject, {}):
                os.ftruncate(given, 0)
                os.pwrite(given, f'{line}\n'.encode(), 0)
                for what, is_well in {'memory': memory, 'quiet': quiet}[subject](run):
                    yield f'{line[:70]}: {what}', not is_well


if __name__ == '__main__':
    sys.exit(tally(cases(*sys.argv[1:])))
