#!/usr/bin/env python3
"""Refuses each request of a program for memory in turn, and prints what failed.

Usage: every_request.py FORM SHIM INPUT COMMAND [WORD]..

The program reads INPUT. SHIM is tests/lib/refuse_memory.c, compiled. With ample memory the program writes and answers what is compared
with, and with a request refused that no longer comes it has to do so too. What it may do where one is refused, the FORM says:

- `command`: end with status 3, `nbt: memory` and what the command leaves then: show and replay a front of the output that ends
  where a line does, the others nothing. Of words that are no command line, and of bad digits, it may also end as ever, but not at each
  request.
- `examples`: answer as ever but for one example, whose answer is that memory ran out; or end with status 3 and `nb_examples: memory`.
  An answer may stay as ever, but not at each request.
- `look`: end with status 3, `nbt-look: .. memory ran out`, or that the command line can't be read, and a front of the list that ends where a
  line does; of a bad command line as ever, but not at each request.

A case is a request, that there are some, that some refusal is met, and that without one all is as ever. The last line is
'N passed, M failed'.
"""
import difflib
import os
import re
import sys
import tempfile

from parts import tally
from served import Program, Served


def command(ample, ran, words):
    if ran.status == 3 and ran.errors == b'nbt: memory\n':
        is_front = words[:1] in (['show'], ['replay']) and ample.output.startswith(ran.output) and ran.output.endswith(b'\n')
        return 'refused' if is_front or not ran.output else None
    return 'as ever' if ran == ample and (ran.status == 2 or ran.errors == b'nbt: bad hex\n') else None


def examples(ample, ran, _):
    if ran.status == 3:
        return 'refused' if ran.errors == b'nb_examples: memory\n' else None
    if ran.status == 0:
        return 'as ever' if ran.output == ample.output else None
    lines = (it.output.decode('utf-8', 'replace').splitlines() for it in (ample, ran))
    changed = list(difflib.unified_diff(*lines, n=0, lineterm=''))
    forms = (r'[+-]\d+ examples, ', r'\+[a-z]+\.', r'(?i)\+    .*memory')
    counts, calls, answers = ([it for it in changed if re.match(form, it)] for form in forms)
    return 'refused' if ran.status == 1 and [len(it) for it in (counts, calls, answers)] == [2, 1, 1] else None


LOOK_REFUSED = re.compile(rb"nbt-look: (the command line can't be read|(standard input: )?memory ran out( at byte \d+, after frame \d+)?)\n")


def look(ample, ran, _):
    if ran.status == 3 and LOOK_REFUSED.fullmatch(ran.errors):
        listed = re.split(rb'^\d+ frames?, ', ran.output, maxsplit=1, flags=re.MULTILINE)[0]
        return 'refused' if ample.output.startswith(listed) and (not listed or listed.endswith(b'\n')) else None
    return 'as ever' if ran == ample and ran.status == 2 else None


FORMS = {'command': command, 'examples': examples, 'look': look}


def tried(form, program):
    """Each case, whether it went well, and why not."""
    with tempfile.NamedTemporaryFile('r') as counted:
        ample, requests = program.run(NBT_REQUESTS=counted.name), int(counted.read() or 0)
    yield f'{requests} requests for memory', requests > 0, 'there is none'
    refused = 0
    with Served(program) as served:
        for number in range(1, requests + 1):
            ran = served.run(number)
            did = FORMS[form](ample, ran, program.command[1:])
            refused += did == 'refused'
            yield f'request {number} of {requests} refused', did is not None, f'status {ran.status}, {ran.errors[-200:]!r}'
    yield 'some request that is refused is met', refused > 0, 'none is'
    yield 'no request refused', program.run(NBT_REFUSED=str(requests + 1)) == ample, 'it does otherwise'


def main():
    form, shim, given, *words = sys.argv[1:]
    cases = tried(form, Program(shim, words, os.open(given, os.O_RDONLY)))
    return tally((what, not is_well and why) for what, is_well, why in cases)


if __name__ == '__main__':
    sys.exit(main())
