#!/usr/bin/env python3
"""The built program as a process, over what a system gives it: full disks, closed pipes, terminals, little memory.

Usage: tests/process.py [PROGRAM]; its last line is 'N passed, M failed, K skipped'. Each run has to end, by no signal,
with a status of 0 to 3 and that status's text, and what it wrote has to be a front of what it writes otherwise.
"""
import itertools
import resource
import select
import shutil
import sys
import tempfile

sys.path[1:1] = [f'{sys.path[0]}/{it}' for it in ('lib', 'program')]
from limits import MANY
from parts import check, counts, enough, finish, least, part, skip
from process_inputs import COMMANDS, FRED, PAIR, READING, captures, chained, repeated, roomy
from process_runs import STREAMS, at_terminal, instructions, limited, program, run, shown, start, starts
from served import requests as counted_requests

UNREAD, UNWRITTEN = (3, b'', b'nbt: read\n'), (3, b'', b'nbt: write\n')
# What may stand for streams, also where SIGPIPE is ignored.
OVER = [
    *({'stdin': it} for it in ('closed', 'a directory', 'opened for writing', 'one that would have to be waited for')),
    *({'stdout': it} for it in ('closed', 'a broken pipe', 'full', 'opened for reading')),
    *({'stderr': it} for it in ('closed', 'a broken pipe', 'full')),
    {'stdin': 'a directory', 'stderr': 'closed'}, {'stdout': 'a broken pipe', 'stderr': 'closed'}, dict.fromkeys(STREAMS, 'closed'),
    {'stdout': 'a broken pipe', 'restore_signals': False},
]


def named(words):
    """A command in the name of a case."""
    return f'nbt {" ".join(words)[:60]}'


def devices():
    """Each command over streams that can't be read or written. Where nothing is to be read or written there, nothing fails."""
    for words, given in COMMANDS:
        usual = run(words, given)
        for over in OVER:
            ended = UNREAD if 'stdin' in over and (given or words == ['merge']) else usual
            status, output, errors = UNWRITTEN if 'stdout' in over and ended[1] else ended
            wanted = status, output, b'' if 'stderr' in over else errors
            check(run(words, given, **over) == wanted, f'{named(words)}, {over}')
    for words in READING:
        wanted = UNREAD if words[0] in ('merge', 'list', 'agree') else (1, b'', b'nbt: line 1\n')
        check(run(words, stdin='zero bytes without end') == wanted, f'{named(words)}, zero bytes without end')


def long_runs(count, data=''):
    """Each command over as many keys, each with these bytes."""
    given = captures(count, data)
    status, table, _ = run(['save', *MANY], given)
    check(status == 0, f'nbt save: a table of {count} keys')
    reading = ((['show'], given), (['replay', *MANY, 'FRED<20>'], given), (['save', *MANY], given), (['merge', *MANY], table * 2))
    return [*reading, (['list', *MANY], table * 2), (['agree'], table * 2), (['build', 'unique', *PAIR, '5a' * 40_000, '200'], b'')]


def cut_reports():
    """A reader that goes away inside a report, or inside the line of a table."""
    for words, given in long_runs(1_000):
        for size in (1, 1_000) if words != ['agree'] else ():
            with tempfile.TemporaryFile() as source:
                source.write(given)
                source.seek(0)
                process = start(words, stdin=source, pipesize=4_096)
            output = process.stdout.read(size)
            process.stdout.close()
            ended = process.wait(), b'', process.stderr.read()
            check(ended == UNWRITTEN and run(words, given)[1].startswith(output), f'{named(words)}, {size} bytes of its output read')


def stopping_input():
    """An input that stops after some bytes and then goes on: the program waits, also over a stop of its own, and does as ever. What was
    finished shows before."""
    for words, given in COMMANDS:
        for place in (1, len(given) // 2, len(given) - 1) if given else ():
            ended = run(words, (given[:place], given[place:]))
            check(ended == run(words, given), f'{named(words)}, an input that stops after {place} bytes')
    for words in (['show'], ['replay', 'FRED<20>']):
        process = start(words)
        process.stdin.write(b'tick 10\ntick 2')
        first, waits = process.stdout.readline(), not select.select([process.stdout], [], [], 0.1)[0]
        output, _ = process.communicate()
        check(waits and first + output == run(words, b'tick 10\ntick 2')[1], f'{named(words)}, an input that stops inside a line')


def open_inputs():
    """An input that stays open after a line at which the command ends, or that can't be written: it doesn't wait for more."""
    malformed, two = b'tick 1\nx\n', captures(2)
    for words, given in [(['show'], malformed), (['replay', 'FRED<20>'], malformed), (['save'], malformed),
                         (['save', '--keys', '1'], two), (['save', '--per-source', '1'], two)]:
        check(run(words, given, is_open=True) == run(words, given), f'{named(words)}, an input that stays open')
        if given == malformed and words != ['save']:
            check(run(words, b'tick 1\n', is_open=True, stdout='full') == UNWRITTEN, f'{named(words)}, an open input, a full output')


def terminals():
    """A terminal as all three streams, and as standard error alone: there what `nbt help` says of a line that says why follows it."""
    for words, given in COMMANDS:
        status, output, errors = run(words, given)
        check(at_terminal(words, given) == (status, b'', output + shown(errors)), f'{named(words)} at a terminal')
        check(at_terminal(words, given, ['stderr']) == (status, output, shown(errors)), f'{named(words)}, errors at a terminal')
    for (status, output, errors), over in ((UNREAD, {'stdin': 'a directory'}), (UNWRITTEN, {'stdout': 'full'})):
        ended = at_terminal(['replay', 'FRED<20>'], b'tick 1\n', ['stderr'], **over)
        check(ended == (status, output, shown(errors)), f'nbt replay, {over}, errors at a terminal')


def short_files():
    """A file that takes fewer bytes than there are gets exactly those: some forty numbers below what an output has, and 16 kB of a long
    one."""
    for words, given in (*COMMANDS, *long_runs(1_000)):
        output = run(words, given)[1]
        for size in range(0, len(output), 1 + len(output) // 40) if len(output) < 16_384 else (16_384,):
            with tempfile.TemporaryFile() as file:
                ended = run(words, given, stdout=file, before=limited(size, resource.RLIMIT_FSIZE), restore_signals=False)
                file.seek(0)
                check(ended == UNWRITTEN and file.read() == output[:size], f'{named(words)}, {size} bytes of room')


def short_memory():
    """Limits on the program's memory from 1 to 64 megabytes, and closer ones where it just starts.

    Below some limit it isn't the program that fails but its start: the system's loader maps the program and the C
    library before any of its code runs. That is told apart by the loader alone, which under the same limit is asked
    for the libraries that it would load. Errors of `save` go to a terminal, which shows what they mean too, or the line alone.
    """
    least_kept = next(it for it in itertools.count(64, 64) if starts([], it << 10))
    print(f'the program starts from {least_kept} kB of memory on')
    limits = [it << 20 for it in (*range(1, 16), *range(16, 65, 4))] + [(least_kept + it) << 10 for it in range(0, 2_048, 256)]
    longest = b'139 0 0001ffff' + b'5a' * 131_071 + b'\n'
    for words, given in (*long_runs(3_000, '5a' * 150), (['name', 'FRED<20>'], b''), (['show'], longest)):
        whole = run(words, given)
        for limit in limits:
            at = {'streams': ['stderr']} if words[0] == 'save' else {}
            ended = (at_terminal if at else run)(words, given, before=limited(limit), **at)
            is_right = ended == whole or limit < 64 << 20 and (is_told(ended, whole[1]) or not ended[1] and not starts(words, limit))
            check(is_right, f'{named(words)} in {limit >> 10} kB: {ended[0]} {ended[2][:60]}')


def room():
    """Inputs that want a known room, in little more memory than that."""
    for name, words, given, limit in roomy():
        ended = run(words, given, before=limited(limit << 10))
        check(ended == (0, run(words, given)[1], b''), f'nbt {words[0]}, {name} in {limit} kB: {ended[0]} {ended[2][:60]}')


def requests():
    """What a line takes is used again for the next one: ten times as many lines make as many requests for memory."""
    with tempfile.TemporaryDirectory() as folder:
        for words in (['show'], ['show', '--json'], ['replay', 'FRED<20>'], ['replay', '--json', 'FRED<20>'], ['save']):
            few, many = (counted_requests(folder, [program, *words], input=repeated(times)) for times in (100, 1_000))
            check(0 < many == few, f'{named(words)}, requests for memory: {many} for 5,000 lines, {few} for 500')


def pointers():
    """Names that lead to the end of a chain of pointers cost what those at its front do: it is followed once for all."""
    if not shutil.which('valgrind'):
        skip('pointers', 'valgrind')
        return
    near, far = (instructions(['show'], chained(place)) for place in (0, 7_999))
    check(far < 2 * near, f'nbt show, 4,000 names at the end of 8,000 pointers: {far} instructions, at the front {near}')


def short_stack():
    """The least stack that docs/ATTACKS.md has beside a run's words and environment, 96 kB, with each command, but for
    long words, and with long inputs. The system begins the stack elsewhere in each run, so each has several."""
    records = f'137 0 000185000000{150:04x}00000000' + f'{FRED}00200001000493e0000600000a000005' * 150 + '\n'
    deep = [(['show', *how], records.encode()) for how in ([], ['--json'], ['--brief'], ['--partial'])]
    for words, given in (it for it in (*COMMANDS, *long_runs(2_000), *deep, (['replay', '--help'], b'')) if len(' '.join(it[0])) < 1_000):
        endings = {run(words, given, before=limited(96 << 10, resource.RLIMIT_STACK), env={}) for _ in range(10)}
        check(endings == {run(words, given)}, f'{named(words)} with 96 kB of stack: {[it[0] for it in endings]}')


def is_told(ended, whole):
    """Whether a run says that memory ran out, after a front of what it prints otherwise."""
    status, output, errors = ended
    return status == 3 and errors in (b'nbt: memory\n', shown(b'nbt: memory\n')) and whole.startswith(output)


for each in (devices, cut_reports, stopping_input, open_inputs, terminals, short_files, short_memory, room, requests, pointers,
             short_stack):
    part(each.__name__, each)
enough(sum(counts.values()), sum(least().values()), 'all')
sys.exit(finish())
