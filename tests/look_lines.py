#!/usr/bin/env python3
"""The text of captures that `nbt-look --lines` prints, beside its objects, `nbt show` and tshark.

Usage: tests/look_lines.py [LOOK [NBT [CAPTURE..]]]; without captures those of tests/look_program.py. The last line is 'N passed, M failed, K
skipped'.

Of each capture the comments, ports, moments and ticks are those that its objects (`--json`) ask for, by docs/CAPTURES.md; `nbt show --brief`
reads of each payload the phrase of the list; and where tshark is installed the bytes of UDP are those that it has.
"""
import json
import os
import re
import shutil
import subprocess
import sys
import tempfile

sys.dont_write_bytecode = True
HERE = os.path.dirname(os.path.abspath(__file__))
sys.path[1:1] = [f'{HERE}/{it}' for it in ('lib', 'captures', '.', '../tools')]
from look_program import COUNTS, captures, is_fragment, is_plain, run, service_of, tshark_rows
from parts import equal, finish, part, skip

COMMENT = re.compile(r'# frame (\d+) \S+ \S+ > \S+')
# Words beside --lines, and which lines of the whole text they leave out.
WITHOUT = {'--no-ticks': lambda line: line.startswith('tick'), '--bare': COMMENT.fullmatch,
           '--quiet': lambda line: COUNTS.match(line[2:].encode())}


def main():
    look = os.path.abspath(sys.argv[1] if sys.argv[1:] else f'{HERE}/../crates/nbt_look/out/nbt_look')
    nbt = os.path.abspath(sys.argv[2] if sys.argv[2:] else f'{HERE}/../crates/nbt/out/nbt')
    with tempfile.TemporaryDirectory() as room:
        paths = sys.argv[3:] or captures(room)
        for name, judge in (('texts', texts), ('options', options), ('shown', lambda look, path: shown(look, nbt, path))):
            part(name, lambda judge=judge: [judge(look, path) for path in paths])
        if shutil.which('tshark'):
            part('tshark', lambda: [beside_tshark(look, path) for path in paths])
        else:
            skip('tshark', "it isn't there")
    return finish()


def lines(look, path, *words):
    return run(look, path, words=['--lines', *words]).stdout.decode().splitlines()


def objects(look, path, *words):
    return [json.loads(each) for each in run(look, path, words=['--json', '--quiet', *words]).stdout.splitlines()]


def texts(look, path):
    """All of a text but the bytes of payloads, of all packets and of some."""
    for words in ([], ['--cut'], ['--port', '138'], ['--kind', 'left-out,malformed', '--cut'], ['-c', '3']):
        filters = [each for each in words if each != '--cut']
        *given, counts = lines(look, path, *words)
        wanted = list(text_of(objects(look, path, *filters), '--cut' in words))
        name = f"{' '.join(words)} of {os.path.basename(path)}"
        equal([each if each[0] in '#t' else each.rpartition(' ')[0] for each in given], wanted, name)
        said = [each for each in run(look, path, words=filters).stdout.splitlines() if COUNTS.match(each)]
        equal([counts], ['# ' + each.decode() for each in said], f'the counts, {name}')


def text_of(listed, has_cut):
    """The lines of a text that these objects ask for, without payloads."""
    last = 0
    for each in listed:
        moment = last if each.get('moment') is None else each['moment']
        before, now = last // 1000, moment // 1000
        yield from (f'tick {second * 1000}' for second in range(before + 1, now + 1) if second <= before + 3 or second == now)
        last = max(last, moment)
        is_whole = not each.keys() & {'left_out', 'cut'}
        if not is_whole:
            yield f'# frame {each["frame"]} {each["brief"]}'
        if is_whole or ('cut' in each and has_cut):
            source, target = ('[%s]' % each[end] if ':' in each[end] else each[end] for end in ('from', 'to'))
            yield f'# frame {each["frame"]} {each["time"] or "-"} {source}:{each["source_port"]} > {target}:{each["target_port"]}'
            yield f'{each["port"]} {moment}'


def options(look, path):
    """What each option leaves out of a text."""
    whole = lines(look, path)
    for word, is_out in WITHOUT.items():
        equal(lines(look, path, word), [each for each in whole if not is_out(each)], f'{word} of {os.path.basename(path)}')


def shown(look, nbt, path):
    """The phrases that `nbt show` reads of a text, beside those of the list."""
    given = run(nbt, '--brief', '\n'.join(lines(look, path, '--no-ticks')).encode() + b'\n', ['show']).stdout.decode().splitlines()
    wanted = [each for each in objects(look, path) if not each.keys() & {'left_out', 'cut'}]
    equal([each.split(' ', 1)[1] for each in given], [f'{each["port"]} {each["brief"]}' for each in wanted], os.path.basename(path))


def beside_tshark(look, path):
    """The bytes of UDP payloads."""
    given, frame = {}, None
    for each in lines(look, path, '--no-ticks', '--quiet'):
        if each[0] == '#':
            frame = COMMENT.fullmatch(each)
        elif frame:
            given[frame[1]] = each.rpartition(' ')[2]
    for row in tshark_rows(path):
        payload, size = row['udp.payload'].replace(':', ''), 2 * (int(row['udp.length'].partition(',')[0] or 8) - 8)
        if is_plain(row) and service_of(row) and not is_fragment(row) and row['udp.checksum'] and 0 <= size <= len(payload):
            equal(given.get(row['frame.number']), payload[:size] or 'empty', f'frame {row["frame.number"]} of {os.path.basename(path)}')


if __name__ == '__main__':
    sys.exit(main())
