#!/usr/bin/env python3
"""What the program prints of captures and saved tables, with `--json` and without, beside a model that reads payloads and tables.

Usage: tests/program/beside_model.py [--seed N] [--payloads N] [--files FILE.. --] [PROGRAM]; its last line is 'N passed, M failed, K
skipped', the one before says what was compared. A case is a command with an input: those of tests/cases, also for the commands that read
alike, the payloads of the examples of crates/nb_examples, the captures of examples/, the examples cut at each length, and captures, saved
tables and words made by chance, until so many payloads (10,000) were shown. It prints what the model has, byte for byte, and ends as that
says, with `--json` too, where the command takes it. A case is also each kind of front and each phrase of docs/FORMATS.md: there were
some; and the two longest phrases are as long as that page has it, and none is longer. With --files there are the commands of these files of
tests/cases alone.
"""
import argparse
import collections
import os
import pathlib
import random
import re
import shlex
import subprocess
import sys
import tempfile

TESTS = os.path.dirname(os.path.dirname(os.path.abspath(__file__)))
sys.path[1:1] = [os.path.join(TESTS, it) for it in ('', 'captures', 'lib', 'program')]
from chance import made_by_chance
from example_lines import definitions
from fuzz_inputs import OPTIONS, ROOT, Inputs, capture_lines, capture_of
from model.objects import SECTIONS
from parts import check, finish
from payloads import longest_phrases
from printed import COMMANDS, MOST, Unknown, is_of_clap, parsed, wanted
from samples import parts_in
from seeds import first_unlike
from served import Run

SECONDS, LONGEST_PRINTED = 600, 1_000
COMMAND = re.compile(rf'(?=.*\bnbt\b).*\b(?:{"|".join(COMMANDS)})\b')
# Commands that read the same.
READERS = ('merge', 'list', 'agree'), ('show', 'save', 'replay')
STATION = ['FRED<20>', 'JOE<00>', 'ANN<03>.A']
LONGEST_EXAMPLE, IN_CAPTURE, FRONTS = 400, 500, 10_000
RECORDER = f'''#!/bin/sh
case $1 in
{" | ".join(COMMANDS)})
    record=$NBT_RECORDS/$$
    while [ -e "$record.words" ]; do record=$record+; done
    for word; do printf '%s\\n' "$word"; done >"$record.words"
    cat >"$record.input"
    exec "$NBT_PROGRAM" "$@" <"$record.input"
    ;;
esac
exec "$NBT_PROGRAM" "$@"
'''
DEVICES = '#!/bin/sh\nexec env "$@"\n'
KINDS = ('137', '137 id', '137 id items', '138', '138 kind', '138 kind source', '138 kind source destination', '138 type', '139',
         '139 kind', '139 type')
PHRASES = re.compile(r'^\| .* \| `([^`]+)` \|$', re.MULTILINE)
BY = re.compile(r'[A-Z]+|[.*+?^$()\[\]{}|\\]')
# The status of a node that has a unit and no names, which chance makes too seldom.
NO_NAMES = 137, bytes.fromhex('000184000000000100000000' '00' '00210001' '00000000' '0007' '00' '001122334455')
# How long the longest phrases are: where no name has more than 19 bytes, and of any names.
LONGEST_OF_19, LONGEST = 205, 1_633


class Cases:
    """Holds runs against the model, and remembers fronts and phrases."""

    def __init__(self, program, rng):
        self.program, self.rng = os.path.abspath(program), rng
        self.compared, self.said = collections.Counter(), []

    def check(self, words, given):
        """A command with an input, and with `--json` where it takes that. Where the model knows no such command, clap answers."""
        command, *rest = [it for it in words if it != '--json']
        found = {}
        for form in ([], ['--json'])[:1 + ('--json' in OPTIONS.get(command, ()))]:
            made = self.run([command, *form, *rest], given)
            try:
                model = found['model'] = found.get('model') or wanted([command, *rest], given)
                why = unlike(made, Run(model.status, model.output(bool(form)), model.errors))
            except Unknown:
                is_well = is_of_clap(made.status, made.output, made.errors)
                why = '' if is_well else f'clap ends with {made.status}, {made.output[:100]}, {made.errors[:100]}'
            self.judge([command, *form, *rest], given, why)
        if 'model' in found and command == 'show':
            self.remember(rest, found['model'].objects)

    def run(self, words, given):
        with open(os.memfd_create('given'), 'w+b') as file:
            file.write(given)
            file.seek(0)
            made = subprocess.run([self.program, *words], stdin=file, capture_output=True, timeout=SECONDS, check=False)
        return Run(made.returncode, made.stdout, made.stderr)

    def judge(self, words, given, why):
        well(why and f'nbt {shlex.join(words)}: {why}, input {given[:300]!r}')

    def remember(self, words, objects):
        self.compared['payloads'] += sum('port' in it for it in objects)
        self.said += [it['brief'] for it in objects if 'brief' in it]
        if '--partial' in words:
            self.compared.update(kind_of(it) for it in objects if 'refused' in it or 'more' in it)

    def end(self):
        """Prints what was compared, and the last line; the status."""
        print('compared: ' + ', '.join(f'{self.compared[it]} {it}' for it in sorted(self.compared)))
        return finish()


def well(why):
    """One case more, which went well if nothing is wrong."""
    check(not why, why[:LONGEST_PRINTED])


def unlike(made, other):
    """How a run differs from what it should be, if it does."""
    if (made.status, made.errors) != (other.status, other.errors):
        return f'it ends as {made.status}, {made.errors}, not as {other.status}, {other.errors}'
    return '' if made.output == other.output else first_unlike(made.output.split(b'\n'), other.output.split(b'\n'))


def kind_of(front):
    """Which kind of front an object has: its port, and what of it stands."""
    items = ['items'] if any(front.get(it) for it in SECTIONS) else []
    return ' '.join([str(front['port']), *(it for it in ('id', 'type', 'kind', 'source', 'destination') if it in front), *items])


def known_commands(files):
    """The commands of files of tests/cases that the model knows, and whether the model alone holds them."""
    for name in sorted(map(os.path.basename, files or os.listdir(os.path.join(TESTS, 'cases')))):
        for command, told in parts_in(os.path.join(TESTS, 'cases', name))['']:
            if COMMAND.match(command):
                yield command, told is None


def recorded(cases, chosen):
    """The words and the input of each run of such a command, and of those that read alike; devices that fail are left out."""
    with tempfile.TemporaryDirectory() as room:
        records, tools, files = (os.path.join(room, it) for it in ('records', 'bin', 'files'))
        for folder in (records, tools, files):
            os.mkdir(folder)
        for tool, text in (('nbt', RECORDER), ('hostile', DEVICES), ('terminal', DEVICES)):
            with open(os.path.join(tools, tool), 'w', encoding='utf-8') as written:
                written.write(text)
            os.chmod(written.name, 0o755)
        env = {**os.environ, 'PATH': f'{tools}:{os.environ["PATH"]}', 'NBT_RECORDS': records, 'NBT_PROGRAM': cases.program}
        for command, is_alone in known_commands(chosen):
            before = len(os.listdir(records))
            subprocess.run(['bash', '-c', command], cwd=files, env=env, stdin=subprocess.DEVNULL, stdout=subprocess.DEVNULL,
                           stderr=subprocess.DEVNULL, timeout=SECONDS, check=False)
            if is_alone:
                well('' if len(os.listdir(records)) > before else f'the model holds nothing of: {command}')
        found = {}
        for record in sorted(pathlib.Path(records).glob('*.words')):
            words, given = record.read_bytes().decode(errors='surrogateescape').split('\n')[:-1], record.with_suffix('.input').read_bytes()
            found.update(dict.fromkeys((tuple(it for it in each if it != '--json'), given) for each in (words, *alike(words))))
    yield from found


def alike(words):
    """The command lines that read what this one reads, with the same limits."""
    try:
        options, _ = parsed(words)
    except Unknown:
        return
    limits = {option: f'{option}={most}' for option, most in options.items() if option in MOST}
    readers = next((it for it in READERS if words[0] in it and not {'--brief', '--partial'}.intersection(options)), ())
    for command in readers:
        if command != words[0]:
            yield [command, *(limits[it] for it in OPTIONS[command] if it in limits), *(['FRED<20>'] if command == 'replay' else [])]


def samples(cases, payloads):
    """Each payload of the examples at each port, with comments between; the captures of examples/; and the examples cut at each length."""
    captures = [b'\n'.join(capture_lines())]
    for port in (137, 138, 139):
        lines = [b'# %d "\\\x07\xff\n%d %d %b' % (at, port, at, it.hex().encode() or b'empty') for at, it in enumerate(payloads)]
        captures.append(b'\n\n'.join(lines))
    for given in captures:
        for words in (['show'], ['show', '--comments'], ['show', '--brief'], ['replay', *STATION], ['replay', '--comments', *STATION], ['save']):
            cases.check(words, given)
    for table in payloads:
        if table[:3] == b'NBT':
            cases.check(['list'], table.hex().encode())
            cases.check(['agree'], b'%b\n' % table.hex().encode() * 2)
    cut = [(port, it[:length]) for port in (137, 138, 139) for it in payloads if len(it) <= LONGEST_EXAMPLE for length in range(len(it) + 1)]
    cut = cases.rng.sample(cut, FRONTS)
    for at in range(0, FRONTS, IN_CAPTURE):
        cases.check(['show', '--partial'], capture_of(cut[at:at + IN_CAPTURE]))


def phrases(cases):
    """Each phrase of the tables of docs/FORMATS.md is said; words in capitals stand for others. The longest are as long as it says."""
    with open(os.path.join(ROOT, 'docs', 'FORMATS.md'), encoding='utf-8') as page:
        part = page.read().partition('### Phrases\n')[2].partition('\n### ')[0]
    for payload, length in zip(longest_phrases(), (LONGEST_OF_19, LONGEST)):
        cases.check(['show', '--brief'], capture_of([(137, payload)]))
        well('' if len(cases.said[-1]) == length else f'{len(cases.said[-1])} bytes, not {length}: {cases.said[-1]}')
    longest = max(map(len, cases.said))
    well(f'a phrase of {longest} bytes' if longest > LONGEST else '')
    for phrase in PHRASES.findall(part):
        pattern = re.compile(BY.sub(lambda it: '.*' if it[0].isalpha() else re.escape(it[0]), phrase))
        well('' if any(map(pattern.fullmatch, cases.said)) else f'nothing is said as {phrase}')


def main():
    parser = argparse.ArgumentParser()
    parser.add_argument('--seed', type=int, default=1)
    parser.add_argument('--payloads', type=int, default=10_000)
    parser.add_argument('--files', nargs='+')
    parser.add_argument('program', nargs='?', default=os.path.join(ROOT, 'crates', 'nbt', 'out', 'nbt'))
    given = parser.parse_args()
    if not os.access(given.program, os.X_OK):
        parser.error(f'{given.program} is missing: `make build` makes it')
    cases = Cases(given.program, random.Random(given.seed))
    for words, capture in recorded(cases, given.files):
        cases.check(words, capture)
    if given.files:
        return cases.end()
    payloads = list(definitions())
    samples(cases, payloads)
    cases.check(['show', '--brief'], capture_of([NO_NAMES]))
    inputs, most = Inputs(cases.rng), cases.compared['payloads'] + given.payloads
    while cases.compared['payloads'] < most:
        made_by_chance(cases, inputs)
    phrases(cases)
    for kind in KINDS:
        well('' if cases.compared[kind] else f'{kind}: there was none')
    return cases.end()


if __name__ == '__main__':
    sys.exit(main())
