#!/usr/bin/env python3
"""Cases in a file of samples.  Usage: tests/lib/samples.py FOLDER FILE [PART [NAME=VALUE..]]

After `$ COMMAND`, and further ones behind `& ` that say the same, stand the lines of its standard output, those of its standard error behind `! `,
and a status that isn't 0 before the last of these, as in `1! nbt: read`, or by itself, as in `? 1`; `...` stands for all lines of standard error.
Of a command behind `% ` that has {} each line `* WORDS => TOLD` below it is a case: the words stand for {}; without => nothing is told. What else
stands behind `% ` is no case here: a model holds it (tests/program/beside_model.py). A line of what is told that begins with ~ is a pattern as
the shell's. {NAME} stands for VALUE, or for what limits.py has. Lines that begin with # say nothing, and neither do blank ones at the end of a
sample. A part begins with `== PART`. Commands run in FOLDER; of several in a pipe the first that fails has the status.

Of a page, FILE.md, each block that begins with ```console is a part of `$ COMMAND`s, with the lines that a terminal shows; there a line `...` stands
for one line or more that the page isn't about. Without tshark those of its samples that need it are left out. With ANEW=1 samples that no longer fit
are written anew: a difference to be read before it is committed, since nothing else says that it is right. The last line is 'N passed, M failed,
K skipped'.
"""
import fnmatch
import os
import re
import shutil
import subprocess
import sys

from limits import NAMED
from parts import check, finish, leave_out

PATIENCE = 600
CONSOLE = re.compile(r'^```console\n(.*?)^```$', re.MULTILINE | re.DOTALL)
# A sample of a page: its first line, the command, and what a terminal shows.
SAMPLE = re.compile(r'^([$] (.*)\n)((?:(?![$] ).*\n)*)', re.MULTILINE)
OF_PCAPS = re.compile('nbt-cap2pcap|nbt-look-tshark')


def parts_of(lines):
    """Of each part, and of '' above the first, the samples: a command, and the lines that are told; None where a model alone holds it."""
    part, told, pattern, parts = '', [], '', {'': []}
    for line in lines:
        begin, rest = line[:2], line[2:]
        if begin == '==':
            part = rest.strip()
            parts[part] = []
        elif begin in ('$ ', '& '):
            told = [] if begin == '$ ' else told
            parts[part].append((rest, told))
        elif begin == '% ':
            pattern = rest
            parts[part] += [] if '{}' in pattern else [(pattern, None)]
        elif begin == '* ':
            words, _, answer = rest.partition(' => ')
            parts[part].append((pattern.replace('{}', words), [answer] if answer else []))
        elif not line.startswith('#'):
            told.append(line)
    return parts


def parts_in(path, **words):
    """The parts of a file, with these words spelled out."""
    spelled = NAMED | words
    with open(path, encoding='utf-8') as file:
        return parts_of(re.sub(r'\{([A-Z_]+)\}', lambda it: str(spelled.get(it[1], it[0])), file.read()).split('\n'))


def bash(folder, command, errors=subprocess.PIPE):
    return subprocess.run(['bash', '-o', 'pipefail', '-c', command], cwd=folder, stdin=subprocess.DEVNULL, stdout=subprocess.PIPE, stderr=errors,
                          timeout=PATIENCE, check=False)


def run(folder, command, is_brief):
    """What a command tells: the lines that it writes, those of its errors as `...` in brief, and how it ends."""
    done = bash(folder, command)
    output, errors = (each.decode(errors='backslashreplace').split('\n') for each in (done.stdout, done.stderr))
    ends = [f'{each}\\' for each in (output.pop(), errors.pop()) if each]       # a last line without an end
    errors = [f'! {each}' for each in (errors[:1] and ['...'] if is_brief else errors)]
    if done.returncode:
        errors[-1:] = [f'{done.returncode}{errors[-1]}'] if errors else [f'? {done.returncode}']
    return output + errors + ends


def is_like(line, told):
    """Whether a line is what is told, or fits its pattern."""
    status, mark, pattern = told.partition('~')
    if not mark or status not in ('', '! ') and not re.fullmatch(r'\d+! ', status):
        return line == told
    return fnmatch.fnmatchcase(line, status + pattern)


def difference(folder, command, told):
    """What is told otherwise than it stands there; nothing where all is well."""
    while told and not told[-1]:
        told.pop()
    try:
        lines = run(folder, command, any(it.endswith('! ...') for it in told))
    except subprocess.TimeoutExpired:
        return f"it doesn't end within {PATIENCE} s"
    if len(lines) == len(told) and all(map(is_like, lines, told)):
        return ''
    at = next((at for at, (line, other) in enumerate(zip(lines, told)) if not is_like(line, other)), min(len(lines), len(told)))
    return f'{lines[at:at + 3]}, not {told[at:at + 3]}'


def is_shown(shown, told):
    """Whether a page has what a terminal shows, but for lines that it leaves out."""
    return re.fullmatch(''.join('(?:.*\n)+' if line == '...\n' else re.escape(line) for line in told.splitlines(True)), shown) is not None


def on_page(folder, path):
    """The cases of a page: what a terminal shows of each command, and what it shows otherwise."""
    name = os.path.basename(path)
    with open(path, encoding='utf-8') as page:
        text = page.read()
    for whole, first, command, told in re.findall(f'({SAMPLE.pattern})', ''.join(CONSOLE.findall(text)), re.MULTILINE):
        if OF_PCAPS.search(command) and not shutil.which('tshark'):
            leave_out(1, f'{name}: {command}', "tshark isn't installed")
            continue
        shown = bash(folder, command, subprocess.STDOUT).stdout.decode(errors='backslashreplace')
        if 'ANEW' in os.environ and not is_shown(shown, told):
            text = text.replace(whole, first + shown)
            told = shown
        yield f'{name}: {command}', not is_shown(shown, told) and f'{shown!r}, not {told!r}'
    if 'ANEW' in os.environ:
        with open(path, 'w', encoding='utf-8') as page:
            page.write(text)


def cases(folder, path, part='', *words):
    """Each case of a part, and what is told otherwise than it stands there."""
    for command, told in parts_in(path, **dict(each.split('=', 1) for each in words))[part]:
        if told is not None:
            yield command, difference(folder, command, told)


def main():
    of = on_page if sys.argv[2].endswith('.md') else cases
    for what, wrong in of(*sys.argv[1:]):
        check(not wrong, f'{what}: {wrong}')
    return finish()


if __name__ == '__main__':
    sys.exit(main())
