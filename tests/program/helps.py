#!/usr/bin/env python3
"""The help of the built program beside the sources, the completions and the manual page. Usage: tests/program/helps.py PROGRAM; its last line is 'N
passed, M failed'.

A help is what the command does, its usage, its options, its text in crates/nbt_usage/src/help.rt, and what a command may say. What a command does and
what its options do is as completions/_nbt has it, what it may say as man/nbt.1 does, which also has each command and option; the rest stands in
tests/cases/help.txt.
"""
import pathlib
import re
import subprocess
import sys

sys.path.insert(1, f'{sys.path[0]}/../lib')
from parts import check, equal, finish

TOP = pathlib.Path(__file__).resolve().parents[2]
COMPLETIONS, PAGE, SOURCE = (TOP.joinpath(it).read_text('utf-8') for it in ('completions/_nbt', 'man/nbt.1', 'crates/nbt_usage/src/help.rt'))
# The text of each help, by its constant; the command's own is `STATUSES`.
TEXTS = {name.removesuffix('_HELP').lower(): re.sub(r'\\\n *', '', text).replace('{n}', '\n')
         for name, text in re.findall(r'pub const (\w+): &str =\s*"(.*?)";', SOURCE, re.DOTALL)}
DOES = dict(re.findall(r"^        '(\w+):(.*)'$", COMPLETIONS, re.MULTILINE))
OPTION = re.compile(r"'(--[a-z-]+)\[((?:\\.|[^\]])*)\](?::([A-Z]+):)?'")
ROW = re.compile(r'^ +(?:-[a-z], )?(--[a-z-]+)(?: <([A-Z]+)>)? +(.*)$', re.MULTILINE)
# What man/nbt.1 says of each refusal, and of which commands.
SAID = [(f'  {refusal}: {" ".join(lines.split())}'.replace('\\e', '\\'), commands.split(', '))
        for refusal, commands, lines in re.findall(r'^\.It Li "(.*)" Pq (.*)\n((?:[^.\n].*\n)+)', PAGE, re.MULTILINE)]


def help_of(program, *words):
    return subprocess.run([program, *words, '--help'], stdout=subprocess.PIPE, text=True, timeout=60).stdout


def options_of(command):
    """The options that the completions have of a command: each with what it does, and its value."""
    row = re.search(rf'^    {command}\) _arguments (.*)', COMPLETIONS, re.MULTILINE)[1]
    return [(option, value, re.sub(r'\\(.)', r'\1', does)) for option, does, value in OPTION.findall(row)]


def of_command(program, command):
    """The cases of a command."""
    text = help_of(program, command)
    head, between, rest = text.partition(f'\n\n{TEXTS[command]}\n')
    check(between, f'nbt {command} --help has its text')
    equal(head.partition('\n\nUsage: ')[0], DOES[command], f'what nbt {command} does, in its help')
    equal(ROW.findall(head), options_of(command), f'the options of nbt {command}, in its help')
    said = [line for line, commands in SAID if command in commands or commands == ['any command']]
    equal([f'{it}.' for it in rest.splitlines()], said, f'what nbt {command} may say, in its help')
    check(re.search(rf'^\.It Cm {command}\b', PAGE, re.MULTILINE), f'man/nbt.1 has the command {command}')
    for option, *_ in ROW.findall(head):
        check(re.search(rf'^\.It Fl ([a-zA-Z] , )?-{option[2:]}\b', PAGE, re.MULTILINE), f'man/nbt.1 has the option {option} of {command}')


def main(program):
    text = help_of(program)
    check(text.endswith(f'\n\n{TEXTS["statuses"]}\n'), 'nbt --help ends with its text')
    *listed, _ = re.findall(r'^  ([a-z]+) +(.*)', text.partition('\nCommands:\n')[2].partition('\n\n')[0], re.MULTILINE)
    equal(listed, [it for it in DOES.items() if it[0] != 'help'], 'the commands of nbt --help')
    for command, _ in listed:
        of_command(program, command)
    return finish()


if __name__ == '__main__':
    sys.exit(main(sys.argv[1]))
