#!/usr/bin/env python3
"""Draws docs/summary-light.svg and docs/summary-dark.svg: the command that README.md shows below them, on a terminal.

Usage: tests/look/summary_pictures.py [--check]    with python3-rich, and nbt on PATH; --check answers 1 where their words would differ
"""
import io
import os
import pathlib
import re
import subprocess
import sys

sys.dont_write_bytecode = True
from rich.console import Console
from rich.terminal_theme import DEFAULT_TERMINAL_THEME, DIMMED_MONOKAI
from rich.text import Text
from rich import _export_format

TOP = pathlib.Path(__file__).resolve().parents[2]
WIDTH = 116
COMMAND = ('nbt-look-tshark', '--summary=names,refusals,queries,sessions', 'examples/samba.pcap')
THEMES = {'light': DEFAULT_TERMINAL_THEME, 'dark': DIMMED_MONOKAI}
# A picture asks no other machine for its letters.
FORMAT = re.sub(r'@font-face \{\{.*?\}\}\s*', '', _export_format.CONSOLE_SVG_FORMAT, flags=re.S).replace('Fira Code, ', '')


def main():
    console, differing = recorded(), 0
    for name, theme in THEMES.items():
        path = TOP / f'docs/summary-{name}.svg'
        drawn = console.export_svg(title=' '.join(COMMAND), theme=theme, clear=False, code_format=FORMAT, unique_id='summary')
        if sys.argv[1:] == ['--check']:
            differing += words_of(path.read_text(encoding='utf-8')) != words_of(drawn)
        else:
            path.write_text(drawn, encoding='utf-8')
    return differing > 0


def words_of(drawn):
    return re.findall('>([^<]*)</text>', drawn)


def recorded():
    """A console that has the summary."""
    terminal = [TOP / 'tests/lib/terminal.py', f'--columns={WIDTH}']
    environment = {**os.environ, 'TERM': 'xterm', 'PATH': f'{TOP}/tools:{os.environ["PATH"]}'}
    shown = subprocess.check_output([*terminal, *COMMAND], cwd=TOP, env=environment)
    shown = re.sub(r'[^\n]*\r(?!\n)', '', shown.decode()).replace('\r', '')       # progress, and a terminal's ends of lines
    console = Console(record=True, width=WIDTH, file=io.StringIO(), force_terminal=True)
    console.print(Text.from_ansi(shown), soft_wrap=True)
    return console


if __name__ == '__main__':
    sys.exit(main())
