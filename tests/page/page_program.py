"""What the program and its tools say, for the tests of the page."""
import collections
import itertools
import json
import os
import re
import shlex
import shutil
import subprocess

from limits import MANY
from nbt_look.kinds import kinds_of
from summary import tables_in
from wire import written

COUNTS = re.compile(r'(\d+ frames?, )?\d+ packets?, \d+ malformed, ')
ROW = re.compile(r' *(\d+) +(\S+) +(\S+) +(\S+) +(.*)')
MOST = ' '.join(MANY)
# A tshark that keeps what the real one prints, for the same words and bytes of a file.
TSHARK = '''#!/bin/sh
for file; do :; done
kept=$0-$({ cat "$file"; printf '%s\\n' "$@" | sed '$d'; } | sha256sum | cut -c1-64)
[ -e "$kept" ] || { REAL "$@" >"$kept.new" && mv "$kept.new" "$kept"; } || exit
exec cat "$kept"
'''


class Program:
    """The program and its tools, by the names that they have once installed, in the folder of the files."""

    def __init__(self, program, top, folder):
        self.top, self.folder = top, folder
        os.mkdir(f'{folder}/bin')
        for name, path in (('nbt', program), ('nbt-look-tshark', f'{top}/tools/nbt-look-tshark'), ('nbt-look', f'{top}/crates/nbt_look/out/nbt_look')):
            os.symlink(path, f'{folder}/bin/{name}')
        os.chmod(written(f'{folder}/bin/tshark', TSHARK.replace('REAL', shutil.which('tshark')).encode()), 0o755)
        self.env = {**os.environ, 'PATH': f"{folder}/bin:{os.environ['PATH']}", 'WIRESHARK_CONFIG_DIR': f'{folder}/settings'}

    def bytes(self, command, given=''):
        """What a command of a shell prints."""
        words = ['sh', '-c', command]
        return subprocess.run(words, input=given.encode(), capture_output=True, env=self.env, cwd=self.folder, timeout=120).stdout

    def lines(self, command, given=''):
        return self.bytes(command, given).decode().splitlines()

    def build(self, *words):
        """The lines of a capture that `nbt build` prints."""
        return [f'{line}\n' for line in self.lines(f'nbt build {shlex.join(words)}')]

    def listed(self, name, options=''):
        """The rows of nbt-look-tshark: frame, time, from, to, and what is said."""
        lines = itertools.takewhile(lambda line: not COUNTS.match(line), self.lines(f'nbt-look-tshark {options} {name}'))
        return [list(ROW.fullmatch(line).groups()) for line in lines]

    def kinds(self, name):
        """How many packets of a file are of each kind of nbt-look-tshark --kind."""
        packets = map(json.loads, self.lines(f'nbt-look-tshark --json --quiet {name}'))
        return collections.Counter(kind for packet in packets for kind in kinds_of(packet['port'], packet))

    def summary(self, name):
        """The tables of nbt-look-tshark, and what it says below them: by title the names of columns, and rows of cells."""
        tables = tables_in(self.bytes(f'nbt-look-tshark --summary {name}').decode())
        of_kind = lambda kind, row: [each for each in row.items() if isinstance(each[0], kind)]
        return {title: [{column for column, _ in of_kind(str, rows[0])}, *([cell for _, cell in of_kind(int, row)] for row in rows)]
                for title, rows in tables.items()}

    def told(self, line):
        """What a packet of a capture says, as an object."""
        return json.loads(self.bytes('nbt show --json --brief', line))

    def delivered(self, name, station):
        """Key, source and destination of each datagram that is delivered."""
        capture = f'nbt-look --lines {name}' if name.endswith('.pcap') else f'cat {name}'
        rows = map(str.split, self.lines(f"{capture} | nbt replay {MOST} '{station}'"))
        return [[row[2], row[4], row[5]] for row in rows if row[1] == 'delivered']

    def table(self, name):
        """The saved table of a file, whose ticks say nothing there."""
        capture = f'nbt-look --lines --no-ticks {name}' if name.endswith('.pcap') else f'grep -v ^tick {name}'
        return self.bytes(f'{capture} | nbt save {MOST}')

    def keys(self, name):
        """Key and state of each key of a table."""
        return [line.split()[:2] for line in self.lines(f'nbt list {MOST}', self.table(name).decode())]

    def page(self, page, name):
        """The page with a capture in it, by nbt-look-tshark, beside which the page lies."""
        shutil.copytree(f'{self.top}/tools', f'{self.folder}/share')
        shutil.copy(page, f'{self.folder}/share/nbt.html')
        self.bytes(f'share/nbt-look-tshark --html given.html {name}')
        return f'{self.folder}/given.html'
