"""What is printed: lines, tables, and colours where python3-rich is there to make them. Where a terminal is narrow wide cells of a table fold: a
list has a line for each of its values, and then words go on below."""
import itertools
import os
import textwrap

from nbt_pcap.process import write_all

from .shown import cell
from .vocabulary import DROPPED, HEADS

try:
    from rich.color import ColorSystem
    from rich.style import Style
except ImportError:
    Style = None

STYLES = {'refused': 'red', 'left out': 'yellow', 'conflict': 'magenta', 'head': 'bold', 'mark': 'reverse'}
# Of a terminal that doesn't say how wide it is, and the least that lines are cut to.
USUAL_WIDTH, LEAST_WIDTH = 80, 20


def safe(text):
    """A text of which nothing acts on a terminal: a byte or character that might is an escape."""
    return text if text.isprintable() else ''.join(each if each.isprintable() else escaped(ord(each)) for each in text)


def escaped(number):
    return '\\x%02x' % (number - 0xdc00 if 0xdc80 <= number <= 0xdcff else number)


class Sink:
    """What takes the packets of a capture, to print them: those of one frame alone where `number` says so."""

    status, number = 0, None

    def __init__(self, screen, times):
        self.screen, self.times = screen, times

    def segment(self, item, is_wanted):
        """Nothing is said of segments of TCP."""

    def finish(self, tally, left_out):
        """All is printed."""


class Screen:
    """Standard output: whole lines. `width` is that of a terminal, None where it is none."""

    def __init__(self, colour):
        terminal = os.isatty(1)
        self.width = max(os.get_terminal_size(1).columns or USUAL_WIDTH, LEAST_WIDTH) if terminal else None
        plain = os.environ.get('NO_COLOR') or os.environ.get('TERM') == 'dumb' or not terminal
        wanted = colour == 'always' or (colour == 'auto' and not plain)
        self.styles = {name: Style.parse(each) for name, each in STYLES.items()} if wanted and Style else {}
        self.lines = []

    def styled(self, style, text):
        found = self.styles.get(style)
        return found.render(text, color_system=ColorSystem.STANDARD) if found else text

    def line(self, text, style=None, cut=False):
        """A line; with `cut` at most as long as a terminal is wide."""
        text = safe(text)
        if cut and self.width and len(text) > self.width:
            text = text[:self.width - 2] + '..'
        self.lines.append(self.styled(style, text))

    def flush(self):
        if self.lines:
            data = '\n'.join(self.lines) + '\n'
            self.lines.clear()
            write_all(data.encode(errors='surrogateescape'))

    def table(self, title, rows, head, texts):
        """Rows of the same keys, under their names; `texts` makes the text of a value, with its row, where it isn't the usual one."""
        self.line(title, 'head')
        for number, lines in enumerate(rows_of(rows, head, texts, self.width)):
            is_marked = number and rows[number - 1].get('marked')
            for at, each in enumerate(lines):
                self.line(MARK + each[len(MARK):] if is_marked and not at else each, 'refused' if is_marked else None if number else 'head')


BETWEEN, MARK = '  ', '! '


def rows_of(rows, head, texts, width):
    """The lines of each row, of which the first is the head. `width` is how long a line may be, None where nothing bounds it."""
    names = [[[HEADS.get(key, key.replace('_', ' '))] for key in head]]
    cells = names + [[[texts.get(key, cell)(row[key], row)] for key in head] for row in rows]
    while width and size_of(cells) > width and head[-1] in DROPPED:
        head, cells = head[:-1], [row[:-1] for row in cells]
    if width and size_of(cells) > width:
        cells[1:] = [[line if key in texts else lines_of(row[key]) for key, line in zip(head, lines)] for row, lines in zip(rows, cells[1:])]
        fold(cells, width)
    widths = widths_of(cells)
    for row in cells:
        yield [beside(line, widths) for line in itertools.zip_longest(*row, fillvalue='')]


def beside(texts, widths):
    """Texts side by side."""
    return BETWEEN + BETWEEN.join(each.ljust(width) for each, width in zip(texts, widths)).rstrip()


def widths_of(cells):
    return [max(len(line) for each in column for line in each) for column in zip(*cells)]


def size_of(cells):
    """How long the lines are."""
    return sum(len(BETWEEN) + each for each in widths_of(cells))


def fold(cells, width):
    """Lets words go on below, in the column that gains most by it, until the lines fit or no word can."""
    columns = range(len(cells[0]))
    while (excess := size_of(cells) - width) > 0:
        widths = widths_of(cells)
        least = [max(len(word) for row in cells for line in row[each] for word in line.split() or ['']) for each in columns]
        widest = max(columns, key=lambda each: widths[each] - least[each])
        if widths[widest] <= least[widest]:
            return
        size = max(least[widest], widths[widest] - excess)
        for row in cells:
            row[widest] = [part for line in row[widest] for part in textwrap.wrap(line, size, break_long_words=False, break_on_hyphens=False) or ['']]


def lines_of(value):
    """A value as lines: a list has one for each of its values."""
    return list(map(cell, value)) or ['-'] if isinstance(value, (list, tuple)) else [cell(value)]
