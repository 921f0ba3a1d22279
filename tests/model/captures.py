"""Captures, line by line (docs/FORMATS.md, "Captures")."""
import collections
import functools
import re

from .limits import MOST_LINE as LONGEST_LINE

LINE = re.compile(rb'(?:#.*|(13[789]) (\d{1,20}) (empty|(?:[0-9A-Fa-f]{2})+)|tick (\d{1,20})|)', re.DOTALL)
FILLED = re.compile(rb'[^\n]+')
NOT_PRINTED = re.compile(rb'[^ -~]')

Line = collections.namedtuple('Line', 'number port moment payload')


def read_capture(given):
    """The lines of a capture that say something, up to the first malformed one, and that one's number or None. A tick
    has no port and no payload."""
    lines = []
    for number, line in numbered(given):
        found = LINE.fullmatch(line) if len(line) <= LONGEST_LINE else None
        if not found or int(found[2] or found[4] or 0) >= 1 << 64:
            return lines, number
        if found[1]:
            payload = bytes.fromhex(found[3].decode().replace('empty', ''))
            lines.append(Line(number, int(found[1]), int(found[2]), payload))
        elif found[4]:
            lines.append(Line(number, None, int(found[4]), None))
    return lines, None


def numbered(given):
    """The lines of an input that have bytes, with their numbers."""
    number, at, lines = 1, 0, []
    for found in FILLED.finditer(given):
        number += given.count(b'\n', at, found.start())
        at = found.end()
        lines.append((number, found[0]))
    return lines


@functools.lru_cache(1)
def cut_at_line_feeds(given):
    """The lines of an input, of which the last may lack its line feed."""
    lines = given.split(b'\n')
    return lines[:-1] if lines[-1] == b'' else lines


def comment_text(line):
    """A comment as it is printed."""
    return NOT_PRINTED.sub(lambda it: b'\\%02x' % ord(it[0]), line).decode()


def digits(payload):
    """A payload as a line of a capture has it."""
    return payload.hex() or 'empty'
