"""The lines of a capture, and what a comment says of the frame of the payload after it."""
import calendar
import collections
import datetime
import ipaddress
import re

from .header import MOST_LINE
from .process import Stopped, faults_of

LINE = re.compile(rb'(137|138|139) ([0-9]{1,20}) ((?:[0-9a-fA-F]{2})+|empty)|tick ([0-9]{1,20})|(#.*)?', re.DOTALL)
COMMENT = re.compile(r'# frame ([0-9]{1,10}) (\S+) (\S+):([0-9]{1,5}) > (\S+):([0-9]{1,5})')
# What nbt-look says of the next payload, of which the snap length cut the end.
CUT = re.compile(rb'# frame [0-9]{1,10} cut: [0-9]{1,5} of ([0-9]{1,5}) bytes')
TIME = re.compile(r'([0-9]{4})-([0-9]{2})-([0-9]{2})T([0-9]{2}):([0-9]{2}):([0-9]{2})\.([0-9]{6})Z')

Ends = collections.namedtuple('Ends', 'source source_port target target_port')


class Refused(Stopped):
    """A line of the capture that has no packet."""

    def __init__(self, text):
        super().__init__(1, text)


class BadTime(Refused):
    """A comment that names a time which no calendar has."""


class Frame:
    """What a comment says of a frame, in the words of nbt-look."""

    def __init__(self, number, time, *ends):
        self.number = int(number)
        self.time, self.words = time, Ends(*(each.strip('[]') for each in ends))

    def microseconds(self):
        """The time since 1970; None where it is none."""
        match = TIME.fullmatch(self.time)
        if not match:
            return None
        *parts, rest = map(int, match.groups())
        return calendar.timegm((*parts, 0, 0, 0)) * 10**6 + rest

    def is_timed(self):
        """Whether a calendar has its time, where it looks like one."""
        match = TIME.fullmatch(self.time)
        try:
            return not match or bool(datetime.datetime(*map(int, match.groups())))
        except ValueError:
            return False

    def ends(self):
        """The addresses and ports; None where they are none, or of different kinds."""
        source, source_port, target, target_port = self.words
        try:
            ends = Ends(ipaddress.ip_address(source), int(source_port), ipaddress.ip_address(target), int(target_port))
        except ValueError:
            return None
        return ends if ends.source.version == ends.target.version and max(ends.source_port, ends.target_port) <= 65_535 else None


def lines_of(file, title):
    """The lines of an open file; of one that is too long so much that it is refused."""
    with faults_of(title):
        while line := file.readline(MOST_LINE + 2):
            yield line


def payloads_of(lines):
    """The payloads: number of the line, port, moment, digits, the frame that the line before names, if it does, and how many bytes
    a comment before says that it had before it was cut."""
    frame = size = None
    for number, line in enumerate(lines, 1):
        line = line.removesuffix(b'\n')
        match = LINE.fullmatch(line)
        if not match or len(line) > MOST_LINE or int(match[2] or match[4] or 0) >= 2**64:
            raise Refused('line %d' % number)
        if match[1]:
            yield number, int(match[1]), int(match[2]), '' if match[3] == b'empty' else match[3].decode(), frame, size
            size = None
        frame = None
        if line.startswith(b'# frame '):
            frame, cut = frame_of(line), CUT.fullmatch(line)
            if frame and not frame.is_timed():
                raise BadTime('line %d: no calendar has the time %s' % (number, frame.time))
            size = int(cut[1]) if cut else size


def frame_of(line):
    match = COMMENT.fullmatch(line.decode(errors='replace'))
    return match and Frame(*match.groups())
