"""The times of frames, and of IP fragments, for the packets that tshark puts together of them: it knows no timer."""
import collections
import time

from .rows import values_of


class Clock:
    """The time of the latest frame."""

    def __init__(self):
        self.first = None            # the time of the first frame, in nanoseconds since 1970
        self.at = 0                  # the time of the latest one
        self.moment = 0
        self.second, self.second_start = None, 0

    def read(self, text):
        """Takes the time of a frame; where it has none, that of the frame before counts."""
        second, _, part = text.partition('.')
        if not second:
            return
        if second != self.second:
            self.begin_second(second)
        if second[0] == '-':
            self.negative(part)
            return
        at = self.at = self.second_start + int(part[:9].ljust(9, '0'))
        if self.first is None:
            self.first = at
        self.moment = (at - self.first) // 1_000_000 if at > self.first else 0

    def begin_second(self, second):
        self.second = second
        self.second_start = int(second) * 10**9

    def negative(self, part):
        """A time before 1970, whose fraction counts back."""
        at = self.at = self.second_start - int(part[:9].ljust(9, '0'))
        if self.first is None:
            self.first = at
        self.moment = max(at - self.first, 0) // 1_000_000


def year_text(second):
    """The second in UTC, or nothing where no year has it."""
    try:
        return time.strftime('%Y-%m-%dT%H:%M:%S', time.gmtime(second))
    except (OverflowError, ValueError, OSError):
        return ''


# How long fragments wait for the others, in nanoseconds: RFC 8200 section 4.5, and RFC 1122 section 3.3.2.
TIMER = 60 * 10**9
# Of how many fragments the time is known.
MOST_FRAGMENTS = 262_144

Span = collections.namedtuple('Span', 'first last why')
FORGOTTEN = Span(0, 0, 'fragments of it are followed by %d others' % MOST_FRAGMENTS)


class Fragments:
    """The latest fragments, by the numbers of their frames."""

    def __init__(self):
        self.spans = collections.OrderedDict()

    def keep(self, row, at):
        """Takes a frame that is a fragment, and may be put together of others itself, in a tunnel."""
        self.spans[row.number] = self.span(row, at)
        if len(self.spans) > MOST_FRAGMENTS:
            self.spans.popitem(last=False)

    def why_not(self, row, at):
        """Why a packet that was put together can't be taken; None where it can."""
        return self.span(row, at).why

    def span(self, row, at):
        if row.contradictions or row.contradictions6:
            return Span(at, at, 'its fragments differ where they overlap')
        first = last = at
        for number in values_of(row.fragments) + values_of(row.fragments6):
            part = self.spans.get(number, FORGOTTEN) if number != row.number else Span(at, at, None)
            if part.why:
                return part
            first, last = min(first, part.first), max(last, part.last)
        return Span(first, last, 'its fragments lie more than 60 s apart' if last - first > TIMER else None)
