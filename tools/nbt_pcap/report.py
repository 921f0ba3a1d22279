"""What is said of frames in comments, and how many of them are counted as left out, by reason."""
import collections

from .reasons import CUT, SHORT


class Mark:
    """Whether a frame is counted as left out. What holds bytes of it holds its mark, so that it is counted once."""

    __slots__ = ('counted',)

    def __init__(self):
        self.counted = False


class Report:
    """The counts of the summary. A frame is counted as left out once, for the first reason, however much is said of it."""

    def __init__(self, comment):
        self.comment = comment
        self.number = '0'            # the latest frame
        self.mark = Mark()           # its mark
        self.cut = CUT               # why bytes are missing at its end
        self.frames = self.ours = 0
        self.left_out = collections.Counter()

    def begin(self, row):
        """Takes the next frame."""
        self.number = number = row.number
        self.cut = CUT if row.captured != row.size else SHORT
        self.mark = Mark()
        self.frames = max(self.frames + 1, int(number))

    def count(self, mark, reason, missing=()):
        """Counts a frame of which bytes are in no line; `missing` are the runs of bytes that the file lacks before or beside them."""
        self.left_out[reason] += not mark.counted
        mark.counted = True

    def completed(self, mark):
        """The latest frame completes the packet in which the bytes of this one end."""

    def note(self, reason, text):
        """Says that some of the latest frame's bytes are in no line."""
        self.count(self.mark, reason)
        self.comment(text)

    def leave_out(self, reason, why):
        self.note(reason, 'frame %s is left out: %s' % (self.number, why))


def left_out_text(counts):
    """How many are left out, and of each reason how many, the most first."""
    text = '%d left out' % sum(counts.values())
    reasons = ', '.join('%d %s' % (count, reason) for reason, count in counts.most_common() if count)
    return '%s: %s' % (text, reasons) if reasons else text
