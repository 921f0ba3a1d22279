"""How far a tool is, on a terminal that shows nothing else: how much of a file tshark has read."""
import os
import stat
import time

from .process import NAME

BETWEEN = 0.5


def is_shown():
    """Whether standard output may come to a terminal: it is one, or another program reads it."""
    kind = os.fstat(1).st_mode
    return os.isatty(1) or stat.S_ISFIFO(kind) or stat.S_ISSOCK(kind)


class Line:
    """A line on standard error, or on a copy of that, which is written over, at most twice a second, and erased at the end."""

    def __init__(self):
        self.wanted, self.number = False, 2
        self.shown, self.next = 0, 0.0

    def is_due(self):
        """Whether it is to be written now."""
        if not self.wanted or time.monotonic() < self.next:
            return False
        self.next = time.monotonic() + BETWEEN
        return True

    def put(self, text):
        text = '%s: %s' % (NAME, text)
        self.write('\r' + text.ljust(self.shown))
        self.shown = len(text)

    def erase(self):
        if self.shown:
            self.write('\r' + ' ' * self.shown + '\r')
        self.shown = 0

    def write(self, text):
        try:
            os.write(self.number, text.encode(errors='surrogateescape'))
        except OSError:
            self.wanted = False


class Progress(Line):
    """How much of its file tshark has read."""

    def __init__(self, options, process, silent=False):
        """With `silent` nothing comes to standard output before the end."""
        super().__init__()
        self.path, self.process, self.place = options.file, process, None
        self.wanted = not options.quiet and os.isatty(2) and (silent or not is_shown())

    def show(self, frames):
        if self.is_due():
            self.put(self.bytes_read() or '%d frames' % frames)

    def bytes_read(self):
        """By what Linux knows of the file that tshark has open; None where it doesn't."""
        try:
            size = os.stat(self.path).st_size
            self.place = self.place or self.find()
            with open(self.place) as file:
                read = int(file.readline().split()[1])
        except (OSError, TypeError, ValueError, IndexError):
            return None
        return '%d of %d bytes' % (min(read, size), size) if size else None

    def find(self):
        """The file of Linux that tells the place in the file."""
        wanted = os.stat(self.path)
        for each in os.listdir('/proc/%d/fd' % self.process.pid):
            try:
                if os.path.samestat(os.stat('/proc/%d/fd/%s' % (self.process.pid, each)), wanted):
                    return '/proc/%d/fdinfo/%s' % (self.process.pid, each)
            except OSError:
                continue
        return None
