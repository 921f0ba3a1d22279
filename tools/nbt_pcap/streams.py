"""The TCP streams of port 139: which side of which stream a segment is of, and how streams begin and end."""
from .direction import ALL, MOST_RECENT, Direction, Recent
from .reasons import DIFFERING, NO_START, RESET
from .session import HEADER

FIN, SYN, RST = 0x01, 0x02, 0x04
# Bounds on memory: what all directions hold together, how many are open, and of how many that are closed the end is known.
MOST_HELD = 67_108_864
MOST_DIRECTIONS = 16_384
MOST_CLOSED = 4_096


class Streams:
    """All streams. What is left out is said to `report`, which counts it."""

    def __init__(self, report):
        self.report = report
        self.open = {}               # those that had a segment last come last
        self.closed = {}             # the first and the next place of those that ended last
        self.held = 0
        self.recent = Recent()

    def segment(self, key, back, flags, sequence, size, data):
        """The session packets that are whole with the latest frame's segment, of which the file has this data. Its side and the one that it
        is sent to have each a key: the number of the stream, an address and a port."""
        if flags & RST:
            if size:
                self.report.leave_out(RESET, 'the %d bytes of its segment come with RST' % size)
            self.end(key)
            self.end(back)
            return
        if size > len(data):
            self.report.note(self.report.cut, 'frame %s: the file has %d of the %d bytes of its segment' % (self.report.number, len(data), size))
        direction = self.direction(key, flags, sequence, data)
        if direction:
            before = direction.size()
            place = direction.place(sequence + bool(flags & SYN))
            if flags & FIN:
                direction.end = place + size
            yield from self.bytes(direction, place, data)
            self.held += direction.size() - before
            if direction.is_over():
                self.end(key)
            if self.held > MOST_HELD or len(self.open) > MOST_DIRECTIONS:
                self.let_go()

    def direction(self, key, flags, sequence, data):
        """The direction of a segment: begun anew by a SYN, or by bytes whose stream isn't open; None for other segments."""
        direction = self.open.get(key)
        if direction is None and self.came_before(key, flags & SYN, sequence, data):
            return None
        if flags & SYN:
            if direction is None or direction.place(sequence + 1) != direction.first:
                self.end(key)
                direction = self.begin(key, sequence + 1)
        elif direction is None and len(data):
            if len(data) < HEADER:
                self.report.leave_out(NO_START, 'it has %d bytes of a stream whose start the file lacks' % len(data))
                return None
            direction = self.begin(key, sequence)
            self.report.comment('%s: frame %s is taken for its start, which the file lacks'
                                % (direction.title, self.report.number))
        if direction:
            self.open.pop(key)
            self.open[key] = direction
        return direction

    def came_before(self, key, syn, sequence, data):
        """Whether a closed direction had this SYN, or these bytes, before it ended."""
        first, due = self.closed.get(key, (0, 0))
        if syn:
            return first < due and (sequence + 1 - first) % ALL == 0 and len(data) <= due - first
        back = (due - sequence) % ALL
        return 0 < len(data) <= back <= min(due - first, MOST_RECENT)

    def begin(self, key, due):
        self.closed.pop(key, None)
        title = 'stream %s from %s port %s' % (key[0], key[1].strip('[]'), key[2])
        self.open[key] = direction = Direction(title, self.recent, self.report, due)
        return direction

    def bytes(self, direction, place, data):
        """The packets of a segment, in whatever order segments come, and however often."""
        if direction.pass_on(place, data):
            yield data
        elif len(data):
            yield from self.pieces(direction, place, data)

    def pieces(self, direction, place, data):
        """The packets of a segment that isn't one packet, or that doesn't come next."""
        if place < direction.first and not direction.is_kept_alive(place, data):
            count = min(direction.first - place, len(data))
            self.report.leave_out(NO_START, '%d bytes before the start of %s' % (count, direction.title))
            data = data[count:]
            place = direction.first
        differing = direction.take(place, data)
        if differing:
            self.report.note(DIFFERING, 'frame %s: %d bytes of %s came before with other values, which are kept'
                             % (self.report.number, differing, direction.title))
        yield from direction.packets()

    def end(self, key):
        """Lets a direction go that is open, and keeps the places between which its bytes have come."""
        direction = self.open.pop(key, None)
        if direction is None:
            return
        self.held -= direction.size()
        direction.tell()
        direction.let_go()
        self.closed[key] = direction.first, direction.due
        if len(self.closed) > MOST_CLOSED:
            self.closed.pop(next(iter(self.closed)))

    def let_go(self):
        """Ends directions where there are too many, or too many bytes: those whose last segment is the longest ago."""
        while len(self.open) > MOST_DIRECTIONS:
            self.end(next(iter(self.open)))
        if self.held > MOST_HELD:
            for key in [key for key, direction in self.open.items() if direction.size()]:
                if self.held > MOST_HELD // 2:
                    self.end(key)

    def finish(self):
        for direction in self.open.values():
            direction.tell()
