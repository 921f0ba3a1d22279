"""The bytes that one side of a TCP stream sends: put into order, and cut into session packets."""
import bisect

from .reasons import GAP, NO_PACKET, NO_REST
from .session import HEADER, has_header, is_whole, size_of

# Bounds on what is held of one direction past missing bytes, and on the bytes of all of them that may come again.
MOST_EARLY, MOST_EARLY_PIECES = 4_194_304, 4_096
MOST_RECENT, MOST_RECENT_PIECES = 16_777_216, 65_536
# How many bytes are shown of those that are in no packet.
SHOWN = 32
HALF, ALL = 2**31, 2**32


class Recent:
    """The latest bytes of all streams that are in order, for what comes again."""

    def __init__(self):
        self.parts = {}              # by their numbers
        self.first, self.behind = 0, 0
        self.size = 0

    def keep(self, past, data):
        past.extend(data)
        self.parts[self.behind] = past, len(data)
        self.behind += 1
        self.size += len(data)
        while self.size > MOST_RECENT or len(self.parts) > MOST_RECENT_PIECES:
            oldest, count = self.parts.pop(self.first)
            self.first += 1
            del oldest[:count]
            self.size -= count


class Direction:
    """One side of a stream. Places count bytes on from its first sequence number, past 2^32."""

    __slots__ = ('title', 'recent', 'report', 'first', 'due', 'early', 'early_size', 'held', 'past', 'uncut', 'frames', 'cut',
                 'lost', 'end')

    def __init__(self, title, recent, report, due):
        self.title = title
        self.recent = recent
        self.report = report
        self.first = self.due = due          # the place of the first byte, and of the next one
        self.early = []                      # pieces past that place, in order, without overlaps, with the marks of their frames
        self.early_size = 0
        self.held = bytearray()              # bytes in order that aren't cut yet, or the first of those that never are
        self.past = bytearray()              # the latest bytes before the next one
        self.uncut = 0                       # how many bytes in order are in no packet
        self.frames = []                     # the places at which bytes of frames end that are in no packet yet, and their marks
        self.cut = True                      # whether packets are still cut
        self.lost = None                     # how many bytes were missing where that was given up, and how many came after
        self.end = None                      # the place after the last byte, by FIN

    def size(self):
        return len(self.held) + self.early_size

    def place(self, sequence):
        return self.due + (sequence - self.due + HALF) % ALL - HALF

    def pass_on(self, place, data):
        """Whether the bytes come next, and are one whole packet: then they are taken, and nothing is held of them."""
        if place != self.due or self.uncut or self.early or self.lost or not self.cut or not is_whole(data):
            return False
        self.due += len(data)
        self.recent.keep(self.past, data)
        return True

    def take(self, place, data):
        """Keeps what is new of the latest frame's segment. Answers how many of its bytes differ from those that came first."""
        differing = 0
        if self.is_kept_alive(place, data):
            return 0
        if place < self.due:
            differing = self.compare(place, data)
            data = data[self.due - place:]
            place = self.due
        if len(data) == 0:
            return differing
        if self.lost:
            self.lost[1] += len(data)
            self.report.count(self.report.mark, GAP, [self.run(self.due, self.due + self.lost[0])])
        elif place == self.due and not self.early:
            self.append(data, self.report.mark)
        else:
            differing += self.put_aside(place, data)
            while self.early and self.early[0][0] == self.due:
                _, piece, mark = self.early.pop(0)
                self.early_size -= len(piece)
                self.append(piece, mark)
            if self.early_size > MOST_EARLY or len(self.early) > MOST_EARLY_PIECES:
                self.give_up()
        return differing

    def is_kept_alive(self, place, data):
        """Whether it is the last byte again, whose value has no meaning then: it keeps a connection alive."""
        return len(data) == 1 and place + 1 in (self.due, self.last_end())

    def last_end(self):
        """The place after the last byte that came."""
        return self.early[-1][0] + len(self.early[-1][1]) if self.early else self.due

    def compare(self, place, data):
        """How many of these bytes differ from the latest ones."""
        start = self.due - len(self.past)
        begin, end = max(place, start), min(place + len(data), self.due)
        return unlike(self.past[begin - start:end - start], data[begin - place:end - place]) if begin < end else 0

    def append(self, data, mark):
        """Bytes in order, of the frame with this mark."""
        self.due += len(data)
        self.uncut += len(data)
        self.recent.keep(self.past, data)
        if self.cut:
            self.frames.append((self.due, mark))
            self.held.extend(data)
        else:
            self.report.count(mark, NO_PACKET)
            self.held.extend(data[:max(0, SHOWN - len(self.held))])

    def put_aside(self, place, data):
        """Keeps those bytes that weren't there. Answers how many others differ from those that were."""
        differing, end, added = 0, place + len(data), []
        at = max(bisect.bisect_right(self.early, (place + 1,)) - 1, 0)
        cursor = place
        for start, piece, _ in self.early[at:]:
            if start >= end:
                break
            if start + len(piece) <= cursor:
                continue
            if cursor < start:
                added.append((cursor, data[cursor - place:start - place], self.report.mark))
                cursor = start
            stop = min(end, start + len(piece))
            differing += unlike(piece[cursor - start:stop - start], data[cursor - place:stop - place])
            cursor = stop
        if cursor < end:
            added.append((cursor, data[cursor - place:], self.report.mark))
        for each in added:
            bisect.insort(self.early, each)
            self.early_size += len(each[1])
        return differing

    def give_up(self):
        """Waits no longer for missing bytes: counts what comes after them."""
        self.lost = [self.early[0][0] - self.due, self.early_size]
        self.count_frames()
        self.early = []
        self.early_size = 0

    def packets(self):
        """The session packets that are whole by now. Nothing is cut after a header that no session packet has."""
        while self.cut and len(self.held) >= HEADER:
            size = size_of(self.held[:HEADER])
            if len(self.held) < size:
                return
            packet = self.held[:size]
            del self.held[:size]
            self.uncut -= size
            done = [mark for place, mark in self.frames if place <= self.due - self.uncut]
            del self.frames[:len(done)]
            for each in done:
                self.report.completed(each)
            self.cut = has_header(packet)
            yield packet
        if not self.cut:
            self.held = bytearray(self.held[:SHOWN])
            self.count_frames()

    def count_frames(self):
        """Counts the frames of the bytes that are in no packet: none comes any more."""
        for _, mark in self.frames:
            self.report.count(mark, NO_REST if self.cut else NO_PACKET)
        due = self.due
        for place, piece, mark in self.early:
            gap = self.run(due, place) if place > due else gap
            self.report.count(mark, GAP, [gap])
            due = place + len(piece)
        self.frames.clear()

    def run(self, start, end):
        """A run of missing bytes, counted from the first one of this side."""
        return {'from': start - self.first, 'bytes': end - start}

    def tell(self):
        """The comment on the bytes that are in no packet."""
        missing = self.lost
        if self.early and not missing:
            missing = [self.early[0][0] - self.due, self.early_size]
        if not self.uncut and not missing:
            return
        self.count_frames()
        text = '%s: bytes left over: %d' % (self.title, self.uncut)
        if self.uncut:
            text += ' (%s%s)' % (self.held[:SHOWN].hex(), '..' if self.uncut > SHOWN else '')
        if missing:
            text += ', then missing: %d, then captured: %d' % (missing[0], missing[1])
        self.report.comment(text)

    def is_over(self):
        return self.end is not None and self.due >= self.end

    def let_go(self):
        """Gives back the bytes that might have come again."""
        del self.past[:len(self.past)]


def unlike(one, other):
    """How many bytes differ."""
    return 0 if one == other else sum(a != b for a, b in zip(one, other))
