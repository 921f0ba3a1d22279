"""The directions of TCP in a list of segments, the session packets in each, and the bytes that are in none: nb_connections said slowly.

It knows no limits: where the program lacks room for what waits, it has a gap and this has none. That a byte comes again with another value is
noticed as long as no more than a tail of its direction came after it."""
import bisect
import collections
import itertools

from .packets import SESSION_HEADER, Session

SPACE = 2**32
# Of what was handed on so much is kept to compare, with the cost of each run of bytes.
TAIL, RUN_COST = 65_536, 64
FIN, SYN, RST = 0x01, 0x02, 0x04
GAP, BAD_HEADER, NO_START, RESET = 'after a gap in TCP', 'after a bad header', 'of a TCP stream whose start is missing', 'with RST'

# A segment: its ends, sequence number, control bits, the bytes that are captured, and how many there were on the wire.
Segment = collections.namedtuple('Segment', 'ends sequence flags payload wire')
# What a segment makes: the packets that it completes, why bytes are in none and how many these are, and whether bytes came with other values.
Made = collections.namedtuple('Made', 'packets reason count differs', defaults=([], None, 0, False))


def number_of(segment):
    """The number of a segment's first byte."""
    return (segment.sequence + bool(segment.flags & SYN)) % SPACE


def cut(data):
    """The whole packets at the front of some bytes, the rest, and how many bytes it lacks; None where it begins with none."""
    packets = []
    while True:
        packet = Session(data)
        if packet.fault is not None:
            return packets, data, None
        if packet.missing:
            return packets, data, packet.missing
        packets.append(data[:packet.used])
        data = data[packet.used:]


class Direction:
    """One direction, whose first byte has this number."""

    def __init__(self, first):
        self.first = first
        self.begin(first)

    def begin(self, number):
        """Reads from the byte with this number on, whose place is SPACE."""
        self.start = number
        self.known = {}                 # the byte at each place: that which came first
        self.runs = []                  # from where to where bytes came at once, that are kept to compare
        self.kept = SPACE               # the place from which on they are
        self.reach = 0                  # the place after the last number of the segments
        self.handed = self.cut = SPACE  # the first place of which no byte came, and that up to which packets are cut
        self.closed = self.end = None   # why nothing is read, and the number at which it would be again

    def take(self, segment):
        """What one more segment makes."""
        if self.closed:
            if self.end != number_of(segment):
                return Made(reason=self.closed, count=len(segment.payload))
            self.begin(self.end)
        place, differs = self.put(segment)
        packets, rest, lacks = cut(bytes(self.known[each] for each in range(self.cut, self.handed)))
        self.cut = self.handed - len(rest)
        if lacks is None:
            self.closed = BAD_HEADER
        elif len(segment.payload) < segment.wire and self.handed == place + len(segment.payload):
            self.closed = GAP
            self.end = (self.start + self.handed + lacks) % SPACE if len(rest) >= SESSION_HEADER else None
        return Made(packets, self.closed, len(rest) if self.closed else 0, differs)

    def put(self, segment):
        """Puts the bytes of a segment at their places, of which the first is answered, and whether others were there."""
        expected = (self.start + self.handed) % SPACE
        place = self.handed + (number_of(segment) - expected + SPACE // 2) % SPACE - SPACE // 2
        numbers = segment.wire + bool(segment.flags & FIN)
        keeps_alive = numbers <= 1 and place + numbers == self.reach
        self.reach = max(self.reach, place + numbers)
        if keeps_alive:
            return place, False
        bytes_put = [(each, byte) for each, byte in enumerate(segment.payload, place) if each >= SPACE]
        differs = any(self.known.get(each, byte) != byte for each, byte in bytes_put if each >= self.kept)
        new = [each for each, _ in bytes_put if each not in self.known]
        for _, run in itertools.groupby(enumerate(new), lambda each: each[1] - each[0]):
            run = [each for _, each in run]
            bisect.insort(self.runs, (run[0], run[-1] + 1))
        for each, byte in bytes_put:
            self.known.setdefault(each, byte)
        while self.handed in self.known:
            self.handed += 1
        self.forget()
        return place, differs

    def forget(self):
        """Keeps no more than a tail of what was handed on."""
        while sum(end - start + RUN_COST for start, end in self.runs) > TAIL and self.runs[0][1] <= self.handed:
            self.kept = self.runs.pop(0)[1]

    def is_unfinished(self):
        """Whether it has bytes that are in no packet, and that nothing was said of."""
        return not self.closed and any(place >= self.cut for place in self.known)


class Connections:
    """All directions, by their ends."""

    def __init__(self):
        self.directions = {}
        self.begun_anew = 0             # how many began anew while they were unfinished

    def take(self, segment):
        """What the next segment makes."""
        direction, opens = self.directions.get(segment.ends), segment.flags & SYN
        if segment.flags & RST:
            return Made(reason=RESET, count=len(segment.payload))
        if direction is None and not opens and len(segment.payload) < SESSION_HEADER:
            return Made(reason=NO_START, count=len(segment.payload))
        if direction is None or opens and direction.first != number_of(segment):
            self.begun_anew += direction is not None and direction.is_unfinished()
            direction = self.directions[segment.ends] = Direction(number_of(segment))
        return direction.take(segment)

    def unfinished(self):
        """How many directions have bytes that are in no packet, nothing else being said of them; those that began anew count too."""
        return self.begun_anew + sum(each.is_unfinished() for each in self.directions.values())
