"""What a capture has: packets, the fronts of those that are cut, frames of which something is left out, and segments of TCP; and items
by the number of their frames: what is known of a frame only later still comes to its place."""
import collections
import operator

Packet = collections.namedtuple('Packet', 'frame service moment digits source source_port target target_port stream')
# `size` is how many bytes the payload had, of which `digits` are those that the file has.
Cut = collections.namedtuple('Cut', (*Packet._fields, 'size'))
# `missing` are the runs of bytes that the file lacks before or beside it: from which byte on, and how many, None where that isn't known.
LeftOut = collections.namedtuple('LeftOut', 'frame reason missing')
# A segment of port 139, whatever it has: it says who opens a connection, and whether anybody answers.
Segment = collections.namedtuple('Segment', 'frame source source_port target target_port stream sequence flags')


class Frame:
    """A frame, whether it is counted as left out, and what it holds: a packet, or why there is none, and then the number of the frame that
    completes the packet of which it has a part. `at` is its time in nanoseconds since 1970, None where it has none. `interface` stands in the
    list, `interface_name` is its name, None where it has none."""

    __slots__ = ('counted', 'holds', 'completed_by', 'interface_name', 'number', 'at', 'source', 'source_port', 'target', 'target_port', 'interface', 'vlans', 'source_mac',
                 'target_mac', 'size', 'captured')

    def __init__(self, number, at, source='', source_port='', target='', target_port='', interface='', vlans='', source_mac='',
                 target_mac='', size=0, captured=0):
        self.counted, self.holds, self.completed_by, self.interface_name = False, None, None, None
        self.number, self.at = number, at
        self.source, self.source_port, self.target, self.target_port = source, source_port, target, target_port
        self.interface, self.vlans, self.source_mac, self.target_mac = interface, vlans, source_mac, target_mac
        self.size, self.captured = size, captured


# How many items are kept back, and how many bytes of their texts. What is known later than that of a frame comes late.
WINDOW, MOST_BYTES = 4_096, 4_194_304
NUMBER = operator.itemgetter(0)


class Ordering:
    """Items on their way to what takes them."""

    def __init__(self, take, window):
        self.take, self.window = take, window
        self.held, self.size = [], 0

    def put(self, item, shown, text):
        """Takes an item, with its object of JSON and the text of that, where it has one."""
        if not self.window:
            self.take(item, shown, text)
            return
        self.held.append((item.frame.number, item, shown, text))
        if text is not None:
            self.size += len(text)
        if len(self.held) >= 2 * self.window or self.size > MOST_BYTES:
            self.pass_on(len(self.held) // 2 + 1)

    def pass_on(self, count):
        """Hands on so many, in order."""
        self.held.sort(key=NUMBER)
        for _, *each in self.held[:count]:
            self.take(*each)
        del self.held[:count]
        self.size = sum(len(text) for *_, text in self.held if text is not None)

    def finish(self):
        self.pass_on(len(self.held))
