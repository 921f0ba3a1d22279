"""Captures of datagrams in pieces, as frames and as the lines that nbt reads, with a plain model of which frames belong together."""
import os
import sys

TESTS = os.path.join(os.path.dirname(os.path.abspath(__file__)), '..')
sys.path[1:1] = [TESTS, os.path.join(TESTS, 'captures'), os.path.join(TESTS, '..', 'tools')]
from fuzz_traffic import Traffic
from model.names import Refused, text_of
from model.packets import MORE, read_fragment
from nbt_look.shown import run_text
from nbt_look.datagrams import runs_missing
from nbt_pcap.ticks import Ticks
from plugin_pcap import datagram_frame, segment_frame
from wire import FRED, KEEPALIVE, QUERY

KEPT_MILLISECONDS = 2_000
# What a frame may have: an IP packet isn't longer. Wireshark hands no empty payloads on.
LONGEST = 60_000
OTHERS = ((137, QUERY), (137, QUERY[:7]), (139, KEEPALIVE), (138, b'\x13\x02\0\x01\x0a\0\0\5\0\x8a\x82'),
          (138, b'\x14\x02\0\x02\x0a\0\0\5\0\x8a' + FRED), (138, b'\x10\x02'), (138, b'\x77' * 20))


class Made:
    """One capture."""

    def __init__(self, rng, ticks=True):
        self.rng = rng
        self.frames = []            # time in microseconds, bytes, and how many of them the file has
        self.datagrams = {}         # of frames of port 138 that aren't cut, the line's number
        self.pieces = {}            # of those frames where the data begins and ends, and whether more was promised
        self.drops = []             # the frames before which the clock was looked at, and the moment that it showed
        self.names = set()          # to whom datagrams go
        self.lines = []
        self.clock, self.has_ticks = Ticks(), ticks
        self.now = 0
        for each in self.payloads():
            self.add(*each)

    def payloads(self):
        """Ports and payloads, in the order of their frames: what is left of some datagrams, and packets of other kinds and ports."""
        rng = self.rng
        found = []
        for _ in range(rng.randrange(1, 9)):
            found += [(138, each) for each in Traffic(rng).payloads() if 0 < len(each) < LONGEST]
            found += rng.sample(OTHERS, rng.choice((0, 0, 1, 2)))
        return found or [OTHERS[0]]

    def add(self, port, payload):
        """A frame of this payload, and its line."""
        rng = self.rng
        self.now = max(0, self.now + rng.choice((0, 1, 50, 300, 300, 700, 700, 2_600, -800)) * rng.randrange(1_000))
        number = len(self.frames) + 1
        source = bytes([10, 0, 0, rng.randrange(5, 9)])
        frame = segment_frame(1_024 + number, 1, payload, source=source) if port == 139 else datagram_frame(port, payload, source)
        cut = rng.random() < 0.04 and number > 1 and port != 139 and len(payload) > 2
        self.frames.append((self.now, frame, 42 + rng.randrange(len(payload)) if cut else None))
        if cut:
            return
        before = self.clock.next
        moment = (self.now - self.frames[0][0]) // 1_000 if self.now > self.frames[0][0] else 0
        self.lines += [f'tick {at}' for at in (self.clock.until(moment) if self.has_ticks else ())]
        self.lines.append(f"{port} {moment} {payload.hex() or 'empty'}")
        self.clock.latest = max(self.clock.latest, moment)
        if self.clock.next != before:
            self.drops.append((number, self.clock.next - 1_000))
        if port == 138:
            self.datagrams[number] = len(self.lines)
            self.note(number, payload)

    def note(self, number, payload):
        try:
            part = read_fragment(payload)
        except Refused:
            return
        if part:
            self.pieces[number] = part.offset, part.offset + len(part.data), part.flags & MORE
            self.names.add(text_of(part.destination))

    def moment(self, frame):
        return max(0, self.frames[frame - 1][0] - self.frames[0][0]) // 1_000

    def links(self, states):
        """Of each fragment the frame that completes, the one that spoils, what is missing and, where it was decided, the fragments."""
        held, groups = {}, []
        drops = dict(self.drops)
        for frame in range(1, len(self.frames) + 1):
            if frame in drops:
                held = {key: group for key, group in held.items() if self.moment(group[0]) + KEPT_MILLISECONDS > drops[frame]}
            if states.get(frame) in ('kept', 'spoilt', 'delivered', 'unheard'):
                key = self.frames[frame - 1][1][44:52]
                if key not in held:
                    held[key] = []
                    groups.append(held[key])
                held[key].append(frame)
        return {frame: self.linked(frame, group, states) for group in groups for frame in group}

    def linked(self, frame, group, states):
        whole = [each for each in group if states[each] in ('delivered', 'unheard')][-1:]
        spoilt = [each for each in group if states[each] == 'spoilt'][-1:]
        missing = '' if whole or spoilt else self.missing(group)
        decided = states[frame] != 'kept' or missing and frame == group[-1]
        fragments = [each for each in group if each <= frame] if decided and len(group) > 1 else []
        return [*(','.join(map(str, [each for each in some if each != frame])) for some in (whole, spoilt)), missing,
                ','.join(map(str, fragments))]

    def missing(self, group):
        """The words of nbt-look-tshark for the bytes that no fragment has: one of no bytes splits no gap, but as the end."""
        pieces = [self.pieces[each] for each in group]
        places = sorted((start, end) for start, end, more in pieces if start < end or not more)
        return ', '.join(map(run_text, runs_missing(places, max((end for _, end, more in pieces if not more), default=None))))
