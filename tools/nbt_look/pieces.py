"""What becomes of the pieces of datagrams, by what a station reports of each, in the order of their frames: RFC 1002 section 5.3."""
from dataclasses import dataclass, field

from .vocabulary import MOST_FRAMES, MOST_HELD

WHOLE = ('delivered', 'unheard')


@dataclass
class Piece:
    """A packet with a piece of a datagram: its moment, its key, its names and kind, its frame, and its bytes or its line in a capture."""

    moment: int
    key: str
    names: tuple
    frame: int
    data: str


@dataclass
class Held:
    """A key that the station holds: the names and kind of its latest piece, the frames of its pieces, those of them that are held, and what
    came of it."""

    names: tuple
    frames: list = field(default_factory=list)
    pieces: list = field(default_factory=list)
    state: str = ''

    def add(self, piece):
        self.names = piece.names
        if len(self.frames) < MOST_FRAMES:
            self.frames.append(piece.frame)

    def let_go(self):
        """Drops the pieces; answers how many bytes they had."""
        size = sum(len(each.data) for each in self.pieces)
        self.pieces = []
        return size


class Pieces:
    """The keys that a station holds. `ended` is told of each datagram what came of it: a key that is held, and a state."""

    def __init__(self, ended):
        self.ended = ended
        self.keys = {}
        self.starts = []                         # those that are held, by when they began
        self.held = 0                            # how many bytes of pieces

    def report(self, piece, said):
        """Takes what is reported of a piece, or without one of a look at the clock."""
        if piece is None:
            self.drop(said['count'])
        elif 'refused' in said:
            self.ended(Held(piece.names, [piece.frame]), piece.key, said['refused'])
        elif said['outcome'] != 'other':
            self.piece(piece, said['outcome'])

    def piece(self, piece, outcome):
        held = self.keys.get(piece.key) or self.begin(piece)
        held.add(piece)
        state = 'whole' if outcome in WHOLE else 'spoilt' if outcome == 'spoilt' else ''
        if state:
            self.ended(held, piece.key, state)
        held.state = state or held.state
        if held.state:
            self.held -= held.let_go()
        elif self.held + len(piece.data) <= MOST_HELD:
            held.pieces.append(piece)
            self.held += len(piece.data)

    def begin(self, piece):
        held = self.keys[piece.key] = Held(piece.names)
        place = len(self.starts)
        while place and self.starts[place - 1][0] > piece.moment:
            place -= 1
        self.starts.insert(place, (piece.moment, piece.key))
        return held

    def drop(self, count):
        """The clock drops the keys that began first."""
        for _, key in self.starts[:count]:
            held = self.keys.pop(key)
            if not held.state:
                self.ended(held, key, 'incomplete')
            self.held -= held.let_go()
        del self.starts[:count]

    def finish(self):
        """What the station holds at the end lacks something, where it isn't whole or spoilt."""
        self.drop(len(self.starts))
