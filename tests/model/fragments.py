"""What fragments of IP make of their packets, over the list of all that came, the latest last (docs/DECISIONS.md has the choices).

A fragment is (key, offset, more, data), where data is None of one that the snap length cut, and comes at what the clock shows: the greatest time
of a frame so far. Those of a key whose first came 60 seconds ago are dropped. A key has all that its fragments say, and is spoilt for good
where two contradict each other."""
KEYS, ROOM, LIFETIME, LONGEST = 4_096, 1 << 26, 60_000_000_000, 65_535


def said(fragments):
    """The byte at each place, by the fragments of one key, and the end; nothing where two contradict each other."""
    places, ends, promised = {}, set(), 0
    for _, offset, more, data in fragments:
        for place, byte in enumerate(data, offset):
            if places.setdefault(place, byte) != byte:
                return None
        reach = offset + len(data)
        if more:
            promised = max(promised, reach + 1)
        else:
            ends.add(reach)
    last = max([promised, *(place + 1 for place in places)])
    if len(ends) > 1 or ends and min(ends) < last:
        return None
    return places, min(ends, default=None)


def whole(fragments):
    """The bytes of a packet of which these are the fragments, if they are all there."""
    places, end = said(fragments) or ({}, None)
    return bytes(places[place] for place in range(end)) if end is not None and len(places) == end else None


class Fragments:
    """The fragments that are live, by their keys, with when the first of each key came."""

    def __init__(self):
        self.clock, self.live, self.starts, self.dropped = 0, {}, {}, 0

    def take(self, fragment, time=None):
        """What a fragment of a frame of this time makes: whole with its bytes, kept, again, disagrees, cut, too long, or too many."""
        self.clock = max(self.clock, self.clock if time is None else time)
        for key in [key for key, start in self.starts.items() if self.clock >= start + LIFETIME]:
            self.dropped += is_unfinished(self.live.pop(key))
            del self.starts[key]
        key, offset, _, data = fragment
        if data is None:
            return 'cut', None
        if offset + len(data) > LONGEST:
            return 'too long', None
        before = self.live.get(key, [])
        after = [*before, fragment]
        if self.used() + len(data) > ROOM or not before and len(self.live) >= KEYS:
            return 'too many', None
        self.live[key] = after
        self.starts.setdefault(key, self.clock)
        if said(after) is None:
            return 'disagrees', None
        if whole(before) is not None:
            return 'again', None
        made = whole(after)
        return ('kept' if made is None else 'whole'), made

    def used(self):
        """The bytes of the live fragments, at most: nothing is counted twice that says nothing new."""
        return sum(len(data) for fragments in self.live.values() for _, _, _, data in set(fragments))

    def unfinished(self):
        """How many packets have some fragments and lack others, of those that are live and those that were dropped."""
        return self.dropped + sum(map(is_unfinished, self.live.values()))


def is_unfinished(fragments):
    """Whether some fragments of a packet are missing, and those that came contradict nothing."""
    return said(fragments) is not None and whole(fragments) is None
