"""Datagrams: which are whole, of which something is missing, which are spoilt."""
from .rooms import Room
from .vocabulary import TABLES

COUNTED = ('whole', 'incomplete', 'spoilt')
# How many bytes of pieces wait to be listed together.
MOST_LISTED = 1_048_576


class Datagrams:
    """Datagrams by their names: how many are whole, incomplete and spoilt, and how many of their packets the snap length cut. `listed` is asked
    what the pieces of several datagrams say together, and answers a list of entries as `nbt list --json` has them."""

    title, head = TABLES['datagrams']

    def __init__(self, listed):
        self.room = Room()
        self.failed = Failed(listed)

    def ended(self, held, key, state):
        """Takes what became of a datagram."""
        if state in COUNTED:
            self.count(held.names, state)
        if state != 'whole':
            self.failed.keep(key, held, state)

    def count(self, names, state):
        source, destination, kind = names
        found = self.room.get(names, lambda: {'source': source, 'destination': destination, 'kind': kind, 'whole': 0, 'incomplete': 0, 'spoilt': 0, 'cut': 0})
        if found:
            found[state] += 1

    def rows(self, _times):
        return [each for _, each in sorted(self.room.entries.items(), key=lambda pair: pair[0])]


class Failed:
    """The datagrams that didn't become whole: of each its key, what is known of it, and its frames."""

    title, head = TABLES['failed']

    def __init__(self, listed):
        self.listed = listed
        self.room = Room()
        self.unlisted = {}           # by key: pieces of which it isn't known yet what they lack, and their row
        self.size = 0

    def keep(self, key, held, state):
        """Takes a datagram. A key may come again."""
        source, destination, _ = held.names
        row = dict(zip(self.head, (key, state, source, destination, None, None, [], [*held.frames])))
        if self.room.get((key, state, held.frames[-1]), lambda: row) is not row or state != 'incomplete' or not held.pieces:
            return
        if key in self.unlisted or self.size > MOST_LISTED:
            self.list_all()
        self.unlisted[key] = [each.data for each in held.pieces], row
        self.size += sum(len(each.data) for each in held.pieces)

    def list_all(self):
        """Asks what the pieces of each say together."""
        for each in self.listed([pieces for pieces, _ in self.unlisted.values()]) if self.unlisted else ():
            _, row = self.unlisted[each['key']]
            row['bytes_known'], row['size'], row['missing'] = each.get('held'), each.get('end'), runs_missing(each['places'], each['end'])
        self.unlisted = {}
        self.size = 0

    def rows(self, _times):
        self.list_all()
        return sorted(self.room.entries.values(), key=lambda row: row['frames'][0])


def runs_missing(places, end):
    """What is missing beside what stands from one place to another: from which byte on, and how many; where the end isn't known, all that
    follows."""
    found, due = [], 0
    for start, behind in places:
        if start > due:
            found.append({'from': due, 'bytes': start - due})
        due = max(due, behind)
    if end is None or due < end:
        found.append({'from': due, 'bytes': None if end is None else end - due})
    return found
