"""What is kept of a capture, with bounds."""
from .vocabulary import MOST_ENTRIES


class Room:
    """Entries by key. Past the bound they aren't kept, and what would go into them is counted."""

    def __init__(self, most=MOST_ENTRIES):
        self.most = most
        self.entries = {}
        self.others = 0

    def get(self, key, make):
        """The entry of a key, made where there is none yet; None where there is no room for it."""
        found = self.entries.get(key)
        if found is None:
            if len(self.entries) >= self.most:
                self.others += 1
                return None
            found = self.entries[key] = make()
        return found


class Kept:
    """The names that are kept: each from its first packet on, or never."""

    def __init__(self, most=MOST_ENTRIES):
        self.most = most
        self.names = {}              # whether something of a name found no room
        self.others = {}             # names that aren't kept, one more than the bound at most

    def entry(self, room, name, key, make):
        """The entry of a key that belongs to a name; None where the name isn't kept, or where there is no room, which its rows say then."""
        if name not in self.names and len(self.names) < self.most:
            self.names[name] = False
        if name not in self.names:
            if len(self.others) <= self.most:
                self.others[name] = True
            return None
        found = room.get(key, make)
        if found is None:
            self.names[name] = True
        return found

    def lacks(self, name):
        """Whether not all of a name is kept."""
        return self.names.get(name, False)
