"""What fragments say together, and its saved form (docs/REASSEMBLY.md; docs/FORMATS.md, "Saved tables").

A key has all that its fragments say: the byte at each place, the end, the kind, the names, and how far promises reach. It is spoilt for
good where they contradict each other, so the order of fragments can't matter."""
import collections
from struct import pack

from .limits import KEPT_FOR as TIMER, KEYS, MOST_DATAGRAM as LONGEST
from .names import Refused, read_name, spelling_of
from .packets import FIRST, KINDS, MORE, Reader

PER_SOURCE = (1 << 32) - 1
MAGIC, FIRST_MAGIC = b'NBT2', b'NBT1'


class Entry:
    """What the fragments of a key say, and the moment of the first; a promise or an end that isn't known is -1."""

    def __init__(self, start=0, is_spoilt=False):
        self.start, self.is_spoilt = start, is_spoilt
        self.bytes, self.told, self.promise = {}, {}, -1

    def add(self, fragment):
        """Takes in what a fragment says: with more to come a byte lies at its reach or after it, else it ends there."""
        reach, told = fragment.offset + len(fragment.data), {'kind': fragment.kind, 'names': (fragment.source, fragment.destination)}
        more = fragment.flags & MORE
        self.learn(enumerate(fragment.data, fragment.offset), told if more else told | {'end': reach}, reach if more else -1)

    def learn(self, places, told, promise, is_spoilt=False):
        """Takes in what is said of the key."""
        for known, said in (self.bytes, places), (self.told, told.items()):
            for what, value in said:
                is_spoilt |= known.setdefault(what, value) != value
        self.promise = max(self.promise, promise)
        last = max(self.promise, max(self.bytes, default=-1))
        self.is_spoilt |= is_spoilt or 'end' in self.told and self.end() <= last

    def end(self):
        return self.told.get('end', -1)

    def state(self):
        """Spoilt; whole, where the end and each byte before it is known; or neither."""
        return 'spoilt' if self.is_spoilt else 'whole' if self.end() == len(self.bytes) else 'partial'

    def is_whole(self):
        return self.state() == 'whole'

    def parts(self):
        """The kind and the two names of one that isn't spoilt."""
        return self.told['kind'], *self.told['names']

    def data(self):
        """The known bytes, by ascending places."""
        return bytes(self.bytes[it] for it in sorted(self.bytes))

    def runs(self):
        """The rows of known places that can't be made longer, from a place to another."""
        rows = []
        for place in sorted(self.bytes):
            if rows and rows[-1][1] == place:
                rows[-1][1] += 1
            else:
                rows.append([place, place + 1])
        return rows

    def saved(self, has_promise=True):
        """The bytes of the entry in a saved table, after its key: they tell apart whatever a table keeps."""
        if self.is_spoilt:
            return b'\0'
        kind, *names = self.parts()
        whole = bytes([1, kind]) + b''.join(map(spelling_of, names))
        for place in (self.end(), self.promise) if has_promise else (self.end(),):
            whole += b'\0' if place < 0 else pack('>BH', 1, place)
        rows = [pack('>HH', start, end - start) + bytes(self.bytes[it] for it in range(start, end)) for start, end in self.runs()]
        return whole + pack('>H', len(rows)) + b''.join(rows)


class Table:
    """Keys with their entries, and how many there may be, in all and of an address."""

    def __init__(self, keys=KEYS, per_source=PER_SOURCE):
        self.keys, self.per_source, self.entries = keys, per_source, {}

    def insert(self, fragment, moment=0):
        """Takes in a fragment, and says whether it spoilt its key or made it whole; else it is kept."""
        if bool(fragment.flags & FIRST) != (fragment.offset == 0):
            raise Refused('misplaced first')
        if fragment.offset + len(fragment.data) > LONGEST:
            raise Refused('too long')
        self.admit([fragment.key], moment)
        entry = self.entries[fragment.key]
        before = entry.state()
        entry.add(fragment)
        return 'kept' if entry.state() in (before, 'partial') else entry.state()

    def admit(self, keys, moment=0):
        """Has entries for all of these keys, if there is room for those that aren't held."""
        new = [it for it in keys if it not in self.entries]
        held = collections.Counter(address for address, _, _ in (*self.entries, *new)) if new else {}
        if any(held[address] > self.per_source for address, _, _ in new):
            raise Refused('full source')
        if len(self.entries) + len(new) > self.keys:
            raise Refused('full')
        self.entries |= {it: Entry(moment) for it in new}

    def merge(self, other):
        """Takes in another table, if there is room for its keys."""
        self.admit(other.entries)
        for key, it in other.entries.items():
            self.entries[key].learn(it.bytes.items(), it.told, it.promise, it.is_spoilt)

    def drop(self, moment):
        """Drops the keys whose timers have run out at a look at the clock, and counts them."""
        over = [key for key, entry in self.entries.items() if entry.start + TIMER <= moment]
        for key in over:
            del self.entries[key]
        return len(over)

    def saved(self, has_promises=True):
        """The bytes of the table when it is saved; without promises in the first form."""
        keys = [pack('>4sHH', *key) + entry.saved(has_promises) for key, entry in sorted(self.entries.items())]
        return (MAGIC if has_promises else FIRST_MAGIC) + pack('>L', len(keys)) + b''.join(keys)


class SavedReader(Reader):
    """Reads a saved table, which is refused where a field isn't the one that would be written."""

    def truncated(self):
        """The fault where a field isn't all there: it has no place."""
        return 'truncated'

    def canonical(self, holds, at):
        """Refuses a field at an offset unless something holds."""
        if not holds:
            raise Refused(f'not canonical {at}')

    def one_of(self, values):
        """The next byte, which is one of these."""
        at, value = self.at, self.number(1)
        self.canonical(value in values, at)
        return value

    def name(self):
        """The next name."""
        try:
            name, self.at = read_name(self.data, self.at)
        except Refused as refused:
            raise Refused(self.truncated() if str(refused).startswith('truncated') else f'not canonical {self.at}') from None
        return name

    def optional(self):
        """A place, or -1 for none."""
        return self.number() if self.one_of((0, 1)) else -1

    def entry(self, has_promise):
        """An entry: each run begins past the end of the one before, and no byte and no promise lies past the end."""
        if self.one_of((0, 1)) == 0:
            return Entry(is_spoilt=True)
        told, places, before = {'kind': self.one_of(KINDS), 'names': (self.name(), self.name())}, {}, -1
        end, at = self.optional(), self.at
        promise = self.optional() if has_promise else -1
        self.canonical(end < 0 or promise < end, at)
        for _ in range(self.number()):
            at, start = self.at, self.number()
            self.canonical(start > before, at)
            at, length = self.at, self.number()
            before = start + length
            self.canonical(length > 0 and before <= (LONGEST if end < 0 else end), at)
            places |= enumerate(self.bytes(length), start)
        entry = Entry()
        entry.learn(places.items(), told if end < 0 else told | {'end': end}, promise)
        return entry

    def table(self, keys, per_source):
        """The table that the whole input is, with room for so many keys."""
        magic, self.at = self.data[:4], 4
        if magic not in (MAGIC, FIRST_MAGIC):
            raise Refused('bad magic')
        found, before = Table(PER_SOURCE, PER_SOURCE), None
        for _ in range(self.number(4)):
            at, key = self.at, (self.bytes(4), self.number(), self.number())
            self.canonical(before is None or before < key, at)
            found.entries[key] = self.entry(magic == MAGIC)
            before = key
        self.canonical(self.at == len(self.data), self.at)
        limited = Table(keys, per_source)
        limited.merge(found)
        return limited


def load(data, keys=PER_SOURCE, per_source=PER_SOURCE):
    """The table that is saved as these bytes."""
    return SavedReader(data).table(keys, per_source)
