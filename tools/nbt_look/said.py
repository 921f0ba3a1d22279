"""What was said of each name at each address, by whom and in which frame. docs/SUMMARY.md has the definitions."""
from dataclasses import dataclass, field

from .rooms import Room
from .vocabulary import CUT, MALFORMED, Word
from .words import CLAIMING, CODED, OWN, REFUSING, STANDING, group_of, is_wildcard, listed_word, statuses_of, word_of

CLAIM, RELEASE, GRANT = 'claimed', 'released', 'granted'


@dataclass(slots=True)
class Half:
    """The latest word of an address itself, or of others: who said it, when, in which frame, and which packet of all it is."""

    word: Word
    text: str
    by: str
    frame: int
    at: int
    order: int


@dataclass(slots=True)
class Row:
    """A name at an address."""

    name: str
    address: str
    first: int
    group: bool = None               # None where nobody says it
    own: Half = None
    others: Half = None
    claims: int = 0
    refusals: int = 0
    lifetimes: dict = field(default_factory=dict)    # the latest TTLs by what said them, in seconds
    requests: dict = field(default_factory=dict)     # the keys of the latest claim, and of the latest release

    def later(self):
        """The half that is the later one."""
        if self.own is None or self.others is None:
            return self.own or self.others
        return self.own if self.own.order > self.others.order else self.others

    def is_standing(self):
        return self.later().word in STANDING

    def lifetime_of(self):
        """Whose TTL counts: a grant's, where there is one."""
        return GRANT if GRANT in self.lifetimes else CLAIM

    def renew(self, kind, lifetime):
        if lifetime is not None:
            self.lifetimes[kind] = lifetime


class Said:
    """The rows of all names that are kept."""

    def __init__(self, kept, refusals):
        self.kept, self.refusals = kept, refusals
        self.room, self.macs = Room(), Room()        # by name and address: rows, and MACs of the latest frames from there that say something
        self.requests = {}           # by key: which addresses the latest claim or release of each is about, and which packet of all it is
        self.packets = 0
        self.cut = 0                 # answers that are cut before the address that they are about

    def take(self, message):
        self.packets += 1
        word = word_of(message.shown)
        if word is Word.LISTS:
            self.listed(message)
        elif word is not None:
            take = self.answered if word is Word.ANSWERS else self.requested if word in OWN else self.responded
            take(message, word)

    def mac(self, row):
        return self.macs.entries.get((row.name, row.address), [None])[0]

    def row(self, name, address, message):
        """The row of a name at an address; None where there is no room for it, and of the wildcard."""
        return None if is_wildcard(name) else self.kept.entry(self.room, name, (name, address), lambda: Row(name, address, message.frame))

    def say(self, row, word, message):
        """Takes a word about a row."""
        text = ('%s %s' % (word.value, message.code) if word in CODED else word.value) + (', malformed' if message.front == MALFORMED else '')
        half = Half(word, text, message.source, message.frame, message.at, self.packets)
        row.own, row.others = (half, row.others) if word in OWN else (row.own, half)
        if word in REFUSING:
            row.refusals += 1
            self.refusals.take(row, half)
        sent = self.kept.entry(self.macs, row.name, (row.name, message.source), lambda: [None]) if message.source_mac else None
        if sent:
            sent[0] = message.source_mac

    def requested(self, message, word):
        """A claim or a release is about each address in its record; where none stands, about its sender."""
        groups, kind = message.groups(), CLAIM if word in CLAIMING else RELEASE
        for address in list(groups) or [message.source]:
            row = self.row(message.name, address, message)
            if row:
                self.say(row, word, message)
                row.group = groups.get(address, row.group)
                self.request(row, kind, (message.name, kind, message.number, message.source))
                if kind == CLAIM:
                    row.claims += 1
                    row.renew(CLAIM, message.lifetime)

    def request(self, row, kind, key):
        """Keeps the latest claim or release about a row in the place of the one before it."""
        before = row.requests.get(kind)
        if before is not None:
            self.requests[before].pop(row.address)
            if not self.requests[before]:
                self.requests.pop(before)
        row.requests[kind] = key
        self.requests.setdefault(key, {})[row.address] = self.packets

    def answered(self, message, word):
        """A positive answer to a query says it of its sender's own address, and of others."""
        groups = message.groups()
        self.cut += not groups and message.front == CUT
        for address, group in groups.items():
            row = self.row(message.name, address, message)
            if row:
                self.say(row, word if address == message.source else Word.SAID, message)
                row.group = group

    def listed(self, message):
        """A node status lists the names of its sender, which have the scope of its own name."""
        records = statuses_of(message.shown)
        self.cut += not records and message.front == CUT
        for record in records:
            scope = record['name'].partition('>')[2]
            for each in record['names']:
                row = self.row(each['name'] + scope, message.source, message)
                if row:
                    self.say(row, listed_word(each['set']), message)
                    row.group = group_of(each)

    def responded(self, message, word):
        """A response is about the addresses of the claim or release that it answers; where there is none, about those in its record, or else
        about where it goes."""
        groups, rows = message.groups(), self.asked_for(message, RELEASE if message.is_of_release(word) else CLAIM)
        if not rows:
            addresses = list(groups) if message.code == 'ok' and word is not Word.TO_WAIT else [message.target]
            self.cut += not addresses and message.front == CUT
            rows = [self.row(message.name, each, message) for each in addresses]
        for row in [each for each in rows if each]:
            self.say(row, word, message)
            if word is Word.GRANTED:
                row.group = groups.get(row.address, row.group)
                row.renew(GRANT, message.lifetime)

    def asked_for(self, message, kind):
        """The rows whose latest request of a kind a response answers: of these, those of the latest such packet."""
        found = self.requests.get((message.name, kind, message.number, message.target), {})
        latest = max(found.values()) if found else 0
        return [self.room.entries[message.name, address] for address, order in found.items() if order == latest]
