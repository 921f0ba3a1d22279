"""The tables of what was said of names: of each at each address, of those that several say that they have, and of refusals."""
from .rooms import Room
from .vocabulary import SUFFIXES, TABLES, Word
from .words import REFUSING


def kind_of(name, group):
    """The kind of a name by its last byte: in words that fit a group, or a unique name; its digits where it isn't known which it is, or none fit."""
    digits = name.partition('<')[2][:2]
    unique, shared = SUFFIXES.get(digits, ('', ''))
    return (None if group is None else shared if group else unique) or digits


def object_of(row, is_marked, said, times):
    """A row as an object of JSON; a half of which nothing was said has nothing."""
    own, others, at = row.own, row.others, row.later().at
    return {'marked': is_marked, 'name': row.name, 'address': row.address or None, 'mac': said.mac(row), 'group': row.group,
            'says': own and own.text, 'from': own.by if own and own.by and own.by != row.address else None, 'frame': own and own.frame,
            'is_told': others and others.text, 'by': (others and others.by) or None, 'told_frame': others and others.frame,
            'time': None if at is None else times(at), 'first': row.first, 'claims': row.claims, 'refusals': row.refusals,
            'is_refused': others is not None and others.word in REFUSING, 'lifetime': row.lifetimes.get(row.lifetime_of()),
            'lifetime_of': row.lifetime_of(), 'kind': kind_of(row.name, row.group) or None, 'not_all_kept': said.kept.lacks(row.name)}


class Names:
    """A table of rows of names: `chosen` answers those of all that was said, each with whether it is marked; `room` counts what isn't kept."""

    def __init__(self, table, said, room, chosen):
        self.title, self.head = TABLES[table]
        self.said, self.room, self.chosen = said, room, chosen

    def rows(self, times):
        return [object_of(row, is_marked, self.said, times) for row, is_marked in self.chosen(self.said)]


def all_rows(said):
    """All rows; marked are those of which the later half doesn't say that its address has the name."""
    found = sorted(said.room.entries.values(), key=lambda row: (row.name, row.address))
    return [(row, not row.is_standing() and row.later().word is not Word.SAID) for row in found]


def several(said):
    """The rows of names that several addresses have by their later halves, not all of them as a group; marked are those with several MACs."""
    of_name, found = {}, []
    for row in said.room.entries.values():
        if row.is_standing():
            of_name.setdefault(row.name, []).append(row)
    for rows in of_name.values():
        if len(rows) > 1 and not all(row.group for row in rows):
            macs = {said.mac(row): True for row in rows if said.mac(row)}
            found.extend([(row, len(macs) > 1) for row in rows])
    return sorted(found, key=lambda pair: (not pair[1], pair[0].name, pair[0].address))


class Refusals:
    """The refusals by name, address, sender and reason: of each the word, how many, the first and the last frame, and the last time."""

    title, head = TABLES['refusals']

    def __init__(self, kept):
        self.kept = kept
        self.room = Room()

    def take(self, row, half):
        """Takes a word that refuses a row its name."""
        found = self.kept.entry(self.room, row.name, (row.name, row.address, half.by, half.text), lambda: [half.word, 0, half.frame, None, None])
        if found:
            found[1] += 1
            found[3], found[4] = half.frame, half.at

    def rows(self, times):
        found = sorted(self.room.entries.items(), key=lambda pair: pair[0])
        return [self.row(key, *each, times) for key, each in found]

    def row(self, key, _word, count, first, last, at, times):
        row = dict(zip(self.head, (*[part or None for part in key], count, first, last, None if at is None else times(at))))
        return {**row, 'not_all_kept': self.kept.lacks(key[0])}
