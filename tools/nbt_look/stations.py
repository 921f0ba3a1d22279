"""The stations: who sends packets, from which MACs, and by which names."""
from dataclasses import dataclass, field

from .rooms import Room
from .vocabulary import MOST_OF_STATION, TABLES, Word
from .words import is_response, statuses_of


@dataclass
class Station:
    """An address that sent packets."""

    packets: int = 0
    macs: dict = field(default_factory=dict)
    unit: str = None
    status: list = field(default_factory=list)


class Stations:
    """The stations, by address, and the names by which they sent datagrams and called others."""

    title, head = TABLES['stations']

    def __init__(self, said, refusals):
        self.said, self.refusals = said, refusals
        self.room, self.used = Room(), Room()

    def take(self, item, shown):
        """Takes a packet."""
        sender = self.room.get(item.source, lambda: Station())
        if sender:
            sender.packets += 1
            if item.frame.source_mac:
                sender.macs[item.frame.source_mac] = True
        for record in statuses_of(shown) if sender and 'answers' in shown and is_response(shown) else ():
            sender.status = [each['name'] for each in record['names'][:MOST_OF_STATION]]
            sender.unit = record.get('unit')
        if 'source' in shown and 'key' in shown:
            self.named(shown['key'].partition(':')[0], shown['source'])

    def named(self, address, name):
        """An address uses a name."""
        if self.used.get((address, name), lambda: True) is None:
            self.room.others += 1

    def rows(self, _times):
        names = by_address([*[(row.address, row.name) for row in self.said.room.entries.values() if row.is_standing()], *self.used.entries])
        refused = by_address([(key[1], key[0]) for key, each in self.refusals.room.entries.items() if each[0] is not Word.NOT_RELEASED])
        return [dict(zip(self.head, (address or None, list(each.macs), each.packets, names.get(address, []), refused.get(address, []), each.status, each.unit)))
                for address, each in sorted(self.room.entries.items(), key=lambda pair: pair[0])]


def by_address(pairs):
    """The names of each address, each once."""
    found = {}
    for address, name in sorted(pairs):
        if name not in found.setdefault(address, [])[-1:]:
            found[address].append(name)
    return found
