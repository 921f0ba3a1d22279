"""What is made of the packets of a capture, one after another, for all tables but those of datagrams."""
from nbt_pcap.reasons import CUT

from .names import Names, Refusals, all_rows, several
from .queries import Queries
from .rooms import Kept, Room
from .said import Said
from .sessions import Sessions
from .shown import counted
from .stations import Stations
from .vocabulary import TABLES
from .words import message_of


class Faults:
    """The packets that nbt refuses to read, by reason, with the first frame of each, and the byte of its payload at which the fault is."""

    title, head = TABLES['malformed']

    def __init__(self):
        self.room = Room()

    def take(self, item, shown):
        found = self.room.get(without_place(shown['refused']), lambda: [0, item.frame.number, shown.get('at')]) if 'refused' in shown else None
        if found:
            found[0] += 1

    def rows(self, _times):
        return [dict(zip(self.head, (reason, *each))) for reason, each in sorted(self.room.entries.items(), key=lambda pair: pair[0])]


class Seen:
    """All that is summed up, of which the memory is by the number of names and stations, with a bound. `session_ports` are those of the service."""

    def __init__(self, session_ports):
        self.kept, self.faults = Kept(), Faults()
        self.refusals = Refusals(self.kept)
        self.said, self.queries = Said(self.kept, self.refusals), Queries(self.kept)
        self.stations = Stations(self.said, self.refusals)
        self.sessions = Sessions(session_ports, lambda address, name: self.stations.named(address, name))
        self.parts = [Names('names', self.said, self.said.room, all_rows), Names('several', self.said, Room(), several),
                      self.refusals, self.queries, self.sessions, self.stations]
        self.before = self.earlier = None        # the time of the latest packet, and the first frame that is earlier than one before it
        self.nameless = 0

    def take(self, item, shown):
        """Takes a packet, or what stands of one."""
        self.look_at(item.frame)
        self.stations.take(item, shown)
        self.sessions.take(item, shown)
        message = message_of(item, shown)
        if message and message.name is not None:
            self.said.take(message)
            self.queries.take(message)
        elif item.service == 137 and 'cut' in shown:
            self.nameless += 1

    def left_out(self, ends, reason):
        """Takes a frame of which the reason is counted elsewhere."""
        self.nameless += reason == CUT and '137' in (ends.source_port, ends.target_port)

    def look_at(self, frame):
        """Looks at the time of a packet."""
        if frame.at is not None:
            if self.before is not None and frame.at < self.before and self.earlier is None:
                self.earlier = frame.number
            self.before = frame.at

    def notes(self):
        """What is said below the tables."""
        others, most = len(self.kept.others), self.kept.most
        texts = [(self.said.cut, 'cut before its address: ' + counted(self.said.cut, 'answer')),
                 (self.nameless, 'cut before its name: ' + counted(self.nameless, 'packet')),
                 (self.earlier, f'frame {self.earlier} is earlier than the one before'),
                 (others, 'not kept: ' + (f'more than {most} names' if others > most else counted(others, 'name')))]
        return [text for count, text in texts if count]


def without_place(refused):
    """The words of a fault, without the number with which they may end."""
    words, _, place = refused.rpartition(' ')
    return words if place.isdigit() else refused
