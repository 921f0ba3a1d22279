"""Sessions: who called whom, and what came of it. RFC 1002 section 4.3 and 5.3."""
from dataclasses import dataclass, field

from .rooms import Room
from .vocabulary import MOST_STREAMS, SESSION_RESPONSES, TABLES

# Flags of TCP.
SYN, RST, ACK = 0x02, 0x04, 0x10
NOBODY = ('', '')
REFUSED, NO_ANSWER, UNANSWERED = 'connection refused (RST)', 'no answer', 'request unanswered'


@dataclass
class Calls:
    """The sessions of one caller with one station, by their names."""

    packets: int = 0
    calls: int = 0
    accepted: int = 0
    sent: int = 0
    received: int = 0
    refused: dict = field(default_factory=dict)

    def refuse(self, words, times=1):
        self.refused[words] = self.refused.get(words, 0) + times

    def failed(self):
        """How often calls were refused, or failed, by why."""
        return ['%s: %d' % (words, times) for words, times in self.refused.items() if times]


@dataclass
class Session:
    """A session: who opened its connection, an address with a port, whom that one called as whom, and how far it came."""

    caller: tuple
    callee: tuple
    sequence: str = None             # of the SYN that opened it; None where none stands
    why: str = None                  # why it failed, if nothing more comes, which is counted in these calls
    calls: Calls = None
    is_begun: bool = False           # a packet of it has come
    is_answered: bool = False        # a response to a session request has come
    is_accepted: bool = False
    calling: str = None
    called: str = None

    def fail(self, why, calls):
        """Takes why it fails if nothing more comes, in the place of what stood there."""
        if self.why and self.calls:
            self.calls.refuse(self.why, -1)
        if why and calls:
            calls.refuse(why)
        self.why, self.calls = why, calls


class Sessions:
    """All sessions, by the names and addresses of both sides; those that go on by tshark's number of their stream, or by the addresses and ports of
    both sides. `named` is told by which name a station called, once a session is accepted."""

    title, head = TABLES['sessions']

    def __init__(self, ports, named):
        self.ports, self.named = ports, named        # the ports are those of the service
        self.room = Room()
        self.streams = {}

    def segment(self, item, is_wanted=True):
        """Takes a segment of TCP, before the packets that it completes; whether it counts that its connection fails. A SYN of another number than
        the one before it, or after packets, begins another session."""
        key, here, there = key_of(item), (item.source, item.source_port), (item.target, item.target_port)
        known, is_first = self.streams.get(key), item.flags & (SYN | ACK) == SYN
        if is_first and (known is None or (known.sequence != item.sequence and (known.is_begun or known.sequence is not None))):
            known = self.keep(key, Session(here, there))
            known.fail(NO_ANSWER, self.of(known) if is_wanted else None)
        elif item.flags & SYN and known is None:
            self.keep(key, Session(there, here))
        if is_first:
            known.sequence = item.sequence
        elif known and known.why == NO_ANSWER:
            known.fail(REFUSED if item.flags & RST and here == known.callee else None, known.calls)

    def keep(self, key, session):
        """Puts it behind those that went on before it."""
        self.streams.pop(key, None)
        self.streams[key] = session
        if len(self.streams) > MOST_STREAMS:
            self.streams.pop(next(iter(self.streams)))
        return session

    def take(self, item, shown):
        if item.service != 139 or 'kind' not in shown or 'refused' in shown:
            return
        key, here, there, is_request = key_of(item), (item.source, item.source_port), (item.target, item.target_port), shown['kind'] == 'request'
        session = self.streams.get(key)
        if session is None or (is_request and session.sequence is None and here != session.caller):
            session = Session(*self.sides(here, there, is_request))
        self.keep(key, session).is_begun = True
        if is_request:
            session.calling, session.called, session.is_answered, session.is_accepted = shown['calling'], shown['called'], False, False
        calls = self.of(session)
        if calls:
            calls.packets += 1
            self.count(calls, session, shown, here == session.callee and here != session.caller)

    def sides(self, here, there, is_request):
        """Who called, and who was called, where the connection's begin isn't in the capture: who asks for a session, else whose port isn't the
        service's."""
        if is_request or (there[1] in self.ports and here[1] not in self.ports):
            return here, there
        return (there, here) if here[1] in self.ports and there[1] not in self.ports else (NOBODY, NOBODY)

    def of(self, session):
        """What is counted of the sessions that are like this one."""
        return self.room.get((session.calling, session.called, session.caller[0], session.callee[0]), lambda: Calls())

    def count(self, calls, session, shown, is_back):
        kind = shown['kind']
        if kind == 'request':
            calls.calls += 1
            session.why = None       # that a request before this one has no response stays counted
            session.fail(UNANSWERED, calls)
        elif kind in SESSION_RESPONSES:
            session.is_answered = True
            session.fail(None, calls)
        if kind == 'positive' or (kind == 'message' and is_back and not session.is_answered):
            self.accept(calls, session)
        elif kind == 'negative':
            calls.refuse(shown['brief'].removeprefix('refuses: '))
        elif kind == 'retarget':
            calls.refuse('retargeted to %s, port %d' % (shown['address'], shown['to_port']))
        if kind == 'message':
            calls.sent += 0 if is_back else shown['length']
            calls.received += shown['length'] if is_back else 0

    def accept(self, calls, session):
        """A session is accepted, by a positive response or by data of the called end where the capture has no response."""
        calls.accepted += not session.is_accepted
        session.is_accepted = True
        session.fail(None, calls)
        if session.calling is not None:
            self.named(session.caller[0], session.calling)

    def called(self, item, shown):
        """The names of the session that a packet is of."""
        self.take(item, shown)
        session = self.streams.get(key_of(item)) if item.service == 139 else None
        return [each for each in (session.calling, session.called) if each] if session else []

    def rows(self, _times):
        """Those first of which one failed."""
        found = [dict(zip(self.head, (*key, each.calls, each.accepted, each.failed(), each.sent, each.received)))
                 for key, each in self.room.entries.items() if each.packets or each.failed()]
        return sorted(found, key=lambda row: [not row['refused'], *[row[key] or '' for key in self.head[:4]]])


def key_of(item):
    if item.stream is not None:
        return item.stream
    return tuple(sorted([(item.source, item.source_port), (item.target, item.target_port)]))
