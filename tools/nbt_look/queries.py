"""Queries and node status requests that found nothing: RFC 1002 sections 4.2.12 to 4.2.18. docs/SUMMARY.md has the definitions."""
from dataclasses import dataclass, field

from .rooms import Room
from .times import since
from .vocabulary import ADDRESS_TYPE, ANSWERING, EPOCH, LATE, LATER, MALFORMED, MOST_FRAMES, OTHER, STATUS_TYPE, TABLES
from .words import is_response, type_of

KINDS = {ADDRESS_TYPE: 'query', STATUS_TYPE: 'status'}
# The types of what a positive response has, where one stands.
POSITIVE = (ADDRESS_TYPE, STATUS_TYPE, None)
# What a row has of the response that came last.
NOTHING = {'answered': None, 'answer': None, 'answered_by': None, 'after': None}


@dataclass
class Request:
    """A request with its repeats: its row (name, type, asker and station asked), which packet of all the first one is, since when, how often, in
    which frames, and what came of it last."""

    key: tuple
    is_to_group: bool
    order: int
    since: int
    latest: int = EPOCH              # when the latest repeat came
    times: int = 0
    frames: list = field(default_factory=list)
    has_own: bool = False            # a response belongs to it
    is_answered: bool = False        # and is a positive one
    reply: dict = None               # what came last, and which packet of all that is
    replied: int = 0

    def repeat(self, message):
        self.times += 1
        self.latest = message.moment
        if len(self.frames) < MOST_FRAMES:
            self.frames.append(message.frame)

    def is_fresh(self, moment):
        """Whether this is at most 10 s after the latest repeat."""
        return moment - self.latest <= ANSWERING


class Queries:
    """All requests, and of each identifier, name and asker the latest by station asked and type: responses are looked at for these."""

    title, head = TABLES['queries']

    def __init__(self, kept):
        self.kept = kept
        self.room = Room()
        self.latest = {}
        self.packets = 0

    def take(self, message):
        self.packets += 1
        if message.shown['op'] == 'query' and not is_response(message.shown):
            self.ask(message, type_of(message.shown))
        elif message.shown['op'] == 'query' and message.front != MALFORMED:
            self.respond(message, type_of(message.shown))

    def ask(self, message, kind):
        """Takes a request, or a repeat of one."""
        waiting, key = self.latest.get((message.name, message.number, message.source), {}), (message.name, kind, message.source, message.target)
        found = waiting.get(key)
        if found is None or found.has_own or not found.is_fresh(message.moment):
            found = self.kept.entry(self.room, message.name, self.packets, lambda: Request(key, message.is_to_group, self.packets, message.at))
            if found:
                self.latest.setdefault((message.name, message.number, message.source), {})[key] = found
        if found:
            found.repeat(message)

    def respond(self, message, kind):
        """A response belongs to the requests that were sent to its sender, or else to those that were sent to a group, within 10 s; one that
        belongs to none says something to each that it fits."""
        waiting = self.latest.get((message.name, message.number, message.target), {})
        fitting = [each for each in waiting.values() if kind not in KINDS or each.key[1] in (kind, None)]
        fresh = [each for each in fitting if each.is_fresh(message.moment)]
        own = [each for each in fresh if each.key[3] == message.source] or [each for each in fresh if each.is_to_group]
        for each in own:
            self.belong(each, message, kind)
        for each in fitting if not own else ():
            self.reply(each, OTHER if each.is_fresh(message.moment) else LATE, message)

    def belong(self, request, message, kind):
        """A response that belongs to a request answers it, or says why nothing was found."""
        request.has_own = True
        if message.code == 'ok' and kind in POSITIVE:
            request.is_answered = True
            self.reply(request, LATER, message)
        else:
            self.reply(request, 'redirected' if message.code == 'ok' else str(message.code), message)

    def reply(self, request, what, message):
        if what == LATER or not request.is_answered:
            after = since(message.moment - request.latest)[:-3] if what == LATE else None
            request.reply = {'answered': message.frame, 'answer': what, 'answered_by': message.source or None, 'after': after}
            request.replied = self.packets

    def rows(self, times):
        requests = {}
        for each in self.room.entries.values():
            requests.setdefault(each.key, []).append(each)
        found = sorted(requests.items(), key=lambda pair: [each or '' for each in pair[0]])
        return [self.row(key, each, times) for key, each in found if not all(one.is_answered for one in each)]

    def row(self, key, requests, times):
        """A row as an object of JSON. What came last is the latest reply, that to a later request which was answered too."""
        name, kind, by, asked = key
        failed = [each for each in requests if not each.is_answered]
        replied = [each for each in requests if each.reply and (not each.is_answered or each.order > failed[0].order)]
        reply = sorted(replied, key=lambda each: each.replied)[-1].reply if replied else NOTHING
        return {'name': name, 'type': KINDS.get(kind, kind), 'by': by or None, 'asked': asked or None, 'times': sum(each.times for each in failed),
                'frames': sorted([frame for each in failed for frame in each.frames])[:MOST_FRAMES],
                'since': None if failed[0].since is None else times(failed[0].since), **reply, 'not_all_kept': self.kept.lacks(name)}
