"""The summary of a capture: its tables, whose rows docs/SUMMARY.md defines, and the notes below them."""
import json

from .datagrams import Datagrams
from .replaying import Replay, listing
from .rooms import Room
from .screen import Sink
from .seen import Seen
from .shown import TEXTS, counted
from .vocabulary import TABLES


class LeftOut:
    """The frames of which something is left out, by reason."""

    title, head = TABLES['left-out']

    def __init__(self):
        self.room = Room()

    def rows(self, _times):
        return [dict(zip(self.head, pair)) for pair in sorted(self.room.entries.items(), key=lambda pair: (-pair[1], pair[0]))]


class Summary(Sink):
    """All parts of a summary, each with its rows."""

    def __init__(self, screen, times, options, program):
        super().__init__(screen, times)
        self.as_json, self.chosen = options.json, options.tables
        self.seen, self.datagrams, self.missed = Seen(options.session_ports), Datagrams(listing(program)), LeftOut()
        self.replay = Replay(program, self.datagrams)
        self.parts = [*self.seen.parts, self.datagrams, self.datagrams.failed, self.seen.faults, self.missed]

    def packet(self, item, shown, _text):
        self.seen.faults.take(item, shown)
        self.cut(item, shown)

    def cut(self, item, shown):
        self.seen.take(item, shown)
        self.replay.take(item, shown)

    def segment(self, item, is_wanted):
        self.seen.sessions.segment(item, is_wanted)

    def left_out(self, item):
        self.seen.left_out(item.frame, item.reason)

    def finish(self, tally, left_out):
        self.replay.finish()
        self.missed.room.entries = {reason: count for reason, count in left_out.items() if count}
        parts = [part for part in self.parts if part.title in self.chosen or not self.chosen]
        if self.as_json:
            self.screen.lines.append(self.object(parts, tally))
            return
        for part in parts:
            self.show(part)
        for each in self.seen.notes():
            self.screen.line(each)
        if self.chosen and not self.screen.lines[-1]:
            self.screen.lines.pop()      # the empty line after the last table

    def show(self, part):
        """A table. One that has no row is there where it is asked for."""
        rows = part.rows(self.times.text)
        if rows:
            self.screen.table(part.title, rows, part.head, TEXTS.get(part.title, {}))
        elif self.chosen and not part.room.others:
            self.screen.line('%s: none' % part.title, 'head')
        if part.room.others:
            self.screen.line('  and %s of more than are kept' % counted(part.room.others, 'packet'))
        if rows or part.room.others or self.chosen:
            self.screen.line('')

    def object(self, parts, tally):
        """One object of JSON, with the rows of each part, and where all parts are there with the counts."""
        found = {part.title.replace(' ', '_'): part.room.entries if part is self.missed else part.rows(self.times.utc) for part in parts}
        found['not_kept'] = {part.title.replace(' ', '_'): part.room.others for part in parts if part.room.others}
        found['notes'] = self.seen.notes()
        counts = {'packets': tally.packets, 'frames': tally.frames, 'frames_without_a_packet': tally.without}
        return json.dumps(found if self.chosen else {**found, **counts})
