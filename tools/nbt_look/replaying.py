"""`nbt replay` as a child: what becomes of the pieces of datagrams. What it reports counts, and nothing beside it."""
import subprocess

from nbt_pcap.header import MOST_KEYS
from nbt_pcap.process import Stopped

from .pieces import Piece, Pieces
from .telling import NO_LIMIT, READ, Child, exchange
from .vocabulary import PIECES

# A station that has this name alone: whether it hears a datagram or not, the report says when one is whole.
STATION = '*<00>'
KEYS = str(MOST_KEYS)
# How many bytes wait for the child before no more are given.
MOST_WAITING = 65_536


class Replay:
    """The station, which begins with the first piece."""

    def __init__(self, program, datagrams):
        self.program, self.datagrams = program, datagrams
        self.pieces = Pieces(datagrams.ended)
        self.child = None
        self.moment = None                       # of the latest look at the clock

    def take(self, item, shown):
        """Gives the station the piece that a packet has, after a look at the clock. Of one that is cut the names count."""
        if item.service != 138 or shown.get('kind') not in PIECES or 'refused' in shown:
            return
        if 'cut' in shown:
            if 'destination' in shown:
                self.datagrams.count((shown['source'], shown['destination'], shown['kind']), 'cut')
            return
        self.child = self.child or Child(self.program, ('replay', '--json', '--keys', KEYS, STATION))
        if item.moment != self.moment:
            self.moment = item.moment
            self.ask('tick %d\n' % item.moment, None)
        line = '138 %d %s\n' % (item.moment, item.digits)
        self.ask(line, Piece(item.moment, shown['key'], (shown['source'], shown['destination'], shown['kind']), item.frame.number, line))

    def ask(self, line, piece):
        self.child.asked.append(piece)
        self.child.give(line)
        if self.child.size > MOST_WAITING:
            self.exchange(lambda: self.child.size > 0)

    def exchange(self, goes_on):
        """Gives the child what waits, and takes its reports."""
        while goes_on():
            exchange([self.child], None)
            for piece, text in self.child.told():
                self.pieces.report(piece, READ(text)[0])

    def finish(self):
        if self.child:
            self.exchange(lambda: self.child.asked)
            self.pieces.finish()
            self.child.finish()
            self.child = None


def listing(program):
    """What pieces say together, by the program."""
    def asked(words, given):
        done = subprocess.run([program, *words], input=given, capture_output=True, check=False)
        if done.returncode != 0:
            raise Stopped(3, done.stderr.decode(errors='replace').strip() or 'nbt ended with status %d' % done.returncode)
        return done.stdout

    def listed(several):
        table = asked(['save', '--keys', KEYS, '--input-limit', str(NO_LIMIT)], ''.join(map(''.join, several)).encode())
        return [READ(line)[0] for line in asked(['list', '--json', '--keys', KEYS], table).decode().splitlines()]

    return listed
