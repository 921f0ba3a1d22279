"""Captures for tests/bench.py and tests/bench_library.py, always the same: what an office's stations send, and datagrams in
pieces."""
import os
import random
import struct

from wire import FRED, JOE, NB, NBSTAT, NULL, datagram, first_level, pieces, record, service, session

MOST_IN_A_CAPTURE = 16_777_216
TO_FIRST_QUESTION = b'\xc0\x0c'
# The kinds of packet of each port, as often as they come.
SERVICE = ('query',) * 8 + ('registration', 'registration', 'refresh', 'release', 'positive', 'positive', 'positive', 'negative',
                            'node status request', 'node status', 'node status', 'wack')
DATAGRAMS = (0x10,) * 4 + (0x11,) * 8 + (0x12,) * 4 + (0x13, 0x14, 0x15, 0x16)
SESSIONS = ('message',) * 15 + ('request', 'positive', 'negative', 'retarget', 'keepalive')


def line(moment, payload, port=138):
    return b'%d %d %s\n' % (port, moment, payload.hex().encode())


def written(folder, name, lines):
    """The file of a capture."""
    path = os.path.join(folder, name)
    with open(path, 'wb') as file:
        file.writelines(lines)
    return path


# ---- what an office's stations send

class Office:
    """Stations with some names each, and the packets that they send."""

    def __init__(self, rng):
        self.rng = rng
        self.names = [first_level('STATION%02d' % number, suffix) for number in range(60) for suffix in (0x00, 0x03, 0x20)]
        self.names += [first_level('OFFICE', suffix) for suffix in (0x00, 0x1b, 0x1c, 0x1d, 0x1e)]

    def name(self):
        return self.rng.choice(self.names)

    def address(self):
        return bytes([10, 0, self.rng.randrange(4), self.rng.randrange(1, 255)])

    def entry(self):
        """An entry of RDATA of kind NB."""
        return struct.pack('>H', self.rng.choice((0x0000, 0x2000, 0x6000, 0x8000))) + self.address()

    def service(self):
        """A packet of port 137: a request, a response with records, or the answer to a node status request."""
        what, name = self.rng.choice(SERVICE), self.name()
        claim = record(NB, self.entry(), 300_000)
        word, asked, told = {
            'query': (0x0110, NB, b''), 'registration': (0x2910, NB, claim), 'refresh': (0x4000, NB, claim), 'release': (0x3000, NB, claim),
            'positive': (0x8500, None, record(NB, self.entry() + self.entry() * self.rng.randrange(4), 300_000)),
            'negative': (0x8583, None, record(NULL, b'')),
            'node status request': (0x0000, NBSTAT, b''), 'node status': (0x8400, None, record(NBSTAT, self.statistics())),
            'wack': (0xbc00, None, record(NB, b'\x29\x00', 15)),
        }[what]
        return service(self.rng.randrange(65_536), word, name, asked, told)

    def statistics(self):
        """What a node status answer says of a station: its names, and its numbers."""
        count = self.rng.randrange(3, 12)
        names = b''.join(b'STATION%02d      ' % number + bytes([self.rng.choice((0x00, 0x03, 0x20))])
                         + struct.pack('>H', self.rng.choice((0x0400, 0x8400, 0x6400))) for number in range(count))
        return bytes([count]) + names + self.rng.randbytes(6) + bytes(40)

    def datagram(self):
        """A packet of port 138 of any kind, whole in one."""
        kind, identifier, address = self.rng.choice(DATAGRAMS), self.rng.randrange(65_536), self.address()
        if kind >= 0x13:
            body = b'\x82' if kind == 0x13 else self.name()
            return struct.pack('>BBH4sH', kind, 2, identifier, address, 138) + body
        names = self.name() + self.name()
        return datagram(identifier, self.rng.randbytes(self.rng.randrange(20, 250)), address, kind, names=names)

    def session(self):
        """A small packet of port 139."""
        what = self.rng.choice(SESSIONS)
        body = {'message': self.rng.randbytes(self.rng.randrange(35, 260)), 'request': self.name() + self.name(), 'positive': b'',
                'negative': b'\x82', 'retarget': self.address() + b'\0\x8b', 'keepalive': b''}[what]
        return session({'message': 0x00, 'request': 0x81, 'positive': 0x82, 'negative': 0x83, 'retarget': 0x84, 'keepalive': 0x85}[what], body)


def office(port, count):
    """So many packets of an office to this port, and no more than a capture may have."""
    stations = Office(random.Random(port))
    made = {137: stations.service, 138: stations.datagram, 139: stations.session}[port]
    size = 0
    for moment in range(count):
        each = line(moment, made(), port)
        size += len(each)
        if size > MOST_IN_A_CAPTURE:
            return
        yield each


# ---- datagrams to put together

def unfragmented(rng, count):
    """Datagrams of up to 299 bytes in one packet each, and a tick each second."""
    for i in range(count):
        if i % 250 == 0:
            yield b'tick %d\n' % (i * 4)
        address = bytes([10, 0, i % 5, 1 + i % 200])
        yield line(i * 4, datagram(i % 65_536, rng.randbytes(rng.randrange(300)), address))


def shuffled(rng, datagrams, size, most):
    """Datagrams of this size, cut, with all their pieces shuffled together."""
    lines = [line(0, piece) for i in range(datagrams) for piece in pieces(i, rng.randbytes(size), most)]
    rng.shuffle(lines)
    return lines


def descending(rng, size):
    """One datagram in pieces of a byte, the last one first."""
    return [line(0, piece) for piece in reversed(pieces(1, rng.randbytes(size), 1))]


def one_address(count):
    """First fragments of one address, each of another datagram: as many keys, of which none is whole."""
    for i in range(count):
        yield line(0, datagram(i % 65_536, b'x', flags=3))


def saved_piece(offset, data):
    """The line of a saved table that holds one piece of a datagram, with more to come: docs/FORMATS.md, "Saved tables"."""
    key = struct.pack('>4sHH', bytes([10, 0, 0, 5]), 138, 1)
    held = b'\x01\x11' + JOE + FRED + b'\0' + struct.pack('>BH', 1, offset + len(data))
    return (b'NBT2' + struct.pack('>I', 1) + key + held + struct.pack('>HHH', 1, offset, len(data)) + data).hex().encode() + b'\n'


def saved_after(size, count):
    """A table of a piece of so many bytes, and tables of the bytes that follow, each of one."""
    return [saved_piece(0, b'x' * size), *(saved_piece(size + each, b'x') for each in range(count))]


# ---- the largest packets of port 137

def pointed(name, count, times):
    """A packet of one question by this name and `count` questions by pointers to it, so many times."""
    fields = struct.pack('>HH', NB, 1)
    questions = name + fields + (TO_FIRST_QUESTION + fields) * count
    payload = struct.pack('>HHHHHH', 1, 0x0110, 1 + count, 0, 0, 0) + questions
    return [line(moment, payload, 137) for moment in range(times)]


def labels(count):
    """The name with so many labels of one byte."""
    return b'\x01a' * count + b'\0'


def refused(size, times):
    """A packet of so many bytes whose first name begins with a reserved length, so many times."""
    payload = struct.pack('>HHHHHH', 1, 0x0110, 1, 0, 0, 0) + b'\x40'
    return [line(moment, payload.ljust(size, b'\0'), 137) for moment in range(times)]
