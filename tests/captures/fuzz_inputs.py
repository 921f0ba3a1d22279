"""Payloads, captures, saved tables and command lines made by chance: those of tests/captures/fuzz_traffic.py, and of examples, some of them
changed."""
import os
import re

from example_lines import definitions
from fuzz_traffic import ServicePacket, Traffic, session_packet
from model.building import FORMATS, ROWS
from model.captures import LONGEST_LINE, digits
from model.limits import MOST_KEYS
from model.names import text_of
from model.tables import MAGIC, TIMER, Table
from wire import FRED

ROOT = os.path.dirname(os.path.dirname(os.path.dirname(os.path.abspath(__file__))))
LATEST = (1 << 64) - 1
LONGEST_PAYLOAD, LONGEST_WORD, LONGEST_EXAMPLE = 131_000, 131_000, 2_000
NAMES = ['FRED<20>', 'JOE<00>', 'ANN<03>.A', '*<00>', r'\2d<20>', r'\00<ff>.NETBIOS.COM']
LIMITS = (1, 2, 3, MOST_KEYS)
NAMED = ('NAME', 'CALLED', 'CALLING', 'SOURCE', 'DESTINATION')
# What stands for words of `nbt build`, by their names in docs/FORMATS.md, besides any number of four digits and any name.
VALUES = {
    'TTL': ('0', '7', '300000', '4294967295', '4294967296'), 'ADDRESS': ('10.0.0.5', '255.255.255.255', '10.0.0.256'),
    'TYPE': ('0020', '0021', '0002', '000A'), 'CODE': ('82', '8f', '8F', '0'), 'PORT': ('0', '139', '65535', '65536'),
    'KEY': ('10.0.0.5:138/0001', '255.255.255.255:65535/ffff'), 'MOST': ('0', '1', '7', '999', '65535'),
}
RDATA = ('02', FRED.hex(), '00000a000005', '00', 'empty', '0')
OTHERS = ('--keys', '--bytes', '--broadcast', '--help', '--', '-', '-h', '--keys=3', '--per-source=2', '-V', 'query', 'group', '00010203')
MALFORMED = (b'tick', b'138 1 0', b' ', b'137  1 00', b'139 1 0g', b'#' * (LONGEST_LINE + 1), b'tick %d' % (LATEST + 1))
COMMENTS = (b'', b'#', b'# a comment', b'# "\\', b'#\x00\x1f\x7f\xff\r', b'## ' + bytes(range(0x20, 0x7f)))
# The options of each command, as the page has them.
OPTIONS = {command: tuple(re.findall(r'\[(--[a-z-]+)', words))
           for command, words in re.findall(r'^\| `nbt (\w+)([^`]*)` \|', FORMATS.read_text('utf-8'), re.MULTILINE)}


def capture_lines():
    """The lines of the captures in examples/, and of other files there that are none."""
    folder = os.path.join(ROOT, 'examples')
    for name in sorted(os.listdir(folder)):
        if not name.endswith(('.txt', '.pcap', '.sh')):
            continue
        with open(os.path.join(folder, name), 'rb') as capture:
            yield from capture.read().splitlines()


def capture_of(payloads):
    """A capture of payloads with their ports."""
    return ''.join(f'{port} 7 {digits(payload)}\n' for port, payload in payloads).encode()


def likely_port(payload):
    """The port whose packets begin so."""
    first = payload[:1]
    return 138 if b'\x10' <= first <= b'\x16' and len(payload) > 4 else 139 if first >= b'\x81' or payload[:2] == b'\0\0' else 137


class Inputs:
    """Makes inputs, and the words of commands."""

    def __init__(self, rng):
        self.rng = rng
        self.payloads = [it for it in definitions() if 0 < len(it) <= LONGEST_EXAMPLE]
        self.saved = [it for it in self.payloads if it.startswith(MAGIC[:3])]
        self.lines = list(capture_lines())
        self.traffic = Traffic(rng)

    def changed(self, data):
        """Bytes with some changes, mostly few."""
        data = bytearray(data)
        for _ in range(self.rng.choice((0, 1, 1, 1, 2, 3, 8))):
            self.change(data)
        return bytes(data)

    def change(self, data):
        """Makes one change: of a bit or a byte, of two, of a row of bytes."""
        rng = self.rng
        at = rng.randrange(len(data) + 1)
        end = min(len(data), at + rng.choice((1, 1, 2, 4, 34, 100)))
        how = rng.randrange(8)
        if how == 0 and at < len(data):
            data[at] ^= 1 << rng.randrange(8)
        elif how == 1 and at < len(data):
            data[at] = rng.choice((0, 1, 2, 3, 0x10, 0x11, 0x20, 0x3f, 0x40, 0x7f, 0x80, 0xc0, 0xff))
        elif how == 2 and at + 2 <= len(data):
            data[at:at + 2] = rng.choice((0, 1, 255, 256, 65_534, 65_535, rng.randrange(65_536))).to_bytes(2, 'big')
        elif how == 3:
            del data[at:end]
        elif how == 4:
            data[at:at] = data[at:end] * rng.choice((1, 1, 2, 50))
        elif how == 5:
            del data[at:]
        elif how == 6:
            other = rng.choice(self.payloads)
            data[at:end] = other[rng.randrange(len(other) + 1):]
        else:
            data[at:at] = rng.randbytes(rng.choice((1, 2, 4, 64)))

    def payload(self):
        """A payload and its port, which mostly fits it."""
        rng = self.rng
        port, make = rng.choice(((137, ServicePacket(rng).made), (138, lambda: rng.choice(self.traffic.payloads() or [b''])),
                                 (139, lambda: session_packet(rng)), (None, lambda: self.changed(rng.choice(self.payloads)))))
        payload = make()
        payload = (self.changed(payload) if rng.random() < 0.25 else payload)[:LONGEST_PAYLOAD]
        return (port or likely_port(payload)) if rng.random() < 0.97 else rng.choice((137, 138, 139)), payload

    def fronts(self):
        """A payload's fronts, each of which may be refused in another way."""
        port, payload = self.payload()
        fronts = range(len(payload) + 1)
        return [(port, payload[:it]) for it in (fronts if len(fronts) <= 200 else sorted(self.rng.sample(fronts, 200)))]

    def capture(self):
        """A capture of fragments that meet, of the fronts of a payload, or of any payloads; the clock mostly goes on, ticks, comments come
        between, and rarely a malformed line, or one of the samples changed."""
        rng, lines = self.rng, []
        self.traffic, how = Traffic(rng), rng.random()
        clock = rng.choice((0, 0, 1_000, LATEST - 5_000, LATEST - TIMER + 1, LATEST - TIMER, LATEST))
        payloads = (self.fronts() if how < 0.15 else [self.payload() for _ in range(rng.choice((1, 5, 60, 120)))] if how < 0.7
                    else [(138, it) for _ in range(rng.choice((1, 2))) for it in self.traffic.payloads()])
        for port, payload in payloads:
            clock = min(LATEST, clock + rng.choice((0, 0, 0, 0, 1, 500, TIMER - 1, TIMER, TIMER + 1)))
            text = digits(payload)
            lines.append(b'%d %d %b' % (port, clock if rng.random() < 0.9 else rng.choice((0, clock // 2, LATEST)),
                                        (text.upper() if payload and rng.random() < 0.1 else text).encode()))
            lines += [self.between(clock) for _ in range(rng.choice((0, 0, 0, 1, 1, 2)))]
        if rng.random() < 0.1:
            lines.insert(rng.randrange(len(lines) + 1), rng.choice((*MALFORMED, *map(self.changed, rng.sample(self.lines, 2)))))
        if rng.random() < 0.08:
            lines.append(b'#' * (LONGEST_LINE + rng.choice((0, 1, 2, 2))))
        return b'\n'.join(lines) + rng.choice((b'\n', b'\n', b'', b'\n# no more'))

    def between(self, clock):
        """A line that says nothing, or a look at the clock."""
        rng = self.rng
        if rng.random() < 0.4:
            return b'tick %d' % rng.choice((clock, clock, min(LATEST, clock + TIMER), 0, LATEST))
        return rng.choice((*COMMENTS, b'#' + rng.randbytes(rng.randrange(30)).replace(b'\n', b'\r')))

    def tables(self):
        """Lines of saved tables of the same senders, as the model saves them, in the first form too, or changed; or of the examples."""
        rng, traffic, lines = self.rng, Traffic(self.rng), []
        for _ in range(rng.choice((1, 2, 2, 3))):
            table, fragments = Table(), traffic.fragments(rng.choice((0, 0.1)))
            for each in rng.sample(fragments, rng.randrange(len(fragments) + 1)):
                table.insert(each)
            promised = any(each.promise >= 0 for each in table.entries.values())
            saved = rng.choice(self.saved) if rng.random() < 0.05 else table.saved(promised or rng.random() < 0.75)
            text = digits(self.changed(saved) if rng.random() < 0.1 else saved).encode()
            lines.append(text if rng.random() < 0.99 else self.changed(text))
        return b'\n'.join(lines) + rng.choice((b'\n', b''))

    def words(self, command, given):
        """The words of a command with some of its options, in any order; each name of a station once or more."""
        rng, options, size = self.rng, [], len(given) or 1
        limit = rng.choice((size - 1, size - 1, size, size + 1, LATEST)) if rng.random() < 0.8 else rng.randrange(1, size + 1)
        for each in OPTIONS[command]:
            values = {'--input-limit': max(1, limit), '--keys': rng.choice(LIMITS), '--per-source': rng.choice(LIMITS)}
            if each != '--json' and rng.random() < 0.4:
                value = [str(values[each])] if each in values else []
                options.append([each, *value] if rng.random() < 0.5 else ['='.join([each, *value])])
        rng.shuffle(options)
        if ['--brief'] in options and ['--partial'] in options and rng.random() < 0.9:
            options.remove(rng.choice((['--brief'], ['--partial'])))
        words = [command, *sum(options, [])]
        if command == 'replay':
            names = [text_of(it) for it in rng.choices(self.traffic.names, k=rng.choice((1, 2, 4)))]
            words += ['--', *names, *rng.sample(NAMES[:3], rng.randrange(3))]
        return words

    def word(self, field=None):
        """A word of a command line: of this name in the rows of `nbt build`, or any."""
        rng = self.rng
        number, field = f'{rng.randrange(65_536):04x}', field or rng.choice(('NAME', 'HEX', 'OTHER', *VALUES))
        if field == 'HEX':
            return rng.choice((*RDATA, rng.choice(self.payloads).hex()))
        names = rng.choice((NAMES, [text_of(rng.choice(self.traffic.names))]))
        text = rng.choice(names if field in NAMED else OTHERS if field == 'OTHER' else (*VALUES.get(field, ()), number))
        return self.text(text) if rng.random() < 0.1 else text

    def text(self, text):
        """A text with few changes, without zero bytes, which no word has."""
        return self.changed(text.encode()).replace(b'\0', b'0').decode('utf-8', 'surrogateescape')[:LONGEST_WORD]

    def building(self):
        """The words of `build`: a WHAT with its arguments, sometimes one of them another word."""
        rng = self.rng
        whats, fields = rng.choice(ROWS)
        words = [rng.choice(re.findall('`(.*?)`', whats)), *map(self.word, fields.split())]
        if rng.random() < 0.15:
            words[rng.randrange(len(words))] = self.word()
        return ['build'] + (['--broadcast'] if rng.random() < 0.4 else []) + words
