"""Commands and captures for tests/process.py, and inputs that want a known room."""
from limits import MANY, MOST_KEYS, MOST_NAMES, NAMED
from wire import datagram

FRED, PAIR = NAMED['FRED'], ('10.0.0.5:138/0001', 'JOE<00>', 'FRED<20>')


def packet(identifier, flags=2, offset=0, data=''):
    """A group datagram's packet from JOE<00> to FRED<20>, as digits."""
    return datagram(identifier, bytes.fromhex(data), flags=flags, offset=offset).hex()


def captures(count, data=''):
    """A capture of first fragments, each of another key."""
    return b''.join(f'138 0 {packet(it, data=data)}\n'.encode() for it in range(count))


CAPTURE = f'138 0 {packet(1)}\n138 1 {packet(1)}\ntick 2000\n138 2001 {packet(1)}\n137 2002 00\n138 2003 17\n'.encode()
COMMENTED = f'# a key\n138 0 {packet(1, 3, 0, "6162")}\n138 3 {packet(3, 1, 7)}\n137 4 0001\n# end\ntick 2003\n'.encode()
TABLES = b'4e42543200000000\n4e42543200000000\n'
SPOILT = b'4e425432000000010a000005008a000100\n'
# Each command and each form of what it prints, and what is refused: by the words, by the input, of any command, with a number and without.
COMMANDS = [
    *((words, b'') for words in ([], ['--version'], ['--help'], ['name', 'FRED<20>'], ['name', 'FRED'], ['name', 'A' * 16 + '<20>'])),
    *((['name', '--bytes', digits], b'') for digits in (FRED, '0', FRED + '00', '20', '40', 'c00c', '0000')),
    (['build', 'keepalive'], b''), (['build', 'query', '0001', 'FRED'], b''),
    *((['build', 'unique', *PAIR, '00' * size, most], b'') for size, most in ((65_500, '65535'), (1, '0'))),
    (['show'], b'tick 1\n139 2 85000000\n'), (['show'], b'tick 1\ntick 22'), (['show'], b'tick 1\nx\n'),
    (['show', '--brief'], COMMENTED), (['show', '--comments', '--json'], COMMENTED),
    (['replay', 'FRED<20>'], CAPTURE), (['replay', 'FRED<20>'], b'tick 1\ntick 22'), (['replay', 'FRED<20>'], b'tick 1\nx\n'),
    (['replay', '--json', '--comments', 'FRED<20>'], COMMENTED), (['replay', *(f'N{it}<20>' for it in range(MOST_NAMES + 1))], b''),
    *((['save', option, '1'], captures(2)) for option in ('--keys', '--per-source')), (['save'], b'tick 1\n138 0 17\n'), (['save'], b'x\n'),
    (['merge'], TABLES), (['merge'], b''), (['merge'], b'00\n'), (['merge'], b'4e425432\n'),
    (['list'], SPOILT), (['list', '--json'], SPOILT), (['list'], TABLES + b'\n'), (['list'], b'4e4254320000000000\n'),
    (['agree'], TABLES), (['agree'], TABLES[:17] + SPOILT), (['agree'], b'x\n'),
]
READING = [['show'], ['save'], ['replay', 'FRED<20>'], ['merge'], ['list'], ['agree']]


def repeated(count):
    """A capture whose lines say the same again and again: a packet of each port, a payload that is refused, a look at the clock."""
    line = f'138 0 {packet(1, data="5a" * 300)}\n137 0 {"00" * 300}\n138 0 17\n139 0 85000000\ntick 1\n'
    return line.encode() * count


def pieces(*rows):
    """A capture of pieces with more to come, each an identifier, an offset and data."""
    return ''.join(f'138 0 {packet(key, 1 if offset else 3, offset, data)}\n' for key, offset, data in rows).encode()


def passing(addresses):
    """A capture of first fragments, each of another address, and after each hundred a look at the clock, which drops them."""
    start, end = packet(1).split('0a000005')
    lines = (f'138 {2_000 * (it // 100)} {start}{it:08x}{end}\n' + (f'tick {2_000 * (it // 100 + 1)}\n' if it % 100 == 99 else '')
             for it in range(addresses))
    return ''.join(lines).encode()


def chained(place):
    """A capture of a packet with a chain of 8,000 pointers in RDATA, which leads to FRED<20>, and 4,000 records whose
    names are pointers to the one with this place in it."""
    name, chain = 23, 23 + len(FRED) // 2
    pointers = [name, *range(chain, chain + 2 * 7_999, 2)]
    data = FRED + ''.join(f'{0xc000 | it:04x}' for it in pointers)
    records = f'{0xc000 | chain + 2 * place:04x}000a0001000000000000' * 4_000
    return f'137 0 00018500{0:04x}{4_001:04x}0000000000000a000100000000{len(data) // 2:04x}{data}{records}\n'.encode()


def roomy():
    """(name, words, input, kB of memory) of inputs that want a known room.

    No contract says how much room is reserved beside what is held. Each limit is the least in which the program did
    its work, and 15 percent more. Where a piece of a byte takes much more than its byte, long pieces take twice their
    room, or an input is held whole, it doesn't do.
    """
    long, half = '5a' * 64_000, '5a' * 32_000
    for name, limit, rows in [
            ('as many keys as may be, of a byte', 69_800, [(key, 0, '5a') for key in range(MOST_KEYS)]),
            ('20,000 keys of three bytes, the middle one last', 25_500,
             [(key, offset, '5a') for offset in (0, 2, 1) for key in range(20_000)]),
            ('10 keys of 9,000 bytes apart', 13_100,
             [(key, 2 * place, '5a') for place in range(9_000) for key in range(10)]),
            ('120 keys of 64,000 bytes', 12_600, [(key, 0, long) for key in range(120)]),
            ('120 keys of two pieces of 32,000 bytes', 15_200,
             [(key, offset, half) for offset in (0, 32_000) for key in range(120)])]:
        yield name, ['replay', *MANY, 'FRED<20>'], pieces(*rows), limit
    yield 'ever new addresses, a key each', ['save', '--per-source', '1'], passing(90_000), 3_700
    for words in (['show'], ['replay', 'FRED<20>'], ['save']):
        yield '16 MB of comments', words, (b'#' * 4_000 + b'\n') * 4_000, 3_500
