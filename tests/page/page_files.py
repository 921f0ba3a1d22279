"""Files for the tests of the page."""
import random
import struct

import random_pcap
from wire import block, interface, pcap_header, pcap_record, section

PCAP, SECTION, INTERFACE = pcap_header(), section(), interface()

KEEP = b'139 0 85000000\n'


def refused(program):
    """Packets each of which is refused for another reason, with and without a place in it."""
    query = program.build('query', '0003', 'FRED<20>')[0].split()[2]
    datagram = program.build('group', '10.0.0.5:138/0001', 'JOE<00>', 'FRED<20>', '6162', '2')[0].split()[2]
    return [f'{line}\n' for line in (
        '137 0 0003', f'137 0 {query[:24]}c0ff{query[28:]}', f'137 0 {query[:24]}40{query[26:]}', f'138 0 {datagram[:28]}20ff{datagram[32:]}',
        '138 0 empty', '138 0 1700000000000000008a', '139 0 86000000', '139 0 85020000', '139 0 8300000200ff',
        f'138 0 {datagram[:28]}c00e{datagram[32:]}', f'137 0 {query[:-4]}')]


def taps(program):
    """Two captures, each of which lacks a piece of one datagram. Another one is whole in the second alone, and there is one at the first
    alone, one at the second alone, one of which they contradict each other, and one at both."""
    sent = program.build('group', '10.0.0.5:138/0001', 'JOE<00>', 'FRED<20>', '68656c6c6f2c2046524544', '4')
    other = program.build('unique', '10.0.0.6:138/0002', 'ANN<00>', 'FRED<20>', '6f6e6574776f', '3')
    first, second, said, denied, both = (
        program.build('unique', f'10.0.0.7:138/{number}', 'ANN<00>', 'FRED<20>', data, '3')[0] for number, data in (
            ('0003', '6f6e65'), ('0004', '6f6e65'), ('0005', '796573'), ('0005', '6e6f6e'), ('0006', '6f6e65')))
    return ''.join([*sent[:2], other[0], first, said, both]).encode(), ''.join([*sent[1:], *other, second, denied, both]).encode()


def odd():
    """A capture of datagrams, fragments of IP and streams, with a snap length and bytes that are missing."""
    return random_pcap.pcap_of(random.Random('page-0'), ())


def backwards(data):
    """The packets of a capture of raw IP in the reverse order, in frames as Linux cooks them."""
    records, at = [], len(PCAP)
    while at < len(data):
        packet = data[at + 16:][:struct.unpack_from('<L', data, at + 8)[0]]
        frame = struct.pack('>HHH6s2xH', 0, 1, 6, bytes((2, 0, 0, 0, 0, packet[15])), 0x800) + packet
        records.insert(0, data[at:at + 8] + struct.pack('<LL', len(frame), len(frame)) + frame)
        at += 16 + len(packet)
    return pcap_header(113) + b''.join(records)


def markup(program):
    """Packets whose names and comments would be elements, if they were read as HTML."""
    sent = program.build('group', '10.0.0.5:138/0001', r'\3cimg\20src=x\3e<00>', 'FRED<20>', '3c696d67207372633d783e', '20')
    return f'{sent[0]}# <img src=x onerror=alert(1)>\n'.encode()


def bad(program):
    """Files that can't be read, or not to their end: names, bytes, and what is said of each."""
    table = program.bytes('nbt save', program.build('group', '10.0.0.5:138/0001', 'JOE<00>', 'FRED<20>', '6162', '1')[0]).strip()
    good = pcap_record(0, bytes(60))
    rng = random.Random('bad')
    frames = b''.join(pcap_record(0, rng.randbytes(rng.randrange(120))) for _ in range(500))
    return [
        ('empty.pcap', b'', 'empty.pcap: the file is empty, at byte 0'),
        ('letter.txt', b'Dear all,\nhow are you?\n', 'letter.txt: line 1 is none of a capture'),
        ('photo.png', b'\x89PNG\r\n\x1a\n' + bytes(100), 'photo.png: no pcap, no pcapng, no capture and no saved table: it begins with 89504e47, at byte 0'),
        ('header.pcap', PCAP[:20], 'header.pcap: the header of pcap is cut, at byte 20'),
        ('nothing.pcap', PCAP, 'nothing.pcap: the file has no frame, at byte 24'),
        ('record.pcap', PCAP + good + good[:10], 'record.pcap: the header of a frame is cut, at byte 100'),
        ('frame.pcap', PCAP + good + good[:40], 'frame.pcap: a frame is cut, at byte 116'),
        ('long.pcap', PCAP + struct.pack('<LLLL', 0, 0, 2**32 - 1, 0), 'long.pcap: a frame of 4294967295 bytes, at byte 24'),
        ('block.pcapng', SECTION + INTERFACE + block(0x0bad, bytes(8)) + struct.pack('<LLL', 6, 2**32 - 4, 0),
         'block.pcapng: a block of 4294967292 bytes, at byte 72'),
        ('faces.pcapng', SECTION + INTERFACE * 300_000, 'faces.pcapng: more than 65536 interfaces, at byte'),
        ('random.pcap', PCAP + frames + b'x', 'random.pcap: the header of a frame is cut, at byte'),
        ('table.txt', table[:-2], f'table.txt: table: truncated, at byte {len(table) // 2 - 1}'),
        ('changed.txt', table[:8] + b'ffffffff' + table[16:], 'changed.txt: table: '),
        ('version.txt', b'4e425433' + table[8:], 'version.txt: table: bad magic, at byte 0'),
        ('two', [('one.pcap', PCAP + good[:8]), ('two.png', b'\x89PNG')], 'two.png: no pcap, no pcapng'),
    ]
