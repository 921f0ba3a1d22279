#!/usr/bin/env python3
"""Whether the bindings leave the bytes of packets to the library, whose readers are proved: none of their sources has what a reader of
its own would have, a mask of pointers, bytes that are put together to a number, or bytes that are unpacked.

Usage: tests/library/packet_readers.py, whose last line is 'N passed, M failed'. A case is a source of bindings/, which has as many lines
that read bytes as it may, or a line of a reader, which has to be found.
"""
import re
import sys
from pathlib import Path

sys.path.insert(1, f'{sys.path[0]}/../lib')
from parts import tally

BINDINGS = Path(__file__).resolve().parent.parent.parent / 'bindings'
SOURCES = 'python/nbt/*.py', 'rust/*.rs', 'rust/src/*.rs', 'javascript/*.mjs', 'wireshark/*.c'
# What a reader has.
READS = re.compile(r'''0x(?:c0|3f)(?:00|ff)?\b | \b192\b                    # the bits of a pointer
    | <<\s*(?:8|16|24)\b | \*\s*(?:256|65_?536)\b                           # bytes put together
    | \btvb_(?:get|find)_(?!ptr\b|ds_tvb\b)                                  # what Wireshark's calls read
    | \bfrom_(?:be_|le_|ne_)?bytes\b | unpack(?:_from)?\( | \bget(?:Big)?(?:Ui|I)nt\d+\(
    ''', re.VERBOSE | re.IGNORECASE)
# Lines of readers that were here once, or could be.
READERS = ("type, flags, low = HEADER.unpack(ctypes.string_at(front, 4))", 'int.from_bytes(data[2:4], "big")', 'if length & 0xc0 == 0xc0:',
           'usize::from(flags & 1) << 16 | usize::from(low)', 'u16::from_be_bytes([high, low])', 'bytes[2] * 256 + bytes[3]',
           'view.getUint16(2)')
# How many lines read a structure that a call filled in, or what a call wrote, whose form nbt.h has; in javascript/nbt.mjs one an address
# that is a text, and in wireshark/ a header of UDP and a key, of numbers.
MAY = {
    'python/nbt/service_packets.py': 2, 'python/nbt/rdata.py': 1, 'python/nbt/datagrams.py': 1, 'python/nbt/stations.py': 2,
    'rust/src/datagram.rs': 1, 'rust/src/station.rs': 3, 'javascript/nbt.mjs': 10, 'wireshark/collect.c': 2, 'wireshark/station.c': 1,
}


def cases():
    """Whether a source reads bytes in as many lines as it may."""
    for path in (path for pattern in SOURCES for path in sorted(BINDINGS.glob(pattern))):
        name = str(path.relative_to(BINDINGS))
        found = [f'{number}: {line.strip()}' for number, line in enumerate(path.read_text('utf-8').splitlines(), 1) if READS.search(line)]
        may = MAY.pop(name, 0)
        yield len(found) == may, f'bindings/{name} has other lines than {may} that read bytes: {"; ".join(found)}'
    for line in READERS:
        yield READS.search(line), f'a reader goes unseen: {line}'
    yield not MAY, f'no source: {sorted(MAY)}'


if __name__ == '__main__':
    sys.exit(tally((what, not holds) for holds, what in cases()))
