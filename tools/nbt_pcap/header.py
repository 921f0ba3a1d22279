"""The version and the limits of include/nbt.h, and its numbers that the tools read. tools/lists.py --write makes this file."""
VERSION = '0.1.0'
STACK = 65_536
NAME_ROOM = 704
BRIEF_ROOM = 2_048
MOST_LINE = 262_200
LINE_ROOM = 131_097
MOST_DATAGRAM = 65_535
MOST_BODY = 131_071
KEYS = 1_024
MOST_KEYS = 65_535
INPUT = 16_777_216
FIRST_ITEM = 12
MOST_NAMES = 254
KEPT_FOR = 2_000
TAKE_ROOM = 66_045
SERVICES = (137, 138, 139)
# Numbers of packets.
NBSTAT = 0x0021
G = 0x8000
MORE = 0x01
FIRST = 0x02
# MSG_TYPE of fragments in words, and of queries; TYPE of port 139.
FRAGMENTS = {0x10: 'unique', 0x11: 'group', 0x12: 'broadcast'}
QUERIES = (0x14, 0x15, 0x16)
SESSION_TYPES = frozenset((0x00, 0x81, 0x82, 0x83, 0x84, 0x85))
