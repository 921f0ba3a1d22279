"""The header of a session packet: RFC 1002 section 4.3.1."""
from .header import SESSION_TYPES

HEADER = 4


def size_of(data):
    """How many bytes the packet has that begins here, by a whole header."""
    return HEADER + (data[1] & 1) * 65_536 + data[2] * 256 + data[3]


def has_header(data):
    """Whether a whole header has a type that exists, and no reserved flag."""
    return data[0] in SESSION_TYPES and data[1] <= 1


def is_whole(data):
    """Whether the bytes are one session packet by their header."""
    return len(data) >= HEADER and has_header(data) and size_of(data) == len(data)
