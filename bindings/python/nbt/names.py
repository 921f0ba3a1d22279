"""NetBIOS names as texts, such as FRED<20>.NETBIOS.COM, and as packets spell them: RFC 1001 section 14, RFC 1002
section 4.1. The form of texts is the library's choice: the characters of the name, its sixteenth byte as two hexadecimal
digits between < and >, and the labels of its scope, each after a full stop."""
from __future__ import annotations

from typing import Iterable, Iterator, NamedTuple

from .buffers import Buffer, given
from .library import BYTES, writer
from .numbers import encoded, number

SPELL = writer('nbt_name_spell', *BYTES)
TEXT = writer('nbt_name_text', *BYTES)


def spell(text: str) -> bytes:
    """The spelling of the name with this text: labels after their lengths, and a zero byte; at most 255 bytes.

    NbtError: BAD_TEXT, whose place counts bytes of UTF-8, and LONG_TEXT.
    """
    data = encoded(text, 'text')
    return SPELL(data, len(data))


def text(spelling: Buffer) -> str:
    """The text of the name with this spelling, which has no pointers, and no byte after it.

    NbtError: NAME_TRUNCATED to NAME_TRAILING_BYTES.
    """
    data = given(spelling)
    return TEXT(data, len(data)).decode()


def spelled(name: bytes) -> bytes:
    """The spelling of a name of sixteen bytes, which has no scope: each half of a byte is one of the letters A to P."""
    return b'\x20' + bytes(ord('A') + half for byte in name for half in (byte >> 4, byte & 15)) + b'\0'


class NameParts(NamedTuple):
    """What a name is made of: RFC 1001 section 14.1."""

    characters: bytes  # fifteen; spaces fill up a shorter name
    suffix: int        # the sixteenth byte
    scope: str         # the text of its scope, as in NETBIOS.COM; empty without one


def split_name(text: str) -> NameParts:
    """The parts of the name with this text: of FRED<20> b'FRED' and eleven spaces, 0x20, and no scope.

    NbtError: as of `spell`.
    """
    spelling = spell(text)
    halves = [letter - ord('A') for letter in spelling[1:33]]
    *characters, suffix = (high << 4 | low for high, low in zip(halves[::2], halves[1::2]))
    return NameParts(bytes(characters), suffix, TEXT(spelling, len(spelling)).decode().partition('>')[2][1:])


def join_name(characters: Buffer, suffix: int, scope: str = '') -> str:
    """The text of the name with these characters, at most fifteen, this suffix and this scope.

    NbtError: BAD_TEXT and LONG_TEXT of a scope; the place counts in the text of the whole. ValueError for more characters.
    """
    front = given(characters).ljust(15)
    if len(front) > 15:
        raise ValueError(f'characters: {len(front)} are given, and a name has fifteen')
    name = text(spelled(front + bytes([number(suffix, 8, 'suffix')])))
    return text(spell(f'{name}.{scope}')) if scope else name


def sixteen(text: str) -> bytes:
    """The sixteen bytes of the name with this text; ValueError where it has a scope."""
    characters, suffix, scope = split_name(text)
    if scope:
        raise ValueError(f'{text}: a scope stands where a name has none')
    return characters + bytes([suffix])


def spelling_end(data: bytes, at: int) -> int:
    """Where the spelling ends that begins there: after its zero byte."""
    while data[at]:
        at += 1 + data[at]
    return at + 1


def labels(spelling: bytes) -> Iterator[bytes]:
    """The labels of a spelling."""
    at = 0
    while size := spelling[at]:
        yield spelling[at + 1:at + 1 + size]
        at += 1 + size


def spelling_of(labels: Iterable[bytes]) -> bytes:
    """The spelling of the name with these labels."""
    return b''.join(bytes([len(label)]) + label for label in labels) + b'\0'


def escaped(label: bytes) -> str:
    """The text of a label, in which a backslash and two hexadecimal digits stand for a byte that isn't plain."""
    return ''.join(chr(byte) if 0x21 <= byte <= 0x7e and byte not in b'.<>\\' else f'\\{byte:02x}' for byte in label)
