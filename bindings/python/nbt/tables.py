"""Saved tables: what is known of datagrams, as the command `nbt save` writes it, as bytes."""
from __future__ import annotations

import ctypes
import ipaddress
from dataclasses import dataclass
from typing import Optional

from .buffers import Buffer, given
from .header import KEYS, Difference
from .library import ADDRESS, BYTES, DONE, call, failure, writer
from .numbers import number

# How many keys of one address a table has room for, where nothing else is said: no limit.
PER_SOURCE = 4_294_967_295

MERGE = writer('nbt_table_merge', *BYTES, *BYTES, ctypes.c_uint32, ctypes.c_uint32)
LIST = writer('nbt_table_list', *BYTES)
JSON = writer('nbt_table_json', *BYTES)
DIFFER = call('nbt_table_differ', *BYTES, *BYTES, ADDRESS, ADDRESS)


@dataclass(frozen=True, order=True)
class Key:
    """By what the fragments of a datagram belong together."""

    address: ipaddress.IPv4Address  # SOURCE_IP
    port: int                       # SOURCE_PORT
    identifier: int                 # DGM_ID

    def __str__(self) -> str:
        return f'{self.address}:{self.port}/{self.identifier:04x}'


def merge(first: Buffer, second: Buffer, keys: int = KEYS, per_source: int = PER_SOURCE) -> bytes:
    """The join of two saved tables, saved: all that either knows. Each of the three has room for so many keys, and for so many
    of one address. Both forms are read, and the second is written.

    NbtError: TABLE_BAD_MAGIC to TABLE_FULL of the first, SECOND_BAD_MAGIC to SECOND_FULL of the second, FULL_SOURCE, FULL.
    """
    one, other = given(first), given(second)
    return MERGE(one, len(one), other, len(other), number(keys, 32, 'keys'), number(per_source, 32, 'per source'))


def list_table(table: Buffer) -> str:
    """What `nbt list` prints of a saved table: a line for each key, ascending, line feeds included.

    NbtError: TABLE_BAD_MAGIC, TABLE_TRUNCATED, TABLE_NOT_CANONICAL.
    """
    data = given(table)
    return LIST(data, len(data)).decode('ascii')


def table_json(table: Buffer) -> str:
    """What `nbt list --json` prints of a saved table: a JSON object for each key, ascending, line feeds included.

    NbtError: TABLE_BAD_MAGIC, TABLE_TRUNCATED, TABLE_NOT_CANONICAL.
    """
    data = given(table)
    return JSON(data, len(data)).decode('ascii')


def differ(first: Buffer, second: Buffer) -> Optional[Key]:
    """The least key at which two saved tables know different things: the least address, then port, then identifier. None where
    they know the same.

    NbtError: TABLE_BAD_MAGIC to TABLE_NOT_CANONICAL of the first, SECOND_BAD_MAGIC to SECOND_NOT_CANONICAL of the second.
    """
    one, other, found, at = given(first), given(second), Difference(), ctypes.c_size_t()
    status = DIFFER(one, len(one), other, len(other), ctypes.byref(found), ctypes.byref(at))
    if status != DONE:
        raise failure(status, at.value)
    return Key(ipaddress.IPv4Address(found.address), found.port, found.identifier) if found.differ else None
