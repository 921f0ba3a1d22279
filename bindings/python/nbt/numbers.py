"""Numbers, addresses and texts, judged before a call: the library would be given the lowest bits of a number."""
from __future__ import annotations

import enum
import ipaddress
from operator import index
from typing import Any, SupportsIndex, Type, TypeVar, Union

Address = Union[str, int, ipaddress.IPv4Address]
Member = TypeVar('Member', bound=enum.IntEnum)


class Flag:
    """An attribute that says whether a bit of `flags` is set."""

    def __init__(self, bit: int) -> None:
        self.bit = bit

    def __get__(self, instance: Any, owner: Any = None) -> bool:
        return bool(instance.flags & self.bit)


def whole_number(value: SupportsIndex, what: str) -> int:
    """The whole number; TypeError where it is something else."""
    try:
        return index(value)
    except TypeError:
        raise TypeError(f'{what}: {value!r} is no whole number') from None


def number(value: SupportsIndex, bits: int, what: str) -> int:
    """The number, if it has at most so many bits; else ValueError."""
    whole = value if type(value) is int else whole_number(value, what)
    if whole >> bits:  # -1 of a negative one
        raise ValueError(f'{what}: {whole} is no number of {bits} bits')
    return whole


def named(kind: Type[Member], value: int) -> Union[Member, int]:
    """The member of an enumeration with this number, or the number where it has none."""
    try:
        return kind(value)
    except ValueError:
        return value


def address_number(address: Address) -> int:
    """An address as a number: '10.0.0.5' is 0x0a000005. TypeError where it is neither a text, a number, four bytes nor an IPv4Address;
    ValueError where it is one of these and no address's."""
    if not isinstance(address, (str, int, bytes, ipaddress.IPv4Address)):
        raise TypeError(f'address: {address!r} is none')
    return int(ipaddress.IPv4Address(address))


def truth(value: bool, what: str) -> bool:
    """The truth value; TypeError where it is something else, of which C would be given whether it is empty."""
    if not isinstance(value, int):
        raise TypeError(f'{what}: {value!r} is neither True nor False')
    return bool(value)


def encoded(text: str, what: str) -> bytes:
    """The bytes of a text, in UTF-8; TypeError where it is none. Half a pair of surrogates has bytes too, which no name has."""
    if not isinstance(text, str):
        raise TypeError(f'{what}: {text!r} is no text')
    return text.encode('utf-8', 'surrogatepass')
