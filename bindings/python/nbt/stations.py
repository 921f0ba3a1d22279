"""Stations: the payloads of port 138, put together to datagrams. RFC 1002 section 5.3."""
from __future__ import annotations

import ctypes
import ipaddress
import weakref
from dataclasses import dataclass
from types import TracebackType
from typing import Iterable, List, NoReturn, Optional, Type

from . import header, names as spelled
from .buffers import Buffer, given
from .header import KEYS, TAKE_ROOM, DatagramType, Outcome, Taken as Numbers
from .library import ADDRESS, BYTES, DONE, call, error_of, failure, writer
from .numbers import Address, address_number, encoded, number
from .statuses import NbtError
from .tables import PER_SOURCE
from .turns import Turns


@dataclass(frozen=True)
class Delivery:
    """A datagram that is handed over."""

    type: DatagramType              # UNIQUE, GROUP or BROADCAST
    address: ipaddress.IPv4Address  # SOURCE_IP
    port: int                       # SOURCE_PORT
    identifier: int                 # DGM_ID
    source: str                     # SOURCE_NAME, as a text
    destination: str                # DESTINATION_NAME, as a text
    data: bytes


@dataclass(frozen=True)
class Taken:
    """What became of a payload."""

    outcome: Outcome
    address: Optional[ipaddress.IPv4Address]  # the key of a fragment's datagram: SOURCE_IP, None of another packet
    port: int
    identifier: int
    delivery: Optional[Delivery]              # at DELIVERED
    error: bytes                              # the packet to send to where the payload came from, or b''
    refusal: Optional[NbtError]               # at REFUSED: what Datagram.read raises of the payload


CREATE = call('nbt_station_create', *BYTES, ctypes.c_uint32, ctypes.c_uint16, ctypes.c_uint32, ctypes.c_uint32, ADDRESS,
              ADDRESS)
TAKE = call('nbt_station_take', ADDRESS, ctypes.c_uint64, *BYTES, ADDRESS, *BYTES, ADDRESS)
TICK = call('nbt_station_tick', ADDRESS, ctypes.c_uint64, ADDRESS)
SAVE = writer('nbt_station_save', ADDRESS, places=False)
LIST = writer('nbt_station_list', ADDRESS, places=False)
ABSORB = writer('nbt_station_absorb', ADDRESS, ctypes.c_uint64, *BYTES)
FREE = call('nbt_station_free', header.Station, answer=None)


class Station:
    """A station with these names, address and port, and an empty table that has room for so many keys, and for so many of one
    address. It is given back at the end of a `with`, by `close`, or with the object.

    Any threads may call it: one call waits for another to end. A call within one of the same thread, as by a signal handler,
    is refused by ReentryError. A station can't be copied or pickled.

    NbtError: BAD_TEXT, LONG_TEXT, NAME_PRESENT, TOO_MANY_NAMES; `at` counts in the names with a space between two.
    """

    def __init__(self, names: Iterable[str], address: Address, port: int = 138, keys: int = KEYS,
                 per_source: int = PER_SOURCE) -> None:
        texts, self.handle = joined(names), header.Station()
        at, place = ctypes.c_void_p(), ctypes.c_size_t()
        status = CREATE(texts, len(texts), address_number(address), number(port, 16, 'port'), number(keys, 32, 'keys'),
                        number(per_source, 32, 'per source'), ctypes.byref(at), ctypes.byref(place))
        if status != DONE:
            raise failure(status, place.value)
        self.handle.at = at.value
        self.finalizer = weakref.finalize(self, FREE, self.handle)
        # A thread may still be within a call when Python ends.
        self.finalizer.atexit = False
        self.turns = Turns()
        self.into, self.used = ctypes.create_string_buffer(TAKE_ROOM), ctypes.c_size_t()

    def __enter__(self) -> Station:
        return self

    def __exit__(self, kind: Optional[Type[BaseException]], fault: Optional[BaseException],
                 trace: Optional[TracebackType]) -> None:
        self.close()

    def __reduce__(self) -> NoReturn:
        raise TypeError("a station can't be copied or pickled: save() gives its table")

    def close(self) -> None:
        """Gives the station back. No other call may follow; a second close does nothing."""
        self.turns.take(self.finalizer)

    def open(self) -> ctypes._Pointer[header.Station]:
        """The handle; ValueError where the station is closed."""
        if not self.finalizer.alive:
            raise ValueError('the station is closed')
        return ctypes.pointer(self.handle)

    def take(self, moment: int, payload: Buffer) -> Taken:
        """Takes a payload of port 138 that came at this moment, in milliseconds since any moment.

        NbtError: MISPLACED_FIRST, LONG, FULL_SOURCE, FULL. The station is then as it was.
        """
        data, told = given(payload), Numbers()
        written = self.turns.take(self.take_in, number(moment, 64, 'moment'), data, told)
        return taken(told, written)

    def take_in(self, moment: int, data: bytes, told: Numbers) -> bytes:
        """Takes a payload, of which this is told; what is written of it."""
        status = TAKE(self.open(), moment, data, len(data), ctypes.byref(told), self.into, TAKE_ROOM, ctypes.byref(self.used))
        if status != DONE:
            raise failure(status, 0)
        return ctypes.string_at(self.into, self.used.value)

    def tick(self, now: int) -> int:
        """Looks at the clock: drops each key that came at least 2,000 milliseconds before, and answers how many."""
        moment, dropped = number(now, 64, 'now'), ctypes.c_uint32()
        status = self.turns.take(lambda: int(TICK(self.open(), moment, ctypes.byref(dropped))))
        if status != DONE:
            raise failure(status, 0)
        return dropped.value

    def save(self) -> bytes:
        """The station's table, saved."""
        return self.turns.take(lambda: SAVE(self.open()))

    def list(self) -> str:
        """What `list_table` says of the station's table."""
        return self.turns.take(lambda: LIST(self.open())).decode('ascii')

    def absorb(self, moment: int, table: Buffer) -> List[Delivery]:
        """Joins the saved table of another station to this one's, at this moment: the keys that are new came then. The datagrams
        that become whole by this and are heard, by ascending key.

        NbtError: TABLE_BAD_MAGIC to TABLE_FULL, FULL_SOURCE, FULL. The station is then as it was.
        """
        data, came = given(table), number(moment, 64, 'moment')
        return deliveries(self.turns.take(lambda: ABSORB(self.open(), came, data, len(data))))


def joined(names: Iterable[str]) -> bytes:
    """The names with a space between two. Joined, an empty one would be none, and one with a space two: a zero byte, which no
    name's text has, stands in its place."""
    if isinstance(names, (str, bytes)):
        raise TypeError(f'names: {names!r} is one text; a list of them is wanted')
    return b' '.join(encoded(each, 'name').replace(b' ', b'\0') or b'\0' for each in names)


def taken(told: Numbers, written: bytes) -> Taken:
    """What became of a payload, of which this was told and written."""
    outcome = Outcome(told.outcome)
    fragment = outcome not in (Outcome.OTHER, Outcome.REFUSED)
    return Taken(outcome, ipaddress.IPv4Address(told.address) if fragment else None, told.port, told.identifier,
                 delivery(told, written) if outcome == Outcome.DELIVERED else None, written[:told.error_length],
                 error_of(told.refusal, told.refused_at) if outcome == Outcome.REFUSED else None)


def delivery(told: Numbers, written: bytes) -> Delivery:
    """The datagram that is handed over."""
    source, behind = written[:told.source_length], written[told.source_length:]
    return Delivery(DatagramType(told.type), ipaddress.IPv4Address(told.address), told.port, told.identifier,
                    spelled.text(source), spelled.text(behind[:told.destination_length]), behind[told.destination_length:])


def deliveries(written: bytes) -> List[Delivery]:
    """The datagrams that are handed over of a table: of each its key, its type, both spellings, and its data after its length."""
    found, at = [], 0
    while at < len(written):
        address, port, identifier = (int.from_bytes(written[at + start:at + end], 'big') for start, end in ((0, 4), (4, 6), (6, 8)))
        source = spelled.spelling_end(written, at + 9)
        destination = spelled.spelling_end(written, source)
        data = destination + 2
        end = data + int.from_bytes(written[destination:data], 'big')
        found.append(Delivery(DatagramType(written[at + 8]), ipaddress.IPv4Address(address), port, identifier,
                              spelled.text(written[at + 9:source]), spelled.text(written[source:destination]), written[data:end]))
        at = end
    return found
