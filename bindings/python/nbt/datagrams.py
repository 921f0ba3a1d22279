"""Packets of the datagram service, port 138: RFC 1002 section 4.4."""
from __future__ import annotations

import ctypes
import ipaddress
from dataclasses import dataclass
from typing import Iterator, List, Optional, Tuple, Union

from . import header, names
from .buffers import Buffer, given
from .header import FIRST, MORE, MOST_DATAGRAM, DatagramType
from .library import BYTES, Reader, writer
from .numbers import Address, Flag, address_number, encoded, named, number
from .statuses import NbtError

# A header, and as many bytes as DGM_LENGTH can say.
LONGEST = 14 + MOST_DATAGRAM

READ = Reader('nbt_datagram_read', header.Datagram, 'source', 'destination', 'data', longest=LONGEST)
FRONT = Reader('nbt_datagram_front', header.DatagramFront, 'source', 'destination')
WRITE = writer('nbt_datagram_write', ctypes.c_uint8, ctypes.c_uint16, ctypes.c_uint32, ctypes.c_uint16, *BYTES, *BYTES,
               *BYTES, ctypes.c_uint16)
ERROR = writer('nbt_datagram_error', ctypes.c_uint16, ctypes.c_uint32, ctypes.c_uint16, ctypes.c_uint8, places=False)
QUERY = writer('nbt_datagram_query', ctypes.c_uint8, ctypes.c_uint16, ctypes.c_uint32, ctypes.c_uint16, *BYTES)


@dataclass(frozen=True)
class DatagramFront:
    """What stands at the front of a payload of port 138: the header and, of a fragment, the names that are there whole."""

    type: Union[DatagramType, int]  # the number where no packet has it
    flags: int                      # FLAGS, all eight bits, of which two are DatagramFlag's
    identifier: int                 # DGM_ID
    address: ipaddress.IPv4Address  # SOURCE_IP
    port: int                       # SOURCE_PORT
    offset: int                     # PACKET_OFFSET: where the data begins in the datagram's; 0 but in a fragment
    source: Optional[str]           # SOURCE_NAME, as a text; None but in a fragment, and where it isn't there whole
    destination: Optional[str]      # DESTINATION_NAME, as a text; None but in a fragment, and where not both are there whole
    more = Flag(MORE)               # whether more fragments follow
    first = Flag(FIRST)             # whether it is the first fragment


@dataclass(frozen=True)
class Datagram(DatagramFront):
    """A packet of port 138. The destination of a query is there, too."""

    type: DatagramType
    data: bytes                     # a fragment's data, or an error's code, which is one byte; b'' in a query
    used: int                       # the bytes of the packet: what follows them isn't looked at

    @classmethod
    def read(cls, payload: Buffer, offset: int = 0) -> Datagram:
        """The packet at the front of a payload of port 138, which begins at an offset of the buffer; places count from there.

        NbtError: TRUNCATED, UNKNOWN_TYPE, SOURCE_TRUNCATED to SOURCE_NOT_NETBIOS, DESTINATION_TRUNCATED to
        DESTINATION_NOT_NETBIOS. ValueError for an offset past the end of the buffer, or before its begin.
        """
        found, (source, destination, data) = READ(payload, offset)
        return cls(DatagramType(found.type), found.flags, found.identifier, ipaddress.IPv4Address(found.address), found.port,
                   found.offset, name_of(source), name_of(destination), data, found.used)

    @staticmethod
    def read_front(payload: Buffer, offset: int = 0) -> Tuple[Optional[DatagramFront], Optional[NbtError]]:
        """What stands at the front of a payload of port 138, and the fault with which `read` refuses it, or None. Nothing stands
        where the header isn't there whole: the fourteen bytes of a fragment, ten of any other payload.
        """
        fault = READ.fault(payload, offset)
        try:
            found, (source, destination) = FRONT(payload, offset)
        except NbtError:
            return None, fault
        return DatagramFront(named(DatagramType, found.type), found.flags, found.identifier, ipaddress.IPv4Address(found.address),
                             found.port, found.offset, name_of(source), name_of(destination)), fault

    @staticmethod
    def write(type: int, identifier: int, address: Address, port: int, source: str, destination: str, data: Buffer,
              most: int = 512) -> List[bytes]:
        """The packets of a datagram, cut into pieces of at most `most` bytes of data, in order. The type is UNIQUE, GROUP or
        BROADCAST; source and destination are texts.

        NbtError: UNKNOWN_TYPE, SOURCE_BAD_TEXT to DESTINATION_LONG_TEXT, LONG_DATA, ZERO_PIECE.
        """
        texts, whole = [encoded(source, 'source'), encoded(destination, 'destination')], given(data)
        written = WRITE(number(type, 8, 'type'), number(identifier, 16, 'identifier'), address_number(address),
                        number(port, 16, 'port'), texts[0], len(texts[0]), texts[1], len(texts[1]), whole, len(whole),
                        number(most, 16, 'most'))
        return list(pieces(written))


def name_of(spelling: bytes) -> Optional[str]:
    """The text of a name, if there is one."""
    return names.text(spelling) if spelling else None


def pieces(written: bytes) -> Iterator[bytes]:
    """The packets, each of which stands after its length in two bytes."""
    at = 0
    while at < len(written):
        end = at + 2 + int.from_bytes(written[at:at + 2], 'big')
        yield written[at + 2:end]
        at = end


def datagram_error(identifier: int, address: Address, port: int, code: int) -> bytes:
    """An error packet with this code: 0x82 nobody has the name that a datagram is for, 0x83 and 0x84 the format of its source's or
    its destination's name. The identifier is the datagram's, address and port those of the station that sends the error."""
    return ERROR(number(identifier, 16, 'identifier'), address_number(address), number(port, 16, 'port'), number(code, 8, 'code'))


def datagram_query(type: int, identifier: int, address: Address, port: int, name: str) -> bytes:
    """A query to a distribution server about the name with this text, of type FIND, or its answer, of type FOUND or MISSING.

    NbtError: UNKNOWN_TYPE, BAD_TEXT, LONG_TEXT.
    """
    text = encoded(name, 'name')
    return QUERY(number(type, 8, 'type'), number(identifier, 16, 'identifier'), address_number(address), number(port, 16, 'port'),
                 text, len(text))
