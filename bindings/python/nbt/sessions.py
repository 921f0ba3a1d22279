"""Packets of the session service, port 139: RFC 1002 section 4.3."""
from __future__ import annotations

import ctypes
import ipaddress
from dataclasses import dataclass
from typing import Any, Iterator, Optional, Tuple, Union

from . import header, names
from .buffers import Buffer, given
from .header import MOST_BODY, SessionType
from .library import BYTES, Reader, writer
from .numbers import named, number
from .statuses import MoreNeeded, NbtError

# TYPE, FLAGS and LENGTH, in so many bytes; and with them as many as LENGTH can say.
HEADER = 4
LONGEST = HEADER + MOST_BODY

READ = Reader('nbt_session_read', header.Session, 'body', longest=LONGEST)
FRONT = Reader('nbt_session_front', header.SessionFront, longest=HEADER)
NAMES, RETARGET = Reader('nbt_session_names', header.SessionNames), Reader('nbt_session_retarget', header.SessionRetarget)
WRITE = writer('nbt_session_write', ctypes.c_uint8, *BYTES)


@dataclass(frozen=True)
class SessionFront:
    """The header at the front of what came over a connection to port 139, whether or not a packet stands there."""

    type: Union[SessionType, int]  # the number where no packet has it
    flags: int                     # FLAGS, all eight bits
    length: int                    # how many bytes the body has: LENGTH, and 65,536 where the lowest bit of FLAGS is set


@dataclass(frozen=True)
class SessionPacket:
    """A packet of port 139. The body of a request is the spelling of the called name, then that of the calling one."""

    type: SessionType
    body: bytes
    used: int  # the bytes of the packet: what follows them isn't looked at

    @property
    def called(self) -> Optional[str]:
        """CALLED_NAME of a request, as a text."""
        found = self.part(SessionType.REQUEST, NAMES)
        return names.text(bytes(found.called[:found.called_length])) if found else None

    @property
    def calling(self) -> Optional[str]:
        """CALLING_NAME of a request, as a text."""
        found = self.part(SessionType.REQUEST, NAMES)
        return names.text(bytes(found.calling[:found.calling_length])) if found else None

    @property
    def retarget(self) -> Optional[Tuple[ipaddress.IPv4Address, int]]:
        """RETARGET_IP_ADDRESS and RETARGET_PORT: whom to call instead."""
        found = self.part(SessionType.RETARGET, RETARGET)
        return (ipaddress.IPv4Address(found.address), found.port) if found else None

    def part(self, type: SessionType, reader: Reader) -> Any:
        """What a call reads of the packet, if it is of the type that has the part; the call is given the packet whole."""
        return reader(self.write(type, self.body), 0)[0] if self.type == type else None

    @classmethod
    def read(cls, data: Buffer, offset: int = 0) -> SessionPacket:
        """The packet at the front of what came over a connection to port 139, from an offset of the buffer on; places count
        from there.

        MoreNeeded where it isn't there whole yet. NbtError: UNKNOWN_TYPE, RESERVED_FLAGS, BAD_LENGTH, and of a request
        NAME_TRUNCATED to NAME_NOT_NETBIOS, TRAILING_BYTES. ValueError for an offset past the end of the buffer, or before its begin.
        """
        found, (body,) = READ(data, offset)
        return cls(SessionType(found.type), body, found.used)

    @staticmethod
    def read_front(data: Buffer, offset: int = 0) -> Tuple[Optional[SessionFront], Optional[NbtError]]:
        """The header at the front of what came over a connection to port 139, and the fault with which `read` refuses it, or None.
        There is no header where its four bytes aren't there.
        """
        fault = READ.fault(data, offset)
        try:
            found, _ = FRONT(data, offset)
        except MoreNeeded:
            return None, fault
        return SessionFront(named(SessionType, found.type), found.flags, found.body_length), fault

    @staticmethod
    def stream(data: Buffer, offset: int = 0) -> SessionStream:
        """The packets of what came over a connection to port 139, one after the other, from an offset of the buffer on."""
        return SessionStream(data, offset)

    @staticmethod
    def write(type: int, body: Buffer = b'') -> bytes:
        """The packet with this type and body.

        NbtError: UNKNOWN_TYPE, BAD_LENGTH, and of a request NAME_TRUNCATED to NAME_NOT_NETBIOS, TRAILING_BYTES, whose
        places count from the front of the packet.
        """
        data = given(body)
        return WRITE(number(type, 8, 'type'), data, len(data))


class SessionStream(Iterator[SessionPacket]):
    """The packets that stand one after the other in a buffer, to its end or to the first one that isn't there whole, of which
    at least `missing` bytes are missing. `offset` is where the next one begins, and `left` how many bytes follow there.

    NbtError: as of SessionPacket.read; `offset` stays where no packet begins.
    """

    def __init__(self, data: Buffer, offset: int = 0) -> None:
        self.data, self.offset, self.missing = data, offset, 0

    def __next__(self) -> SessionPacket:
        try:
            packet = SessionPacket.read(self.data, self.offset)
        except MoreNeeded as more:
            self.missing = more.missing if self.left else 0
            raise StopIteration from None
        self.offset += packet.used
        return packet

    @property
    def left(self) -> int:
        """How many bytes of the buffer follow the packets up to here."""
        return memoryview(self.data).nbytes - self.offset
