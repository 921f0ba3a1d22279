"""Responses of the name service, port 137: RFC 1002 sections 4.2.5 to 4.2.18, but for 4.2.8 and 4.2.15.

Each has one answer, of class IN, about the name with a text, and no question; R is set. ServicePacket.read reads the same values.

NbtError: BAD_TEXT and LONG_TEXT of a name, LONG_DATA where RDATA has more than 65,535 bytes.
"""
from __future__ import annotations

import ctypes
from typing import Iterable, Optional, Union

from .buffers import Buffer
from .header import AA, NM_FLAGS, NULL, R, RD, Operation, ResultCode
from .library import BYTES, writer
from .numbers import encoded, number
from .rdata import NbEntry, NodeStatus, Rdata, packed

RESPONSE = writer('nbt_service_response', ctypes.c_uint16, ctypes.c_uint16, *BYTES, ctypes.c_uint16, ctypes.c_uint32, *BYTES)


def response(identifier: int, name: str, rdata: Union[Rdata, Buffer], time_to_live: int = 0, *, op: int = Operation.QUERY,
             flags: int = 0, rcode: int = ResultCode.OK, type: Optional[int] = None) -> bytes:
    """A response. The time to live is in seconds, and `flags` are NM_FLAGS where they stand in the header's second word, as
    HeaderFlag.AA. The type is that of the RDATA: it is given with bytes, which are of any type.

    NbtError also: NAME_LONG and NAME_TRAILING_BYTES of a DomainName, whose places count in its spelling. Bytes of type NS are such
    a spelling, and may have NAME_TRUNCATED to NAME_POINTER too.
    """
    own, data = packed(rdata)
    text, kind, bits = encoded(name, 'name'), type_of(own, type), number(flags, 16, 'flags')
    if bits & ~NM_FLAGS:
        raise ValueError(f'flags: {bits:#06x} has other bits than {NM_FLAGS:#06x}')
    word = R | number(op, 4, 'op') << 11 | bits | number(rcode, 4, 'rcode')
    return RESPONSE(number(identifier, 16, 'identifier'), word, text, len(text), kind, number(time_to_live, 32, 'time to live'),
                    data, len(data))


def query_response(identifier: int, name: str, entries: Iterable[NbEntry], time_to_live: int, flags: int = AA | RD) -> bytes:
    """A positive name query response (section 4.2.13): who has the name. A name server sets RA, 0x0080, too."""
    return response(identifier, name, tuple(entries), time_to_live, flags=flags)


def negative_query_response(identifier: int, name: str, rcode: int = ResultCode.NAM_ERR, flags: int = AA | RD) -> bytes:
    """A negative name query response (section 4.2.14): nobody has the name, or what else the RCODE says."""
    return response(identifier, name, b'', flags=flags, rcode=rcode, type=NULL)


def node_status_response(identifier: int, name: str, status: NodeStatus) -> bytes:
    """A node status response (section 4.2.18). Behind the unit, if there is one, the statistics are zeros."""
    return response(identifier, name, status, flags=AA)


def type_of(own: Optional[int], wanted: Optional[int]) -> int:
    """RR_TYPE of RDATA that has a type of its own, or none."""
    if own is None:
        if wanted is None:
            raise TypeError('type: bytes are of any, so it has to be given')
        return number(wanted, 16, 'type')
    if wanted is not None and wanted != own:
        raise ValueError(f'type: {wanted:#06x} is given with RDATA of type {own:#06x}')
    return own
