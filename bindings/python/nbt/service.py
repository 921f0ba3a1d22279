"""Requests of the name service, port 137: RFC 1002 sections 4.2.12, 4.2.17, 4.2.2, 4.2.4 and 4.2.9.

Each is about the name with a text, and has an identifier of 16 bits; `broadcast` sets B.

NbtError: BAD_TEXT, LONG_TEXT.
"""
from __future__ import annotations

import ctypes

from .header import Request
from .library import BYTES, writer
from .numbers import Address, address_number, encoded, number, truth

REQUEST = writer('nbt_service_request', ctypes.c_uint32, ctypes.c_uint16, ctypes.c_bool, *BYTES, ctypes.c_uint32,
                 ctypes.c_uint16, ctypes.c_uint32)


def query(identifier: int, name: str, broadcast: bool = False) -> bytes:
    """A name query request."""
    return request(Request.QUERY, identifier, name, broadcast)


def node_status(identifier: int, name: str, broadcast: bool = False) -> bytes:
    """A node status request."""
    return request(Request.NODE_STATUS, identifier, name, broadcast)


def registration(identifier: int, name: str, time_to_live: int, nb_flags: int, address: Address,
                 broadcast: bool = False) -> bytes:
    """A name registration request. The time to live is in seconds."""
    return request(Request.REGISTRATION, identifier, name, broadcast, time_to_live, nb_flags, address)


def refresh(identifier: int, name: str, time_to_live: int, nb_flags: int, address: Address, broadcast: bool = False) -> bytes:
    """A name refresh request. The time to live is in seconds."""
    return request(Request.REFRESH, identifier, name, broadcast, time_to_live, nb_flags, address)


def release(identifier: int, name: str, nb_flags: int, address: Address, broadcast: bool = False) -> bytes:
    """A name release request."""
    return request(Request.RELEASE, identifier, name, broadcast, 0, nb_flags, address)


def request(kind: int, identifier: int, name: str, broadcast: bool, time_to_live: int = 0, nb_flags: int = 0,
            address: Address = 0) -> bytes:
    """The request of a kind."""
    text = encoded(name, 'name')
    return REQUEST(kind, number(identifier, 16, 'identifier'), truth(broadcast, 'broadcast'), text, len(text),
                   number(time_to_live, 32, 'time to live'), number(nb_flags, 16, 'NB_FLAGS'), address_number(address))
