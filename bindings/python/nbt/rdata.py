"""What records of the name service say: RFC 1002 sections 4.2.1.3, 4.2.13 and 4.2.18."""
from __future__ import annotations

import ctypes
import ipaddress
import struct
from dataclasses import dataclass
from functools import lru_cache
from typing import Any, List, Optional, Tuple, Union

from . import names
from .buffers import Buffer, given
from .header import ACT, CNF, DRG, G, NB, NBSTAT, NS, PRM, SERVICE_ADDRESS, SERVICE_NODE, SERVICE_UNIT, NodeType, Status
from .library import ADDRESS, ALONE, DONE, LENGTH, call
from .numbers import Flag, address_number, number
from .statuses import NbtError

__all__ = ['DomainName', 'NbEntry', 'NodeName', 'NodeStatus', 'Rdata']


class Flagged:
    """What NB_FLAGS and NAME_FLAGS have alike."""

    flags: int
    group = Flag(G)  # whether it is a group's name

    @property
    def node_type(self) -> NodeType:
        """ONT."""
        return NodeType(self.flags >> 13 & 3)


@dataclass(frozen=True)
class NbEntry(Flagged):
    """An address of a NetBIOS name, in RDATA of type NB."""

    flags: int                      # NB_FLAGS: bits of NameFlag
    address: ipaddress.IPv4Address  # NB_ADDRESS


@dataclass(frozen=True)
class NodeName(Flagged):
    """One of the names of a node."""

    name: str                 # as a text
    flags: int                # NAME_FLAGS: bits of NameFlag
    deregistered = Flag(DRG)  # whether it is being given up
    conflict = Flag(CNF)      # whether another node claims it
    active = Flag(ACT)
    permanent = Flag(PRM)     # whether it is the node's permanent name


@dataclass(frozen=True)
class NodeStatus:
    """The names of a node, in RDATA of type NBSTAT."""

    names: Tuple[NodeName, ...]
    unit: Optional[bytes]  # UNIT_ID, six bytes; None where the RDATA ends before


@dataclass(frozen=True)
class DomainName:
    """A name as its labels. Its text is as `nbt show` prints it."""

    labels: Tuple[bytes, ...]

    def __str__(self) -> str:
        try:
            return names.text(names.spelling_of(self.labels))
        except NbtError:
            return '.'.join(map(names.escaped, self.labels)) or '.'


Rdata = Union[Tuple[NbEntry, ...], NodeStatus, DomainName, bytes]


# An address of a name with its flags, and one of the names of a node; what follows UNIT_ID in STATISTICS.
ENTRY, NODE = struct.Struct('>HL'), struct.Struct('>16sH')
REST_OF_STATISTICS = bytes(40)
# Room for what a call fills in of either.
PART_ROOM = ctypes.c_char * 32

PART = ctypes.c_uint16, ADDRESS, LENGTH, LENGTH, ADDRESS, ADDRESS
ADDRESSES, NODES = (call(name, *PART, library=ALONE) for name in ('nbt_service_address', 'nbt_service_node'))
UNIT = call('nbt_service_unit', ctypes.c_uint16, ADDRESS, LENGTH, ADDRESS, ADDRESS, library=ALONE)


def read_rdata(kind: int, address: int, length: int, server: bytes) -> Rdata:
    """What the RDATA of a record says that the library found at this address; of type NS the spelling of its name is given."""
    found: Optional[Rdata] = None
    if kind == NB:
        found = read_entries(address, length)
    elif kind == NBSTAT:
        found = read_status(address, length)
    elif kind == NS:
        found = DomainName(tuple(names.labels(server)))
    return ctypes.string_at(address, length) if found is None else found


def read_entries(address: int, length: int) -> Optional[Tuple[NbEntry, ...]]:
    """The addresses of a name; None where RDATA has another form."""
    found = parts(ADDRESSES, SERVICE_ADDRESS, NB, address, length, length // ENTRY.size)
    return None if found is None else tuple([NbEntry(flags, ipaddress.IPv4Address(at)) for at, flags in found])


def read_status(address: int, length: int) -> Optional[NodeStatus]:
    """The names of a node, and the unit that stands behind them, if it does; None where RDATA has another form."""
    found = parts(NODES, SERVICE_NODE, NBSTAT, address, length, length // NODE.size)
    if found is None:
        return None
    unit, at = ctypes.create_string_buffer(SERVICE_UNIT.size), ctypes.c_size_t()
    status = UNIT(NBSTAT, address, length, ctypes.addressof(unit), ctypes.addressof(at))
    return NodeStatus(tuple([NodeName(node_text(name), flags) for flags, name in found]), unit.raw if status == DONE else None)


def parts(part_of: Any, layout: struct.Struct, kind: int, address: int, length: int, most: int) -> Optional[List[Tuple[Any, ...]]]:
    """What a call fills in for each part of RDATA, which has so many at most; None where it has another form."""
    found: List[Tuple[Any, ...]] = []
    room, at = PART_ROOM(), ctypes.c_size_t()
    into, fault = ctypes.addressof(room), ctypes.addressof(at)
    for place in range(most or 1):
        status = part_of(kind, address, length, place, into, fault)
        if status != DONE:
            return found if status == Status.NO_PART else None
        found.append(layout.unpack_from(room))
    return found


@lru_cache(4_096)
def node_text(name: bytes) -> str:
    """The text of a name of sixteen bytes."""
    return names.text(names.spelled(name))


def packed(rdata: Union[Rdata, Buffer]) -> Tuple[Optional[int], bytes]:
    """The type of RDATA, if it has one of its own, and its bytes."""
    if isinstance(rdata, tuple):
        return NB, b''.join(map(packed_entry, rdata))
    if isinstance(rdata, NodeStatus):
        return NBSTAT, packed_status(rdata)
    if isinstance(rdata, DomainName):
        for label in rdata.labels:
            number(len(label), 6, 'the length of a label')
        return NS, names.spelling_of(rdata.labels)
    return None, given(rdata)


def packed_entry(entry: NbEntry) -> bytes:
    """An address of a name: section 4.2.13."""
    if not isinstance(entry, NbEntry):
        raise TypeError(f'{entry!r} is no NbEntry')
    return ENTRY.pack(number(entry.flags, 16, 'NB_FLAGS'), address_number(entry.address))


def packed_status(status: NodeStatus) -> bytes:
    """The names of a node, behind how many they are, and its statistics: section 4.2.18."""
    count = number(len(status.names), 8, 'how many names a node has')
    nodes = [NODE.pack(names.sixteen(it.name), number(it.flags, 16, 'NAME_FLAGS')) for it in status.names]
    if status.unit is None:
        return bytes([count]) + b''.join(nodes)
    if len(status.unit) != SERVICE_UNIT.size:
        raise ValueError(f'unit: {len(status.unit)} bytes are given, and it has {SERVICE_UNIT.size}')
    return bytes([count]) + b''.join(nodes) + status.unit + REST_OF_STATISTICS
