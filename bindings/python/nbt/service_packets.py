"""Packets of the name service, port 137: RFC 1002 section 4.2."""
from __future__ import annotations

import ctypes
from dataclasses import dataclass
from functools import lru_cache
from typing import Any, List, Optional, Tuple, Type, TypeVar, Union, cast

from . import names
from .buffers import Buffer, lend
from .header import AA, B, FIRST_ITEM, NM_FLAGS, R, RA, RD, SERVICE_ENTRY, SERVICE_HEADER, TC, Operation, ResultCode
from .library import ADDRESS, ALONE, DONE, LENGTH, behind, call, error_of
from .numbers import Flag, whole_number
from .rdata import DomainName, Rdata, read_rdata
from .statuses import NbtError

Made = TypeVar('Made')

# Room for a header, and for how many questions and records there is room at once.
HEADER_ROOM, MOST_ENTRIES = ctypes.c_char * SERVICE_HEADER.size, 1_024
# A question has no fewer bytes.
LEAST = 5

HEADER = call('nbt_service_header', ADDRESS, LENGTH, ADDRESS, ADDRESS, library=ALONE)
ITEMS = call('nbt_service_items', ADDRESS, LENGTH, ctypes.c_uint32, LENGTH, ADDRESS, LENGTH, ADDRESS, ADDRESS, library=ALONE)


@dataclass(frozen=True)
class Question:
    """What is asked for."""

    name: Union[str, DomainName]  # the text of a NetBIOS name; a DomainName where it is none
    type: int                     # QUESTION_TYPE, of RecordType or another
    class_number: int             # QUESTION_CLASS


@dataclass(frozen=True)
class Record(Question):
    """What is said of a name: its type and class are RR_TYPE and RR_CLASS."""

    time_to_live: int             # TTL, in seconds
    rdata: Rdata                  # the bytes, where it is of another type, or hasn't the form of its type


@dataclass(frozen=True)
class ServicePacket:
    """A packet of port 137, or what stands of one."""

    identifier: int                     # NAME_TRN_ID
    response: bool                      # R
    op: Union[Operation, int]           # OPCODE
    flags: int                          # NM_FLAGS where they stand in the header's second word: bits of HeaderFlag
    rcode: Union[ResultCode, int]       # RCODE
    counts: Tuple[int, int, int, int]   # QDCOUNT, ANCOUNT, NSCOUNT, ARCOUNT
    questions: Tuple[Question, ...]
    answers: Tuple[Record, ...]
    authorities: Tuple[Record, ...]
    additional: Tuple[Record, ...]
    used: int                           # the bytes of the packet, or of what stands: what follows them isn't looked at
    authoritative = Flag(AA)
    truncated = Flag(TC)
    recursion_desired = Flag(RD)
    recursion_available = Flag(RA)
    broadcast = Flag(B)

    @property
    def records(self) -> Tuple[Record, ...]:
        """The records of all sections, in order."""
        return self.answers + self.authorities + self.additional

    @staticmethod
    def read(payload: Buffer, offset: int = 0) -> ServicePacket:
        """The packet at the front of a payload of port 137, which begins at an offset of the buffer; places count from there.

        NbtError: TRUNCATED, and of the first question or record that doesn't stand whole its first fault, which is
        NAME_TRUNCATED, NAME_RESERVED_LABEL, NAME_LONG or NAME_BAD_POINTER of its name, TRUNCATED, the same four of a name
        that is its RDATA, or NAME_RDATA. ValueError for an offset past the end of the buffer, or before its begin.
        """
        packet, fault = ServicePacket.read_front(payload, offset)
        if fault is not None:
            raise fault
        return cast(ServicePacket, packet)

    @staticmethod
    def read_front(payload: Buffer, offset: int = 0) -> Tuple[Optional[ServicePacket], Optional[NbtError]]:
        """What stands of the packet at the front of a payload of port 137, and the fault with which `read` refuses it, or None.
        The questions and records are those before the fault, and `counts` has how many there should be. There is no packet
        where not even a header stands.
        """
        return lend(payload, read_at, whole_number(offset, 'offset'))


def read_at(address: int, length: int, offset: int) -> Tuple[Optional[ServicePacket], Optional[NbtError]]:
    """What stands at an offset of the bytes at an address, and the fault."""
    front, left = behind(address, length, offset)
    header, at = HEADER_ROOM(), ctypes.c_size_t()
    status = HEADER(front, left, ctypes.addressof(header), ctypes.addressof(at))
    if status != DONE:
        return None, error_of(status, at.value)
    identifier, word, qd, an, ns, ar, _used = SERVICE_HEADER.unpack(header)
    sections, used, fault = read_items(front, left, qd + an + ns + ar)
    questions, answers, authorities, additional = [tuple(each) for each in sections]
    return made(ServicePacket, identifier=identifier, response=word & R != 0, op=OPERATIONS[word >> 11 & 15],
                flags=word & NM_FLAGS, rcode=RESULTS[word & 15], counts=(qd, an, ns, ar), questions=questions, answers=answers,
                authorities=authorities, additional=additional, used=used), fault


def made(kind: Type[Made], **fields: Any) -> Made:
    """A frozen dataclass with these fields, at once: its own constructor sets one after the other, and takes twice as long."""
    instance = object.__new__(kind)
    instance.__dict__.update(fields)
    return instance


def numbered(kind: Any) -> List[Any]:
    """The members of an enumeration by their numbers of four bits, and the number itself where it has none."""
    return [kind(each) if each in kind.__members__.values() else each for each in range(16)]


OPERATIONS, RESULTS = numbered(Operation), numbered(ResultCode)


def read_items(payload: int, length: int, count: int) -> Tuple[List[Any], int, Optional[NbtError]]:
    """The questions and records that stand in the payload at an address, of so many, by sections; where they end; and the fault
    of the next one, if there should be one."""
    sections: List[Any] = [[], [], [], []]
    number, place, most = 0, FIRST_ITEM, min(count, MOST_ENTRIES, length // LEAST + 1)
    room, used, at = room_for(most)(), ctypes.c_size_t(), ctypes.c_size_t()
    into, filled, fault = ctypes.addressof(room), ctypes.addressof(used), ctypes.addressof(at)
    while number < count:
        status = ITEMS(payload, length, number, place, into, most, filled, fault)
        if status != DONE:
            return sections, place, error_of(status, at.value)
        found = used.value
        number += found
        for (section, ttl, kind, class_number, data, data_length, place, netbios, name_length, spelling, server_length,
             server) in SERVICE_ENTRY.iter_unpack(room if found == most else memoryview(room)[:found * SERVICE_ENTRY.size]):
            name = name_of(spelling[:name_length], netbios)
            sections[section].append(
                made(Record, name=name, type=kind, class_number=class_number, time_to_live=ttl,
                     rdata=read_rdata(kind, payload + data, data_length, server[:server_length])) if section
                else made(Question, name=name, type=kind, class_number=class_number))
    return sections, place, None


@lru_cache
def room_for(count: int) -> Any:
    """Room for so many entries."""
    return ctypes.c_char * (count * SERVICE_ENTRY.size)


@lru_cache(4_096)
def name_of(spelling: bytes, netbios: bool) -> Union[str, DomainName]:
    """The text of a NetBIOS name, or the labels of another name."""
    return names.text(spelling) if netbios else DomainName(tuple(names.labels(spelling)))
