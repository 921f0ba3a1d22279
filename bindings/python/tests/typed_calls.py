"""Calls of the package with the types that it says, for mypy's strict rules: each buffer, and what is read of a refusal."""
from __future__ import annotations

import mmap
from array import array
from typing import List, Optional

import nbt


def read(mapped: mmap.mmap, numbers: array[int], row: bytearray, view: memoryview) -> List[nbt.SessionPacket]:
    """A packet of a buffer of each kind, and those of a stream."""
    buffers: List[nbt.Buffer] = [mapped, numbers, row, view, b'']
    packets = [nbt.SessionPacket.read(each, offset=4) for each in buffers]
    stream = nbt.SessionPacket.stream(mapped)
    packets += [packet for packet in stream if packet.used > stream.offset + stream.missing + stream.left]
    return packets


def why(station: nbt.Station, payload: mmap.mmap) -> Optional[nbt.Status]:
    """Why a station refuses a payload."""
    try:
        refusal = station.take(0, payload).refusal
    except nbt.ReentryError:
        return None
    except nbt.MoreNeeded as more:
        return nbt.Status(more.missing)
    if refusal is None or refusal.number == refusal.at:
        return None
    return refusal.status


def said(packet: nbt.ServicePacket) -> List[str]:
    """What the records of a packet say."""
    words = [f'{packet.op:d} {packet.rcode:d} {packet.flags:04x}'] if packet.broadcast else []
    for record in packet.records:
        it: nbt.Rdata = record.rdata
        if isinstance(it, tuple):
            words += [f'{entry.address} {entry.node_type.name}' for entry in it]
        elif isinstance(it, nbt.NodeStatus):
            words += [node.name for node in it.names if node.active] + [(it.unit or b'').hex()]
        elif isinstance(it, nbt.DomainName):
            words.append(str(it))
        elif isinstance(it, bytes):
            words.append(it.hex())
    return words


def front(payload: bytearray) -> Optional[int]:
    """Where a payload is refused."""
    packet, fault = nbt.ServicePacket.read_front(payload, offset=1)
    if packet is None or fault is None:
        return None
    parts: nbt.NameParts = nbt.split_name(nbt.join_name(b'FRED', 0x20, scope='NETBIOS.COM'))
    if packet.flags & nbt.HeaderFlag.B and packet.questions[0].type == nbt.RecordType.NB:
        return parts.suffix
    retarget = nbt.SessionPacket.read(nbt.json(137, payload).encode()).retarget
    return fault.at if retarget is None else retarget[1] + packet.counts[0] + len(nbt.__version__)


def answered(packet: nbt.ServicePacket, status: nbt.NodeStatus, payload: bytearray) -> List[bytes]:
    """What answers a packet, and what stands of a payload of port 138 and of one of port 139."""
    datagram, fault = nbt.Datagram.read_front(payload)
    session, more = nbt.SessionPacket.read_front(payload, offset=2)
    if datagram is None or session is None:
        return [nbt.negative_query_response(packet.identifier, 'FRED<20>', rcode=nbt.ResultCode.ACT_ERR)]
    entries: List[nbt.NbEntry] = [nbt.NbEntry(datagram.flags, datagram.address)]
    name: str = datagram.source or 'FRED<20>'
    answers = [nbt.query_response(packet.identifier, name, entries, 300_000, flags=0x0580), nbt.node_status_response(session.length, name, status)]
    answers += [nbt.response(packet.identifier, name, record.rdata, record.time_to_live, op=packet.op, rcode=packet.rcode) for record in packet.records]
    return [*answers, nbt.response(1, name, payload, type=datagram.type, op=nbt.Operation.WACK)] if fault and more else answers


def known(station: nbt.Station, table: mmap.mmap) -> List[str]:
    """What a station and a table say, and where they differ."""
    key: Optional[nbt.Key] = nbt.differ(station.save(), table)
    if key is None:
        return [station.list(), nbt.table_json(table)]
    error: bytes = nbt.datagram_error(key.identifier, key.address, key.port, 0x82)
    query: bytes = nbt.datagram_query(nbt.DatagramType.FIND, key.identifier, str(key.address), key.port, 'FRED<20>')
    return [nbt.brief(138, error), nbt.brief(138, query)]


def line_of(line: str, station: nbt.Station) -> Optional[nbt.Taken]:
    """What becomes of a line of a capture."""
    read: nbt.Line = nbt.capture_line(line)
    if read.kind == nbt.LineKind.TICK:
        station.tick(read.moment)
    return station.take(read.moment, read.payload) if read.port == 138 else None
