#!/usr/bin/env python3
"""What the package for Python answers to rows on standard input, a line each: rows.py says how both are written."""
import json
import sys

import nbt
from nbt import LineKind, ServicePacket
from nbt.library import STATUS_TEXT


def digits(data):
    """Bytes as digits."""
    return data.hex() or 'empty'


# ---- payloads, in the words of tests/model/values.py

def said(kind, front=vars, whole=vars):
    """What a payload says by the readers of a kind, which have to agree on its fault."""
    def answer(payload):
        (found, fault), packet = kind.read_front(payload), None
        try:
            packet = kind.read(payload)
            assert fault is None
        except nbt.NbtError as error:
            assert error == fault
        fault = fault and {'status': fault.status.name, 'number': fault.number, 'at': fault.at}
        told = {'front': found and front(found), 'fault': fault, 'packet': packet and whole(packet)}
        return (json.dumps(told, sort_keys=True, separators=(',', ':'), default=plain),)
    return answer


def plain(value):
    """Bytes as digits, and addresses as texts."""
    return value.hex() if isinstance(value, bytes) else str(value)


def service(packet):
    word = packet.response << 15 | packet.op << 11 | packet.flags | packet.rcode
    assert packet.records == packet.answers + packet.authorities + packet.additional
    sections = {'answer': packet.answers, 'authority': packet.authorities, 'additional': packet.additional}
    records = [item(it) | {'section': section, 'time_to_live': it.time_to_live, 'rdata': rdata(it.rdata)}
               for section, records in sections.items() for it in records]
    return {'header': {'identifier': packet.identifier, 'word': word, 'counts': packet.counts},
            'questions': list(map(item, packet.questions)), 'records': records, 'used': packet.used}


def item(it):
    """What a question and a record have alike. The text of a NetBIOS name alone has an angle bracket."""
    assert isinstance(it.name, str) == ('<' in str(it.name))
    return {'name': str(it.name), 'kind': it.type, 'class': it.class_number}


def rdata(value):
    if isinstance(value, tuple):
        return {'addresses': [{'nb_flags': it.flags, 'address': it.address} for it in value]}
    if isinstance(value, nbt.NodeStatus):
        return {'node_status': {'names': list(map(vars, value.names)), 'unit': value.unit}}
    return {'other' if isinstance(value, bytes) else 'name_server': value}


def session(packet):
    return vars(packet) | {name: getattr(packet, name) for name in ('called', 'calling', 'retarget')}


# ---- other calls

def spell(text):
    """The spelling of a name, whose parts give its text again."""
    parts, spelling = nbt.split_name(text), nbt.spell(text)
    assert len(parts.characters) == 15 and nbt.join_name(*parts) == nbt.text(spelling)
    return spelling


def capture_line(text):
    found = nbt.capture_line(text)
    words = {LineKind.BLANK: [], LineKind.TICK: [found.moment], LineKind.PACKET: [found.port, found.moment, digits(found.payload)]}
    return ' '.join([found.kind.name.lower(), *map(str, words[found.kind])]),


def request(kind, identifier, broadcast, name, *record):
    """A request; the last three kinds have a record, which a release gives no time."""
    record = dict(zip(('time_to_live', 'nb_flags', 'address'), record)) if kind > 1 else {}
    if kind == 4:
        del record['time_to_live']
    return (nbt.query, nbt.node_status, nbt.registration, nbt.refresh, nbt.release)[kind](identifier, name, broadcast=bool(broadcast), **record)


def response(identifier, word, name, type, time_to_live, data):
    """A response of bytes, which is also that of the values that are read of it."""
    words = {'op': word >> 11 & 15, 'flags': word & 0x07f0, 'rcode': word & 15}
    packet = nbt.response(identifier, name, data, time_to_live, type=type, **words)
    rdata = ServicePacket.read(packet).answers[0].rdata
    assert packet == nbt.response(identifier, name, rdata, time_to_live, type=type, **words)
    return packet


def pieces(*words):
    return b''.join(len(it).to_bytes(2, 'big') + it for it in nbt.Datagram.write(*words))


# ---- stations

stations = {}


def create(texts, address, port, keys, per_source, name):
    stations[name] = nbt.Station(texts.split(' ') if texts else [], address, port, keys, per_source)
    return ()


def key(of):
    """The text of the key of a datagram."""
    return f'{of.address}:{of.port}/{of.identifier:04x}'


def handed(it):
    """A datagram that is handed over, in the words of `nbt replay`."""
    return f'{key(it)} {it.type.name.lower()} {it.source} {it.destination} {digits(it.data)}'


def take(station, moment, payload):
    """What became of a payload, in the same words."""
    taken = station.take(moment, payload)
    told = [handed(taken.delivery) if taken.delivery else key(taken)] if taken.address is not None else []
    return (taken.outcome.name.lower(), *told, *([str(taken.refusal)] if taken.refusal else []),
            *(['error', taken.error.hex()] if taken.error else []))


# Calls, and a letter for each word: a number, bytes, a text, a station, or the name of one. What they answer is bytes, a text, or words.
KINDS = {'n': int, 'b': lambda word: bytes.fromhex(word.replace('empty', '')), 't': lambda word: KINDS['b'](word).decode(),
         's': stations.__getitem__, 'w': str}
CALLS = {
    '137': ('b', said(ServicePacket, service, service)),
    '138': ('b', said(nbt.Datagram)),
    '139': ('b', said(nbt.SessionPacket, whole=session)),
    'status_text': ('n', STATUS_TEXT),
    'name_spell': ('t', spell),
    'name_text': ('b', nbt.text),
    'show': ('nb', nbt.show),
    'json': ('nb', nbt.json),
    'brief': ('nb', nbt.brief),
    'capture_line': ('b', capture_line),
    'service_request': ('nnntnnn', request),
    'service_response': ('nntnnb', response),
    'datagram_write': ('nnnnttbn', pieces),
    'datagram_error': ('nnnn', nbt.datagram_error),
    'datagram_query': ('nnnnt', nbt.datagram_query),
    'session_write': ('nb', nbt.SessionPacket.write),
    'table_merge': ('bbnn', nbt.merge),
    'table_list': ('b', nbt.list_table),
    'table_json': ('b', nbt.table_json),
    'table_differ': ('bb', lambda *tables: (str(nbt.differ(*tables)).lower(),)),
    'station_create': ('tnnnnw', create),
    'station_take': ('snb', take),
    'station_tick': ('sn', lambda station, now: (str(station.tick(now)),)),
    'station_save': ('s', nbt.Station.save),
    'station_list': ('s', nbt.Station.list),
    'station_absorb': ('snb', lambda *words: (' and '.join(map(handed, nbt.Station.absorb(*words))) or 'none',)),
}


def answer(call, *words):
    """What a call answers."""
    kinds, function = CALLS[call]
    try:
        found = function(*(KINDS[kind](word) for kind, word in zip(kinds, words, strict=True)))
    except nbt.NbtError as error:
        return f'! {error}'
    if isinstance(found, tuple):
        return ' '.join([':', *found])
    return f'= {digits(found.encode() if isinstance(found, str) else found)}'


if __name__ == '__main__':
    for line in sys.stdin:
        print(answer(*line.split()))
    for station in stations.values():
        station.close()
