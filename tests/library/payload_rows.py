#!/usr/bin/env python3
"""What the calls of the library should answer, by tests/model: rows in the form of rows.py, for calls.c and calls.mjs.

Usage: payload_rows.py [cases] [limits] <LINES, each a port and the digits of a payload, or `empty`; `table` stands for the port of a saved
table. The names of cases.txt come first. With `cases` its rows follow, those of its payloads too, with `limits` stations at the limits of
their names and keys. A payload has a `line`, and then rows of what it says, and a row for each call that needs no station with the payload
for an input, beside what some row of cases.txt gives it; every 48 have the rows of stations that took them.
"""
import json
import sys
from itertools import product
from struct import pack

sys.dont_write_bytecode = True
sys.path[1:1] = [f'{sys.path[0]}/../{it}' for it in ('.', 'lib')]
import wire
from model import objects, phrases, text
from model.building import fragments
from model.captures import digits
from model.names import Refused, name_of, read_labels, spelled, spelling_of, text_of
from model.packets import ERROR, FIRST, KINDS, REQUEST, RETARGET, Reader, domain, question, read, record
from rows import WORDS, read_cases
from station_rows import Station, table_rows, told_rows

# Calls that read RDATA: they are given a type, its bytes, and some the number of a part.
OF_RDATA = [(call, words) for call, words in WORDS.items() if call.startswith('service_') and words[:2] == ['N', 'IN']]
TOGETHER, ENTRIES, MOST_ITEMS, LONGEST_CUT, MOST_PIECES, SPOILT_KEYS, LONG = 48, 3, 12, 4000, 50, 2000, 2000
NAMES = 'FRED<20> JOE<00>'
MOST = (1 << 32) - 1
# What payloads are told by.
SAID = {
    'show': lambda *of: ''.join(f'{line}\n' for line in text.lines_of(*of)),
    'json': lambda *of: json.dumps(objects.shown(*of), separators=(',', ':')),
    'brief': phrases.said,
}


def told(packet_fault, fields):
    """What a reader answers: its fault, or the fields that it fills in."""
    return f'! {packet_fault}' if packet_fault else f'~ {fields().hex()}'


# ---- what a payload says

def service_rows(payload):
    packet = read(137, payload)
    header = lambda used: lambda: pack('<6HQ', packet.identifier, packet.word, *packet.counts, used)
    yield f'service_header P {told(None if packet.stands else packet.fault, header(12))}'
    yield f'service_read P {told(packet.fault, header(packet.used))}'
    entries, places, reader = [], [], Reader(payload, 12)
    for section, it in ((section, it) for section, items in enumerate(packet.sections if packet.stands else ()) for it in items):
        places.append(reader.at)
        if len(places) <= MOST_ITEMS:
            yield from name_rows(payload, reader, it.labels)
        (record if section else question)(reader)
        entries.append(entry(section, it, reader.at))
        if section and len(places) <= MOST_ITEMS:
            yield from (f'{call} {it.type} {digits(it.data)}{f" {len(places) % 2}" * (len(words) - 2)}' for call, words in OF_RDATA)
    end = f'! {packet.fault or "no item"}'
    for number, place in list(enumerate([*places, packet.used if packet.stands else 12]))[-MOST_ITEMS:]:
        item = f'~ {entries[number][:293].hex()}' if entries[number:] else end
        many = b''.join(entries[number:number + ENTRIES]).hex()
        yield f'service_item P {number} {place} {item}'
        yield f'service_items P {number} {place} {f"~ {many}" if many else end}'


def name_rows(payload, reader, labels):
    """The name of an item, which ends in one place, and its text."""
    place, spelling = reader.at, spelled(labels)
    domain(reader)
    length, reader.at = reader.at - place, place
    yield f'service_domain P {place} {length} = {spelling.hex()}'
    yield from (f'service_domain P {place} {it} ! name rdata {place}' for it in (length + 1, (1 << 64) - 1))
    try:
        yield from text_rows(name_of(labels))
    except Refused:
        pass


def text_rows(name):
    text, spelling = text_of(name).encode().hex(), spelling_of(name).hex()
    return f'name_text {spelling} = {text}', f'name_spell {text} = {spelling}'


def entry(section, it, after):
    """The fields of a question or a record, and of the name that is its RDATA."""
    data, server = (len(it.data), it.domain) if section else (0, None)
    try:
        is_netbios = bool(name_of(it.labels))
    except Refused:
        is_netbios = False
    name, server = spelled(it.labels), b'' if server is None else spelled(server)
    numbers = section, it.ttl if section else 0, it.type, it.group, after - data, data, after
    return pack('<IIHHQQQBB255sB255s', *numbers, is_netbios, len(name), name, len(server), server)


def datagram_rows(payload):
    packet = read(138, payload)
    if not packet.stands:
        yield from (f'datagram_{it} P ! {packet.fault}' for it in ('read', 'front'))
        return
    yield f'datagram_read P {told(packet.fault, lambda: datagram_fields(packet, payload))}'
    yield f'datagram_front P ~ {front_fields(packet).hex()}'
    if packet.is_whole():
        yield from (row for it in (packet.source, packet.destination) if it for row in text_rows(it))
        yield from written_rows(packet, payload[:packet.used])


def front_fields(packet, is_whole=False):
    """The fields of the front of a packet of port 138, to which the names of a fragment belong, and of one that is whole any."""
    begin = 14 if packet.kind in KINDS else 10
    source, destination = (spelling_of(it) if it and (begin == 14 or is_whole) else b'' for it in (packet.source, packet.destination))
    address, port, identifier = packet.key
    places = begin if source else 0, len(source), begin + len(source) if destination else 0, len(destination)
    return pack('<BBHIHHQQQQ', packet.kind, packet.flags, identifier, int.from_bytes(address, 'big'), port, packet.offset or 0, *places)


def datagram_fields(packet, payload):
    """Those of a packet that is whole, with the place of its data, or of its code."""
    data = payload[10:11] if packet.kind == ERROR else packet.data
    place = 0 if data is None else packet.used - len(data)
    return front_fields(packet, True) + pack('<QQQ', place, len(data or b''), packet.used)


def written_rows(packet, whole):
    """A packet is written again: a datagram that is whole in it as it is, an error or a query but for FLAGS."""
    address, port, identifier = packet.key
    numbers, names = f'{identifier} 0x{address.hex()} {port}', [text_of(it).encode().hex() for it in (packet.source, packet.destination) if it]
    if packet.kind not in KINDS:
        call = f'error {numbers} {packet.code}' if packet.kind == ERROR else f'query {packet.kind} {numbers} {names[0]}'
        yield f'datagram_{call} = {whole[:1].hex()}02{whole[2:].hex()}'
    elif packet.flags == FIRST and packet.offset == 0 and packet.used <= 65535:
        most = max(1, len(packet.data) // MOST_PIECES, identifier % 60)
        spellings = map(spelling_of, (packet.source, packet.destination))
        station, pieces = Station('CUT', text_of(packet.destination), 1, 1), [*fragments(packet.kind, packet.key, *spellings, packet.data, most)]
        for size, written in (65535, [whole]), (most, pieces):
            yield (f'datagram_write {packet.kind} {numbers} {" ".join(names)} {digits(packet.data)} {size} = '
                   + ''.join(f'{len(it):04x}{it.hex()}' for it in written))
        yield from (station.row, *(station.take(0, it) for it in reversed(pieces)))


def session_rows(payload):
    packet = read(139, payload)
    fault = packet.fault or packet.missing and f'more bytes needed {packet.missing}'
    front = f'! {fault}' if not packet.stands else f'~ {pack("<BBQ", packet.kind, packet.flags, packet.length).hex()}'
    yield f'session_front P {front}'
    yield f'session_read P {told(fault, lambda: pack("<BQQQ", packet.kind, 4, packet.length, packet.used))}'
    names = lambda: b''.join(pack('<B255s', len(it), it) for it in map(spelling_of, (packet.called, packet.calling)))
    yield f'session_names P {told(fault or packet.kind != REQUEST and "other type", names)}'
    target = lambda: packet.address[::-1] + pack('<H', packet.port)
    yield f'session_retarget P {told(fault or packet.kind != RETARGET and "other type", target)}'
    if not fault:
        yield f'session_write {packet.kind} {digits(packet.body)} = {payload[:packet.used].hex()}'
        for it in range(0, packet.used, packet.used // 12 + 1) if packet.used < LONGEST_CUT else (packet.used - 1,):
            yield f'session_read {digits(payload[:it])} ! more bytes needed {read(139, payload[:it]).missing}'


def rdata_rows(payload):
    """Bytes as RDATA: of type NS where they are one name, of another type where they aren't too many."""
    written = lambda kind: f'= {wire.service(7, 0x8500, wire.FRED, told=wire.record(kind, payload, 77)).hex()}'
    try:
        _, after = read_labels(payload, 0)
        named = written(2) if after == len(payload) else f'! name: trailing bytes {after}'
    except Refused as fault:
        named = f'! name: {fault}'
    for kind, said in (1, written(1) if len(payload) < 65536 else '! data too long'), (2, named):
        yield f'service_response 7 0x8500 {b"FRED<20>".hex()} {kind} 77 P {said}'


# ---- calls, whatever they are given

def any_rows(number, given):
    """A row for each call with a payload for one of its inputs, and with other numbers; a port has more bits than count."""
    for call, rows in given.items():
        kinds, row = WORDS[call], list(rows[number % len(rows)])
        inputs = [place for place, kind in enumerate(kinds) if kind == 'IN']
        if number % 2:
            row = [it if kind == 'IN' else (int(it, 0) + (number * 2654435761 >> 7 * place)) % (1 << 64) for place, (kind, it) in
                   enumerate(zip(kinds, row))]
        if inputs:
            row[inputs[number % len(inputs)]] = 'P'
        yield ' '.join(map(str, (call, *row)))


def rows_of(number, port, payload, given):
    """The rows of a payload."""
    yield f'let P = {digits(payload)}'
    if port != 'table':
        yield from (f'{call} {int(port) | 0xabcd0000} P = {digits(said(int(port), payload).encode())}' for call, said in SAID.items())
        yield from {'137': service_rows, '138': datagram_rows, '139': session_rows}[port](payload)
    yield from rdata_rows(payload)
    yield from any_rows(number, given)


def together_rows(together, number):
    """The rows of stations that are given some payloads."""
    return table_rows(*([payload for port, payload in together if port == it] for it in ('138', 'table')), number)


# ---- limits

def limit_rows(names):
    """As many names as a station may have, and one more; stations with few keys, which take in tables, cut at each length, and their own; and
    a table with long lines."""
    texts = b' '.join(b'N%c%c<20>' % (65 + it // 16, 65 + it % 16) for it in range(255))
    yield f'station_create {texts[:-8].hex()} 0 0 0 0 LONG_LIST :'
    yield f'station_create {texts.hex()} 0 0 0 0 LONG_LIST ! too many names {254 * 8}'
    for number, limits in enumerate(product((0, 1, 2, MOST), repeat=2)):
        station = Station(f'K{number}', NAMES, *limits)
        yield station.row
        yield from (station.absorb((1 << 64) - 1, names['TWO_KEYS'][:it]) for it in range(len(names['TWO_KEYS'])))
        yield from (station.absorb(0, names[it]) for it in ('ANOTHER_KEY', 'TWO_KEYS'))
        yield from (station.save(), station.absorb(0, station.table.saved()), station.save())
    # Spoilt keys have the longest lines for their bytes.
    yield from told_rows([b'NBT2' + pack('>I', SPOILT_KEYS) + b''.join(b'\xff' * 6 + pack('>HB', it, 0) for it in range(SPOILT_KEYS))])


def given_of(cases):
    """What calls that need no station are given: payloads and ones, and what rows give them."""
    given = {call: [['P' if it == 'IN' else '1' for it in words]] for call, words in WORDS.items()
             if call not in SAID and not call.startswith('station_')}
    for call, words, _ in cases:
        if call in given and len(' '.join(words)) < LONG:
            given[call].append(words)
    return given


def case_rows(cases, payloads, given):
    """The rows of cases.txt, and those of its payloads."""
    yield from (' '.join([call, *words, *answer]) for call, words, answer in cases)
    for number, it in enumerate(payloads):
        yield from rows_of(number, *it, given)
    yield from together_rows(payloads, 0)
    yield from told_rows([payload for port, payload in payloads if port == 'table'])


def payload_rows(lines, given):
    """The rows of lines."""
    together, number = [], 0
    for number, line in enumerate(lines):
        port, payload = line.split()
        payload = bytes.fromhex(payload.replace('empty', ''))
        yield from ('line', *rows_of(number, port, payload, given))
        together.append((port, payload))
        if len(together) == TOGETHER:
            yield from together_rows(together, number)
            together.clear()
    yield from together_rows(together, number)


def main():
    names, cases, payloads = read_cases()
    given = given_of(cases)
    for name, data in names.items():
        print('let', name, '=', digits(data))
    for rows in ([case_rows(cases, payloads, given)] * ('cases' in sys.argv) + [limit_rows(names)] * ('limits' in sys.argv)
                 + [payload_rows(sys.stdin, given)]):
        print(*rows, sep='\n')


if __name__ == '__main__':
    main()
