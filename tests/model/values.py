"""What a caller of the library should read out of payloads, which come as lines of a port and digits. Usage: python3 -m model.values,
in tests/, prints each line before a tab and what it says. The drivers tests/library/answers.* print the same by the packages.

That is an object: what stands at the front of the payload, the fault for which it is no packet, and the packet. Of port 137 members have
the names of the crate for Rust, of others those of the package for Python."""
import json
import sys
from pathlib import Path
from re import findall

from .names import domain_text, text_of
from .packets import KINDS, read
from .rdata import address_text, view

NAME_FAULTS = {'truncated': 20, 'reserved label': 21, 'pointer not allowed': 22, 'too long': 23, 'not netbios': 24, 'bad pointer': 26}
# What is added to them in a name of a datagram.
ROLES = {'name': 0, 'source name': 10, 'destination name': 20}
FAULTS = {'truncated': 50, 'unknown type': 51, 'more bytes needed': 52, 'reserved flags': 53, 'bad length': 54, 'trailing bytes': 55,
          'name rdata': 56}
HEADER = (Path(__file__).resolve().parents[2] / 'include/nbt.h').read_text('utf-8')
STATUSES = {int(number): name for name, number in findall(r'\n    NBT_([A-Z_]+) = (\d+)', HEADER.partition('enum nbt_status {')[2])}
SECTIONS = 'question', 'answer', 'authority', 'additional'


def refused(fault):
    """A fault with a text, such as `source name: truncated 60`; None where there is none."""
    if not fault:
        return None
    words, _, last = fault.rpartition(' ')
    words, place = (words, int(last)) if last.isdigit() else (fault, None)
    role, colon, name_fault = words.rpartition(': ')
    number = ROLES[role] + NAME_FAULTS[name_fault] if colon else FAULTS[words]
    return {'status': STATUSES[number], 'number': number, 'at': place}


def service(packet):
    """What stands of a payload of port 137, as one of which all stands."""
    items = [[item(section, it) for it in items] for section, items in zip(SECTIONS, packet.sections)]
    header = {'identifier': packet.identifier, 'word': packet.word, 'counts': packet.counts}
    return {'header': header, 'questions': items[0], 'records': sum(items[1:], []), 'used': packet.used}


def item(section, of):
    """A question or a record."""
    said = {'name': domain_text(of.labels), 'kind': of.type, 'class': of.group}
    return said if section == 'question' else said | {'section': section, 'time_to_live': of.ttl, 'rdata': rdata(of)}


def rdata(record):
    """What RDATA says, by its type. What flags say is no value of its own."""
    if record.domain is not None:
        return {'name_server': domain_text(record.domain)}
    found, flags = view(record.type, record.data), lambda it: int(it['flags'], 16)
    if found is None:
        return {'other': record.data.hex()}
    if 'entries' in found:
        return {'addresses': [{'nb_flags': flags(it), 'address': it['address']} for it in found['entries']]}
    names = [{'name': it['name'], 'flags': flags(it)} for it in found['names']]
    return {'node_status': {'names': names, 'unit': found.get('unit')}}


def datagram_front(packet):
    """The header at the front of a payload of port 138, with the names of a fragment as far as they stand."""
    (address, port, identifier), is_part = packet.key, packet.kind in KINDS
    found = {'source': packet.source, 'destination': packet.destination}
    names = {role: text_of(name) if is_part and name else None for role, name in found.items()}
    return {'type': packet.kind, 'flags': packet.flags, 'identifier': identifier, 'address': address_text(address), 'port': port,
            'offset': packet.offset or 0, **names}


def datagram(packet):
    """A packet of port 138. The destination of a query is there, too, and the code of an error is its data."""
    data = (packet.data or b'').hex() if packet.code is None else f'{packet.code:02x}'
    destination = packet.destination and text_of(packet.destination)
    return {**datagram_front(packet), 'destination': destination, 'data': data, 'used': packet.used}


def session(packet):
    """A packet of port 139."""
    called, calling = (name and text_of(name) for name in (packet.called, packet.calling))
    target = packet.address and [address_text(packet.address), packet.port]
    return {'type': packet.kind, 'body': packet.body.hex(), 'called': called, 'calling': calling, 'retarget': target, 'used': packet.used}


def session_front(packet):
    """The header at the front of a payload of port 139."""
    return {'type': packet.kind, 'flags': packet.flags, 'length': packet.length}


# What is said of what stands at the front of a payload, and of a packet.
READERS = {137: (service, service), 138: (datagram_front, datagram), 139: (session_front, session)}


def told(port, payload):
    """What a payload with these digits says that came to a port."""
    packet, (front, whole) = read(port, bytes.fromhex(payload.replace('empty', ''))), READERS[port]
    fault = refused(packet.fault or packet.missing and f'more bytes needed {packet.missing}')
    said = {'front': front(packet) if packet.stands else None, 'fault': fault, 'packet': None if fault else whole(packet)}
    return f': {json.dumps(said, sort_keys=True, separators=(",", ":"))}'


def main():
    """Prints those of standard input."""
    for line in sys.stdin:
        port, payload = line.split()
        print(f'{port} {payload}\t{told(int(port), payload)}')


if __name__ == '__main__':
    main()
