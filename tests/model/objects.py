"""The objects of `nbt show --json` (docs/FORMATS.md, "JSON" and "Packets in part"): dictionaries whose keys stand in the order of the
page's tables."""
import functools

from .names import domain_text, text_of
from .packets import ERROR, KEEPALIVE, KINDS, MESSAGE, NEGATIVE, POSITIVE, QUERIES, REQUEST, RETARGET, Service, Session, read
from .rdata import VIEWS, address_text, set_of, view

SECTIONS = ('questions', 'answers', 'authorities', 'additional')
OPERATIONS = {0: 'query', 5: 'registration', 6: 'release', 7: 'wack', 8: 'refresh', 9: 'refresh'}
RESULTS = dict(enumerate(('ok', 'FMT_ERR', 'SRV_ERR', 'NAM_ERR', 'IMP_ERR', 'RFS_ERR', 'ACT_ERR', 'CFT_ERR')))
PACKET_FLAGS = {'AA': 0x0400, 'TC': 0x0200, 'RD': 0x0100, 'RA': 0x0080, 'B': 0x0010}
DATAGRAMS = {**KINDS, ERROR: 'error', **QUERIES}
SESSIONS = {MESSAGE: 'message', REQUEST: 'request', POSITIVE: 'positive', NEGATIVE: 'negative', RETARGET: 'retarget', KEEPALIVE: 'keepalive'}


@functools.lru_cache(maxsize=1)
def shown(port, payload):
    """What `nbt show --json` says of a payload that came to a port, after its line, port and moment."""
    packet = read(port, payload)
    if packet.fault:
        return refusal(packet.fault)
    if packet.missing:
        return {'more': packet.missing}
    if isinstance(packet, Session):
        return session(packet)
    return standing(packet)


def front_of(port, payload):
    """What `--partial` adds to it: what still stands of a payload; nothing where it begins with a packet."""
    packet = read(port, payload)
    if packet.is_whole() or not packet.stands:
        return {}
    found = standing(packet)
    found.pop('used', None)
    return found


def refusal(text):
    """A payload that is refused: the text of the fault, and the number with which it ends, if it does."""
    last = text.rpartition(' ')[2]
    return {'refused': text} | ({'at': int(last)} if last.isdigit() else {})


def standing(packet):
    """What stands of a packet, or all of one of port 137 or 138."""
    if isinstance(packet, Service):
        return service(packet)
    if isinstance(packet, Session):
        return called(packet.kind, SESSIONS) | {'length': packet.length}
    return datagram(packet)


def service(packet):
    """A packet of port 137."""
    operation, result = packet.word >> 11 & 15, packet.word & 15
    return {
        'id': f'{packet.identifier:04x}', 'word': f'{packet.word:04x}', 'op': OPERATIONS.get(operation, operation),
        'flags': set_of(PACKET_FLAGS, packet.word), 'rcode': RESULTS.get(result, result),
        **dict(zip(('qd', 'an', 'ns', 'ar'), packet.counts)), 'used': packet.used,
        **{section: list(map(item, items)) for section, items in zip(SECTIONS, packet.sections)},
    }


def item(of):
    """A question or a record."""
    found = {'name': domain_text(of.labels), 'type': f'{of.type:04x}', 'class': f'{of.group:04x}'}
    if not hasattr(of, 'ttl'):
        return found
    found['ttl'] = of.ttl
    if of.domain is not None:
        return found | {'domain': domain_text(of.domain)}
    _, otherwise = VIEWS.get(of.type, (None, {}))
    return found | {'data': of.data.hex()} | (view(of.type, of.data) or otherwise)


def called(number, words):
    """What a packet is, by its word or by its number."""
    return {'kind': words[number]} if number in words else {'type': f'{number:02x}'}


def datagram(packet):
    """A packet of port 138; of one that is refused, what stands of it."""
    fields = {
        'offset': packet.offset, 'source': packet.source and text_of(packet.source),
        'destination': packet.destination and text_of(packet.destination), 'data': None if packet.data is None else packet.data.hex(),
        'code': None if packet.code is None else f'{packet.code:02x}', 'used': packet.used,
    }
    front = called(packet.kind, DATAGRAMS) | {'flags': f'{packet.flags:02x}', 'key': key_text(packet.key)}
    return front | {name: value for name, value in fields.items() if value is not None}


def session(packet):
    """A whole packet of port 139."""
    parts = {
        MESSAGE: lambda: {'length': packet.length, 'data': packet.body.hex()},
        REQUEST: lambda: {'called': text_of(packet.called), 'calling': text_of(packet.calling)},
        NEGATIVE: lambda: {'code': packet.body.hex()},
        RETARGET: lambda: {'address': address_text(packet.address), 'to_port': packet.port},
    }
    return {'kind': SESSIONS[packet.kind]} | parts.get(packet.kind, dict)() | {'used': packet.used}


def key_text(key):
    """The text of a key: an address, a port, an identifier."""
    address, port, identifier = key
    return f'{address_text(address)}:{port}/{identifier:04x}'
