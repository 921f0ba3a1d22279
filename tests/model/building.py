"""What `nbt build` prints (docs/FORMATS.md, "`nbt build`"): words are judged from the left, and then what the packet that they name may have."""
import pathlib
import re

from wire import datagram, record, service, session

from .limits import MOST_BODY, MOST_DATAGRAM
from .names import Refused, name_of_text, read_labels, spelling_of
from .objects import DATAGRAMS, SESSIONS
from .packets import FIRST, KINDS, MORE
from .rdata import NB, NBSTAT, NS

LONGEST_RDATA = LONGEST_PACKET = 65_535
B = 0x0010
REQUESTS = {'query': 0x0100, 'status': 0x0000, 'registration': 0x2900, 'refresh': 0x4000, 'release': 0x3000}
TYPES = {what: number for number, what in {**DATAGRAMS, **SESSIONS}.items()}


def formed(pattern, text):
    """A word that has this form."""
    if not re.fullmatch(pattern, text):
        raise Refused('arguments')
    return text


def allowed(holds, fault='arguments'):
    """Refuses words unless something holds."""
    if not holds:
        raise Refused(fault)


def number(text, most=65_535):
    """A decimal number, up to this one."""
    value = int(formed('0|[1-9][0-9]*', text))
    allowed(value <= most)
    return value


def digits(text, count):
    """A number of so many hexadecimal digits."""
    return int(formed(f'[0-9A-Fa-f]{{{count}}}', text), 16)


def name(text):
    """The spelling of a name."""
    return spelling_of(name_of_text(text.encode('utf-8', 'surrogateescape')))


def address(text):
    """The bytes of an address."""
    return bytes(number(it, 255) for it in formed(r'[^.]*(?:\.[^.]*){3}', text).split('.'))


def key(text):
    """The address, the port and the identifier of a key."""
    source, port, identifier = re.split('[:/]', formed('[^:/]*:[^:/]*/[^:/]*', text))
    return address(source), number(port), digits(identifier, 4)


def data(text):
    """Bytes, as a capture has them."""
    return bytes.fromhex(formed('empty|(?:[0-9A-Fa-f]{2})+', text).replace('empty', ''))


READERS = {
    **dict.fromkeys(('ID', 'WORD', 'TYPE', 'FLAGS'), lambda text: digits(text, 4)), 'CODE': lambda text: digits(text, 2), 'HEX': data,
    **dict.fromkeys(('PORT', 'MOST'), number), 'TTL': lambda text: number(text, (1 << 32) - 1), 'ADDRESS': address, 'KEY': key,
    **dict.fromkeys(('NAME', 'CALLED', 'CALLING', 'SOURCE', 'DESTINATION'), name),
}
FORMATS = pathlib.Path(__file__).resolve().parents[2] / 'docs/FORMATS.md'
ROWS = re.findall(r'^\| (`.*`) \| (.*)\|$', FORMATS.read_text('utf-8').partition('| WHAT | ARG.. |')[2].partition('\n\n')[0], re.MULTILINE)
# How the words after each WHAT are read, as the page lists them.
FIELDS = {what: [READERS[it] for it in fields.split()] for whats, fields in ROWS for what in re.findall('`(.*?)`', whats)}


def built(words, is_broadcast):
    """The lines of the packets that words name."""
    what, *texts = words
    allowed(what in FIELDS and len(texts) == len(FIELDS[what]))
    fields = [read(text) for read, text in zip(FIELDS[what], texts)]
    flags = B if is_broadcast else 0
    if what in REQUESTS:
        port, payloads = 137, [request(what, REQUESTS[what] | flags, *fields)]
    elif what == 'response':
        port, payloads = 137, [response(flags, *fields)]
    elif what in SESSIONS.values():
        port, payloads = 139, [of_session(TYPES[what], fields)]
    else:
        port, payloads = 138, (fragments if what in KINDS.values() else alone)(TYPES[what], *fields)
    return [f'{port} 0 {it.hex()}' for it in payloads]


def request(what, flags, identifier, named, *claim):
    """A question of port 137, with the record of whom it claims or releases the name for."""
    *ttl, of_entry, owner = claim or (0, b'')
    told = record(NB, of_entry.to_bytes(2, 'big') + owner, *ttl) if claim else b''
    return service(identifier, flags, named, NBSTAT if what == 'status' else NB, told)


def response(flags, identifier, told, named, kind, ttl, rdata):
    """A packet with one answer, whose RDATA is a name where its type says so."""
    if kind == NS:
        allowed(is_name(rdata))
    allowed(len(rdata) <= LONGEST_RDATA, 'too long')
    return service(identifier, told | flags, named, told=record(kind, rdata, ttl))


def is_name(rdata):
    """Whether bytes are the spelling of a domain name."""
    try:
        return read_labels(rdata, 0)[1] == len(rdata)
    except Refused:
        return False


def of_session(kind, fields):
    """A packet of port 139."""
    body = b''.join(it if isinstance(it, bytes) else it.to_bytes(1 if len(fields) == 1 else 2, 'big') for it in fields)
    allowed(len(body) <= MOST_BODY, 'too long')
    return session(kind, body)


def fragments(kind, of_key, source, destination, whole, most):
    """The packets of a datagram, of so many bytes at most."""
    names = source + destination
    allowed(len(whole) <= MOST_DATAGRAM, 'too long')
    allowed(most, 'zero piece')
    allowed(len(names) + min(most, len(whole)) <= LONGEST_PACKET, 'too long')
    owner, port, identifier = of_key
    for start in range(0, max(1, len(whole)), most):
        flags = (0 if start else FIRST) | (MORE if start + most < len(whole) else 0)
        yield datagram(identifier, whole[start:start + most], owner, kind, flags, start, names, port)


def alone(kind, of_key, said):
    """The packet of port 138 of an error, by its code, or of a query, by its name."""
    owner, port, identifier = of_key
    front = bytes([kind, FIRST]) + identifier.to_bytes(2, 'big') + owner + port.to_bytes(2, 'big')
    yield front + (said if isinstance(said, bytes) else bytes([said]))
