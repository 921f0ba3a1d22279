"""What a station says of a capture, and what is known of a table's keys: the objects of `nbt replay --json` and `list --json`, and the
lines that are made of them (docs/FORMATS.md, "Reports of replays" and "JSON"; docs/GUIDE.md)."""
import re

from .captures import cut_at_line_feeds
from .names import Refused, text_of
from .objects import key_text, refusal
from .packets import ERROR, KINDS, read_fragment
from .tables import PER_SOURCE, load

OWN_ADDRESS = bytes([0, 0, 0, 0, 0, 138])
NOT_HEARD = 0x82
# The codes of the error packets that answer a packet which is refused for one of its names.
CODES = {'source name': 0x83, 'destination name': 0x84}
DIGITS = re.compile(rb'(?:[0-9A-Fa-f]{2})+')


def reported(table, names, line):
    """What a station with these names says of a line of a capture, after its number, port and moment."""
    if line.port is None:
        return {'outcome': 'dropped', 'count': table.drop(line.moment)}
    if line.port != 138:
        return {'outcome': 'passed'}
    try:
        return taken(table, names, line)
    except Refused as refused:
        text = str(refused)
        return refusal(text) | answered(line.payload, CODES.get(text.split(':')[0]))


def taken(table, names, line):
    """What is said of a payload of port 138 that isn't refused."""
    fragment = read_fragment(line.payload)
    if fragment is None:
        return {'outcome': 'other'}
    change = table.insert(fragment, line.moment)
    key = {'key': key_text(fragment.key)}
    if change != 'whole':
        return {'outcome': change} | key
    entry = table.entries[fragment.key]
    if hears(names, entry):
        return {'outcome': 'delivered'} | key | addressed(entry) | {'data': entry.data().hex()}
    return {'outcome': 'unheard'} | key | answered(line.payload, NOT_HEARD)


def hears(names, entry):
    """Whether a station with these names hears a whole datagram."""
    kind, _, destination = entry.parts()
    if KINDS[kind] == 'broadcast':
        return any(it.scope == destination.scope for it in names)
    return destination in names


def answered(payload, code):
    """The error packet with which a direct unique datagram is answered, where there is a code; another isn't."""
    if code is None or payload[:1] != b'\x10':
        return {}
    return {'error': (bytes([ERROR, 2]) + payload[2:4] + OWN_ADDRESS + bytes([code])).hex()}


def addressed(entry):
    """The kind and the names of a key that isn't spoilt."""
    kind, source, destination = entry.parts()
    return {'kind': KINDS[kind], 'source': text_of(source), 'destination': text_of(destination)}


def report_text(said):
    """What a report has of a line, after its number, from the members of its object."""
    lead = ['refused'] if 'refused' in said else []
    return ' '.join(lead + [f'error {it}' if name == 'error' else str(it) or 'empty' for name, it in said.items() if name != 'at'])


def save(lines, table):
    """Takes the lines of a capture as `nbt save` does; refused where the table has no room for a key."""
    for line in lines:
        fault = reported(table, (), line).get('refused')
        if fault in ('full', 'full source'):
            raise Refused(fault)


def known(entry):
    """What is known of a key."""
    found = {'state': entry.state()} | ({} if entry.is_spoilt else addressed(entry))
    if entry.is_whole():
        found['data'] = entry.data().hex()
    if found['state'] == 'partial':
        runs = entry.runs()
        found |= {'held': len(entry.bytes), 'end': entry.told.get('end'), 'runs': len(runs), 'places': runs}
        found |= {'more': entry.promise} if entry.promise > max(entry.bytes, default=-1) else {}
    return found


def listed(table):
    """What is known of each key of a table, ascending: the objects of `nbt list --json`."""
    return [{'key': key_text(key)} | known(entry) for key, entry in sorted(table.entries.items())]


def listed_text(said):
    """The line of `nbt list` of such an object."""
    words = [said[it] for it in ('key', 'state', 'kind', 'source', 'destination') if it in said]
    if said['state'] == 'whole':
        words.append(said['data'] or 'empty')
    if said['state'] == 'partial':
        end = '?' if said['end'] is None else said['end']
        places = ','.join(f'{start}-{end}' for start, end in said['places']) or '-'
        words += [f'{said["held"]}/{end}', str(said['runs']), places] + ([f'more {said["more"]}'] if 'more' in said else [])
    return ' '.join(words)


def listing(table):
    """What `nbt list` prints."""
    return ''.join(f'{listed_text(it)}\n' for it in listed(table))


def joined(given, keys, per_source):
    """The join of the saved tables of an input."""
    tables = read_tables(cut_at_line_feeds(given), keys, per_source)
    if not tables:
        raise Refused('no tables')
    whole = tables[0]
    for table in tables[1:]:
        whole.merge(table)
    return whole


def read_tables(lines, keys=PER_SOURCE, per_source=PER_SOURCE):
    """The tables in lines of hexadecimal digits."""
    tables = []
    for number, line in enumerate(lines, 1):
        if not DIGITS.fullmatch(line):
            raise Refused(f'line {number}')
        tables.append(load(bytes.fromhex(line.decode()), keys, per_source))
    return tables


def agrees(given, is_listed=False):
    """What `nbt agree` prints, or `nbt agree --list`."""
    lines = cut_at_line_feeds(given)
    if len(lines) != 2:
        raise Refused('two tables wanted')
    first, second = read_tables(lines)
    if first.saved() == second.saved():
        return b'equal\n'
    return b'different\n' + ''.join(differences(first, second) if is_listed else ()).encode()


def differences(first, second):
    """The lines of `nbt agree --list` after `different`."""
    for key in sorted(first.entries.keys() | second.entries.keys()):
        both = first.entries.get(key), second.entries.get(key)
        if len({entry and entry.saved() for entry in both}) == 2:
            for number, entry in enumerate(both, 1):
                yield f'{number} {listed_text({"key": key_text(key)} | known(entry)) if entry else "absent"}\n'
