"""The phrases of `nbt show --brief` (docs/FORMATS.md, "Phrases")."""
import re

from .objects import shown
from .packets import MORE

A, NBSTAT, G = '0001', '0021', 0x8000
FIRST_ONES = 4
REASONS = {
    1: 'wrong form (FMT_ERR)', 2: 'server failure (SRV_ERR)', 3: 'no such name (NAM_ERR)', 4: 'not supported (IMP_ERR)',
    5: 'refused by policy (RFS_ERR)', 6: 'owned by another node (ACT_ERR)', 7: 'in conflict (CFT_ERR)',
}
# What packets of port 137 say: R, OPCODE and RCODE of the flag word, its RD and RA, and TYPE of the first question or record. The first row
# that fits says it (RFC 1002 sections 4.2.2 to 4.2.18).
SERVICE = (
    ('- 0 .* 0021', 'asks for the node status of {name}'),
    ('- 0 .*', 'asks for {name}'),
    ('- 5 .* RD.*', 'claims {holder}{time}'),
    ('- 5 .*', 'overwrites {holder}{time}'),
    ('- 6 .*', 'releases {holder}'),
    ('- [89] .*', 'refreshes {holder}{time}'),
    ('- 15 .*', 'claims as one of several addresses {holder}{time}'),
    ('- .*', 'makes another request about {name}, operation {operation}'),
    ('R 0 0 .* 0002', 'answers: {name} is known to {server} at {addresses}'),
    ('R 0 0 .* 0021', 'answers: {name} has {nodes}{unit}'),
    ('R 0 0 .*', 'answers: {name} is{group} at {addresses}'),
    ('R 0 .*', 'answers: {name} is not found: {reason}'),
    ('R 5 0 RD .*', 'asks to challenge {name} at {addresses}'),
    ('R 5 7 .*', 'conflict about {name}'),
    ('R (5|8|9|15) 0 .*', 'grants {holder}{time}'),
    ('R (5|8|9|15) .*', 'refuses {name}: {reason}'),
    ('R 6 0 .*', 'grants the release of {name}'),
    ('R 6 .*', 'refuses the release of {name}: {reason}'),
    ('R 7 .*', 'asks to wait for {name}{time}'),
    ('R .*', 'makes another response about {name}, operation {operation}'),
)
ERRORS = {'82': 'no such destination name', '83': 'source name of a wrong form', '84': 'destination name of a wrong form'}
REFUSALS = {
    '80': 'not listening on called name', '81': 'not listening for calling name', '82': 'called name not present',
    '83': 'called name present, but insufficient resources', '8f': 'unspecified error',
}
# What packets of the other ports say, by their kinds.
OTHERS = {
    **{kind: f'{words}datagram from {{source}} to {{destination}}, {{size}}{{extent}}'
       for kind, words in (('unique', ''), ('group', 'group '), ('broadcast', 'broadcast '))},
    'error': 'error: {reason}', 'find': 'asks whether datagrams are relayed to {destination}',
    'found': 'answers: datagrams are relayed to {destination}', 'missing': 'answers: no datagrams are relayed to {destination}',
    'message': 'sends {size}', 'request': 'calls {called} as {calling}', 'positive': 'accepts', 'negative': 'refuses: {reason}',
    'retarget': 'sends the caller to {address}, port {to_port}', 'keepalive': 'keeps the session alive',
}


def said(port, payload):
    """What `nbt show --brief` says of a payload that came to a port."""
    fields = shown(port, payload)
    if 'refused' in fields:
        return refused(fields['refused'], fields.get('at'))
    if 'more' in fields:
        return f'begins a packet that lacks {sized(fields["more"])}'
    left = len(payload) - fields['used']
    return (service if port == 137 else other)(fields) + (f', {sized(left)} follow{"s" if left == 1 else ""}' if left else '')


def refused(fault, place):
    """A payload that begins with no packet."""
    if place is None:
        return f'refused: {fault}'
    words = fault.removesuffix(f' {place}')
    return f'refused: {words}, at byte {place}{" of the name" if words.endswith(": not netbios") else ""}'


def sized(count):
    """So many bytes."""
    return f'{count} byte' + ('' if count == 1 else 's')


def service(fields):
    """A packet of port 137."""
    records = fields['answers'] + fields['authorities'] + fields['additional']
    first = (fields['questions'] + records or [{'name': 'no name', 'type': None}])[0]
    of_records = lambda key: [it[key] for it in records if key in it]
    nodes = [it['name'] for it in sum(of_records('names'), [])]
    listed = nodes if first['type'] == NBSTAT else sum(map(addresses_of, records), [])
    flags = parts_of(records, 'flags')
    is_group = bool(flags) and int(flags[0], 16) & G
    addresses = ', '.join(listed[:FIRST_ONES]) or 'no address'
    if len(listed) > FIRST_ONES:
        addresses += f' and {len(listed) - FIRST_ONES} more'
    word = int(fields['word'], 16)
    operation, outcome = word >> 11 & 15, word & 15
    bits = ''.join(it for it in ('RD', 'RA') if it in fields['flags'])
    told = f'{"R" if word & 0x8000 else "-"} {operation} {outcome} {bits} {first["type"]}'
    return next(phrase for pattern, phrase in SERVICE if re.fullmatch(pattern, told)).format(
        name=first['name'], operation=operation, reason=REASONS.get(outcome, 'unknown error'), addresses=addresses,
        group=' a group' if is_group else '', holder=f'{first["name"]}{" as a group" if is_group else ""} for {addresses}',
        time=f', for {records[0]["ttl"]} s' if records else '', server=(of_records('domain') or ['no name'])[0],
        nodes=f'{len(nodes)} names: {addresses}' if nodes else 'no names', unit=''.join(f', unit {it}' for it in of_records('unit')[:1]))


def addresses_of(record):
    """The addresses that a record has."""
    if record['type'] == A and len(record.get('data', '')) == 8:
        return ['.'.join(str(byte) for byte in bytes.fromhex(record['data']))]
    return parts_of([record], 'address')


def parts_of(records, key):
    """What the parts of records have by this key."""
    return [it[key] for record in records for parts in record.values() if isinstance(parts, list) for it in parts if key in it]


def other(fields):
    """A packet of port 138 or 139."""
    offset, code = fields.get('offset'), fields.get('code')
    goes_on = int(fields.get('flags', '0'), 16) & MORE
    extent = f' at offset {offset}{" of one that goes on" if goes_on else ", the last"}' if goes_on or offset else ''
    reason = f'{(ERRORS if fields["kind"] == "error" else REFUSALS).get(code, "unknown code")} ({code})'
    return OTHERS[fields['kind']].format(**fields, size=sized(len(fields.get('data', '')) // 2), extent=extent, reason=reason)
