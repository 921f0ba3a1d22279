"""What the crates have of the numbers of nbt.h."""
import re

from .header import TOP

CONSTANT = re.compile(r'const (\w+)(?:: \w+)? = (\w+(?: \+ \w+)*);')
# A row of words: the status of a fault in a role.
IN_ROLE = re.compile(r'\(\s*(\w+?)(?:_TEXT)? \+ ((?:NAME_|TABLE_)?(\w+)),\s*"')
# By enumeration the files with its constants. Those that have other names there stand below.
FILES = {'status': 'nb_calls/src/statuses.rt', 'line_kind': 'nb_calls/src/showing.rt', 'outcome': 'nb_calls/src/taken.rt', 'record_type': 'nb_service/src/kinds.rt',
         'datagram_flag': 'nb_datagram/src/limits.rt', 'datagram_type': 'nb_datagram/src/limits.rt', 'word': 'nb_service/src/flags.rt',
         'name_flag': 'nb_service/src/flags.rt', 'operation': 'nb_text/src/words.rt', 'result_code': 'nb_text/src/words.rt'}
NAMES = {'UNIQUE': 'DIRECT_UNIQUE', 'GROUP': 'DIRECT_GROUP', 'ERROR': 'ERROR_TYPE', 'FIND': 'QUERY_REQUEST', 'FOUND': 'POSITIVE_RESPONSE',
         'MISSING': 'NEGATIVE_RESPONSE'}
# Those that are arms of a `match`, whose default has the other.
ARMS = {'session_type': ('nb_session/src/packet.rt', r'Kind::(?P<name>\w+) => (?P<number>0x\w+),'),
        'section': ('nb_calls/src/service_reading.rt', r'Section::(?P<name>\w+)\) => (?P<number>\d)'),
        'request': ('nb_calls/src/service.rt', r'(?P<number>\d) => (?P<name>\w+?)(?:_request)?\(alloc')}
LIMITS = {'FIRST_ITEM': ('nb_service/src/limits.rt', 'HEADER_LENGTH'), 'MOST_LINE': ('nb_capture/src/limits.rt', 'MAX_LINE'), 'MOST_DATAGRAM': ('nb_datagram/src/limits.rt', 'MAX_LENGTH'),
          'MOST_BODY': ('nb_session/src/limits.rt', 'MAX_MESSAGE'), 'INPUT': ('nb_streams/src/limits.rt', 'MAX_INPUT'),
          'MOST_NAMES': ('nb_member/src/limits.rt', 'MAX_NAMES'), 'KEPT_FOR': ('nb_member/src/limits.rt', 'FRAGMENT_TIMEOUT'),
          'TAKE_ROOM': ('nb_calls/src/taken.rt', 'TAKE_ROOM'), 'MOST_KEYS': ('nbt_usage/src/limits.rt', 'MOST_KEYS'),
          'KEYS': ('nbt_usage/src/limits.rt', 'KEYS')}


def text_of(path):
    return (TOP / 'crates' / path).read_text(encoding='utf-8')


def constants(path):
    """The constants of a file that are numbers, or sums of such and of constants before them."""
    found = {}
    for name, parts in CONSTANT.findall(text_of(path)):
        found[name] = sum(found[it] if it in found else int(it, 0) for it in parts.split(' + '))
    for role, fault, short in IN_ROLE.findall(text_of(path)):
        found[f'{role}_{short}'] = found[f'{role}_TEXT' if fault.endswith('_TEXT') else role] + found[fault]
    return found


def numbers(header):
    """A name of nbt.h, its number, and that which the crates have; of one that they have nowhere None."""
    for enum, path in FILES.items():
        found = constants(path)
        for each in header.enums[enum]:
            if each.name not in ('R', 'OPCODE', 'NM_FLAGS', 'RCODE', 'ONT'):
                yield f'{enum} {each.name}', each.number, found.get(NAMES.get(each.name, each.name))
    for enum, (path, pattern) in ARMS.items():
        found = {it['name'].upper(): int(it['number'], 0) for it in re.finditer(pattern, text_of(path))}
        for each in header.enums[enum]:
            if each.name not in ('QUESTION', 'RELEASE'):
                yield f'{enum} {each.name}', each.number, found.get(each.name)
    for name, (path, constant) in LIMITS.items():
        yield name, header.limits[name], constants(path).get(constant)
