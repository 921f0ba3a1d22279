#!/usr/bin/env python3
"""The rows of cases.txt, which says how they are written, in a plain form: a call, what it is given, and its answer, of which bytes are
digits, `empty`, or a name that a line `let NAME = BYTES` gave them.

Usage: rows.py <ROWS, in this form, prints what the packages for other languages are asked, each row before a tab and its answer: without names,
and of the calls that packages have as calls. The payload of a call that reads a packet stands after its port.
"""
import pathlib
import re
import sys

sys.dont_write_bytecode = True
sys.path.insert(1, f'{sys.path[0]}/..')
from model.captures import digits
from model.values import FAULTS, NAME_FAULTS, ROLES, told

FOLDER = pathlib.Path(__file__).parent
WORD = re.compile(r"(?:'[^']*'|[^' ])+")
PART = re.compile(r"(?:'([^']*)'|([A-Z]\w*)|([0-9a-f]*))(?:\*(\d+))?(?:\+|$)")
CALL = re.compile(r'^ROW\((\w+), \w+, \d+, \w+, \((.*)\)\)$', re.MULTILINE)
# What each call is given.
WORDS = {call: re.findall(r'\b(IN|[NLB])\(|\b(?:STATION|MADE)\b', words) for call, words in CALL.findall((FOLDER / 'calls.def').read_text('ascii'))}
READS = {'service_read': 137, 'datagram_read': 138, 'session_read': 139}
# What packages have within other calls, and what they have no word for.
WITHIN = re.compile(r'version|service_(?!read|request|response)\w+|datagram_front|session_(front|names|retarget)')
# What statuses say that are no fault of a name, a text, a packet or a table.
STATUSES = {0: 'done', 1: 'no room', 2: 'memory', 25: 'name: trailing bytes', 57: 'no item', 58: 'other rdata',
            59: 'no part', 60: 'unknown request', 61: 'zero piece', 62: 'data too long', 90: 'misplaced first', 91: 'too long',
            92: 'full source', 93: 'full', 100: 'name: present', 101: 'too many names', 102: 'no station', 110: 'other type',
            120: 'bad line', 255: 'unknown status'}
TEXT_ROLES, TEXT_FAULTS = {'': 0, 'source': 2, 'destination': 4}, {'bad text': 10, 'text too long': 11}
TABLE_ROLES = {'table': 0, 'second table': 10}
TABLE_FAULTS = {'bad magic': 70, 'truncated': 71, 'not canonical': 72, 'too long': 73, 'full source': 74, 'full': 75}
UNASKED = re.compile(r'status_text ([0-9]|254) |.*! (no station|unknown request)$')


def bytes_of(word, names):
    """The bytes that a word stands for, where these names have bytes."""
    found = (part.groups() for part in PART.finditer(word))
    return b''.join((text.encode() if text is not None else names[name] if name else bytes.fromhex(digits)) * int(times or 1)
                    for text, name, digits, times in found)


def plain(kind, word, names):
    """A word that a call is given."""
    return digits(bytes_of(word, names)) if kind == 'IN' else str(int(word, 0)) if kind else word


def answer_of(mark, words, names):
    """Bytes, or words of which some stand for others."""
    if mark == '=':
        return [mark, digits(bytes_of(words[0], names))]
    texts = [names[word].decode() if word in names else word for word in words]
    return [mark, *(re.sub(r'^([0-9a-f]+)\*(\d+)$', lambda it: it[1] * int(it[2]), text) for text in texts)]


def status_rows():
    """What statuses say, each fault with the roles of what may have it."""
    found = [*STATUSES.items(), *((number, text) for text, number in FAULTS.items())]
    for roles, faults in ((ROLES, NAME_FAULTS), (TEXT_ROLES, TEXT_FAULTS), (TABLE_ROLES, TABLE_FAULTS)):
        found += [(plus + number, f'{role}: {fault}'.removeprefix(': ')) for role, plus in roles.items() for fault, number in faults.items()]
    return [('status_text', [str(number)], ['=', text.encode().hex()]) for number, text in found]


def read_cases():
    """The names of cases.txt with their bytes, the rows, each a call, what it is given, and the words of its answer, the first of them its mark,
    and the payloads with their ports."""
    names, rows, payloads = {}, status_rows(), []
    for line in (FOLDER / 'cases.txt').read_text('ascii').splitlines():
        call, *words = WORD.findall(line) or ['#']
        if call == 'let':
            names[words[0]] = bytes_of(words[2], names)
        elif call in ('137', '138', '139', 'table'):
            payloads.append((call, bytes_of(words[0], names)))
        elif call != '#':
            given = [plain(*it, names) for it in zip(WORDS[call], words)]
            mark, *answer = words[len(given):]
            rows.append((call, given, answer_of(mark, answer, names)))
    return names, rows, payloads


def asked(lines):
    """What the packages are asked, and what they should answer."""
    names = {}
    for line in lines:
        call, *words = line.split()
        if call == 'let':
            names[words[0]] = words[2]
        if call not in WORDS or WITHIN.fullmatch(call):
            continue
        given = [names.get(word, word) if kind == 'IN' else str(int(word, 0)) if kind else word for kind, word in zip(WORDS[call], words)]
        answer = words[len(given):]
        if call in READS:
            call, answer = str(READS[call]), [told(READS[call], given[0])]
        elif call in ('show', 'json', 'brief'):
            given[0] = str(int(given[0]) & 0xffff)
        if ':' in answer:
            del answer[:answer.index(':')]
        question, said = ' '.join([call, *given]), ' '.join(answer)
        if said and (said != ':' or call == 'station_create') and not UNASKED.match(f'{question} {said}'):
            yield question, said


if __name__ == '__main__':
    for row in asked(sys.stdin):
        print(*row, sep='\t')
