"""What include/nbt.h says: its enumerations, limits, structures and calls."""
import pathlib
import re
from dataclasses import dataclass

TOP = pathlib.Path(__file__).resolve().parent.parent.parent
HEADER = TOP / 'include' / 'nbt.h'
MADE = 'tools/lists.py --write makes this file.'
ENUM = re.compile(r'/\*((?:(?!\*/).)*)\*/\nenum nbt_(\w+) \{\n(.*?)\n\};|enum nbt_(\w+) \{\n(.*?)\n\};', re.DOTALL)
MEMBER = re.compile(r'^    NBT_(\w+) = (\w+),?(?: */\*((?:(?!\*/).)*)\*/)?|^    /\*((?:(?!\*/).)*)\*/', re.MULTILINE | re.DOTALL)
NUMBER = re.compile(r'^#define NBT_(\w+) (\d+)$', re.MULTILINE)
VERSION = re.compile('^#define NBT_VERSION "(.*)"$', re.MULTILINE)
STRUCTURE = re.compile(r'^struct nbt_(\w+) \{\n(.*?)\n\};', re.MULTILINE | re.DOTALL)
FIELD = re.compile(r'^    (?:struct )?(\w+) (\*?)(\w+)(?:\[(\d+)\])?;', re.MULTILINE)
CALL = re.compile(r'^(uint32_t|void) (nbt_\w+)\(([^)]*)\);', re.MULTILINE)
ALIKE = re.compile(r'as those of (\d+) to (\d+)')


@dataclass
class Member:
    """A number of an enumeration: its name without that of its enumeration, its digits as they stand, what is said of it, and, of a
    status, of all that it stands with."""

    name: str
    digits: str
    said: str
    group: str

    @property
    def number(self):
        return int(self.digits, 0)


def plain(comment):
    """A comment in one line."""
    return ' '.join(re.sub(r'\n\s*\*?', ' ', comment or '').split())


def members_of(body):
    """The members of an enumeration, without the words with which all their names begin."""
    found = []
    for block in body.split('\n\n'):
        group = ''
        for name, digits, said, title in MEMBER.findall(block):
            if title:
                group = plain(title)
            else:
                found.append(Member(name, digits, plain(said), group))
    return found


class Header:
    """What include/nbt.h says."""

    def __init__(self):
        text = HEADER.read_text(encoding='utf-8')
        self.limits = {name: int(number) for name, number in NUMBER.findall(text)}
        self.version = VERSION.search(text)[1]
        self.titles, self.enums = {}, {}
        for said, name, body, bare, of_bare in ENUM.findall(text):
            self.enums[name or bare], self.titles[name or bare] = members_of(body or of_bare), plain(said)
        for name, prefix in PREFIXES.items():
            for each in self.enums[name]:
                each.name = each.name.removeprefix(prefix)
        self.structures = {name: FIELD.findall(body) for name, body in STRUCTURE.findall(text)}
        self.calls = CALL.findall(text)
        self.placed = self.statuses_with_places()

    def statuses_with_places(self):
        """The numbers of those statuses of which the header says what `*at` is, themselves or by another one."""
        statuses = self.enums['status']
        placed = {each.number for each in statuses if '*at' in each.said}
        for each in statuses:
            alike = ALIKE.search(each.group)
            if alike and each.number % 10 + int(alike[1]) in placed:
                placed.add(each.number)
        return placed


# With what the names of an enumeration begin.
PREFIXES = {'status': '', 'port': 'PORT_', 'line_kind': '', 'section': 'SECTION_', 'record_type': 'TYPE_', 'word': 'WORD_', 'operation': 'OP_',
            'result_code': 'RCODE_', 'name_flag': 'FLAG_', 'node_type': 'NODE_', 'datagram_type': 'DATAGRAM_', 'datagram_flag': 'DATAGRAM_',
            'session_type': 'SESSION_', 'request': '', 'outcome': ''}
# Those whose numbers are constants of a language, and no type of their own.
CONSTANTS = 'record_type', 'word', 'name_flag', 'datagram_flag'


def camel(name):
    return ''.join(word.capitalize() for word in name.split('_'))


def in_lines(words, indent, width):
    """Words one after another, in lines of at most this width."""
    lines = ['']
    for word in words:
        if lines[-1] and len(indent) + len(lines[-1]) + 1 + len(word) > width:
            lines.append('')
        lines[-1] += ' ' * bool(lines[-1]) + word
    return '\n'.join(indent + line for line in lines)


