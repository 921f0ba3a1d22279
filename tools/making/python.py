"""The numbers and structures of nbt.h for the package for Python, and its limits and some of its numbers for the tools."""
from .header import CONSTANTS, MADE, camel, in_lines

IN_PYTHON = {'status': 'Status', 'line_kind': 'LineKind', 'operation': 'Operation', 'result_code': 'ResultCode', 'node_type': 'NodeType',
             'datagram_type': 'DatagramType', 'session_type': 'SessionType', 'request': 'Request', 'outcome': 'Outcome', 'record_type': 'RecordType',
             'word': 'HeaderFlag', 'name_flag': 'NameFlag', 'datagram_flag': 'DatagramFlag'}
PYTHON_SAYS = {'status': 'Why a call did nothing; include/nbt.h says when each comes.', 'request': 'What a request asks for.'}
PACKED = 'service_header', 'service_entry'
# The numbers of packets that the tools read.
READ = {'record_type': ('NBSTAT',), 'name_flag': ('G',), 'datagram_flag': ('MORE', 'FIRST')}
WORDS, QUERIES = ('UNIQUE', 'GROUP', 'BROADCAST'), ('FIND', 'FOUND', 'MISSING')
LETTERS = {'uint8_t': 'B', 'uint16_t': 'H', 'uint32_t': 'I', 'uint64_t': 'Q', 'size_t': 'N'}


def layout(header, name):
    """The fields of a structure for Python's struct."""
    letters = ''
    for kind, _, _, length in header.structures[name]:
        inner = header.structures.get(kind.removeprefix('nbt_'))
        letters += layout(header, kind.removeprefix('nbt_')) if inner else f'{length}s' if length else LETTERS[kind]
    return letters + '0N' * (name in ('service_item', 'service_entry'))


def python_type(kind, pointer, length):
    found = 'c_void_p' if pointer else f'c_{kind.removesuffix("_t")}' + '_t' * (kind == 'size_t')
    return f'{found} * {length}' if length else found


def together(pairs):
    """Constants of one enumeration, in a line."""
    names, digits = zip(*pairs)
    return f"{', '.join(names)} = {', '.join(digits)}"


def python_structure(name, fields):
    """A structure as C has it."""
    lines = [f"('{field}', {python_type(kind, pointer, length)})," for kind, pointer, field, length in fields]
    return f'class {camel(name)}(Structure):\n    """struct nbt_{name}."""\n\n    _fields_ = [' + in_lines(lines, ' ' * 16, 140).strip().rstrip(',') + ']'


def python_file(header):
    parts = [f'"""The numbers and structures of include/nbt.h. {MADE}"""\nfrom __future__ import annotations\n\nimport enum\nimport struct\n'
             'from ctypes import Structure, c_size_t, c_uint8, c_uint16, c_uint32, c_uint64, c_void_p']
    for enum, name in IN_PYTHON.items():
        lines = [f'    {each.name} = {each.digits}' for each in header.enums[enum]]
        said = PYTHON_SAYS.get(enum) or header.titles[enum]
        parts.append('\n'.join([f'class {name}(enum.Int{"Flag" if name.endswith("Flag") else "Enum"}):', f'    """{said}"""', '', *lines]))
    numbers = in_lines([f'{it},' for it in sorted(header.placed)], '    ', 120)
    constants = [together((each.name, each.digits) for each in header.enums[enum]) for enum in CONSTANTS]
    limits = [f'{name} = {number:_}' for name, number in header.limits.items()]
    parts.append('\n'.join(['# The statuses that say where the fault stands.', f'PLACED = frozenset(Status(it) for it in (\n{numbers}\n))',
                            '# Numbers of packets, for calculations.', *constants, '# Limits.', *limits]))
    # Calls that are given a type fill in parts of RDATA.
    packed = {*PACKED, *(name.removeprefix('nbt_') for _, name, given in header.calls if given.startswith('uint16_t type, '))}
    for name, fields in header.structures.items():
        if name not in packed | {'service_item'}:
            parts.append(python_structure(name, fields))
    parts.append('# Structures that are many, as they lie.\n'
                 + '\n'.join(f"{name.upper()} = struct.Struct('@{layout(header, name)}')" for name in header.structures if name in packed))
    return '\n\n\n'.join(parts) + '\n'


def tools_file(header):
    lines = [f'{name} = {number:_}' for name, number in header.limits.items()]
    fragments = ', '.join(f"{it.digits}: '{it.name.lower()}'" for it in header.enums['datagram_type'] if it.name in WORDS)
    services = ', '.join(it.digits for it in header.enums['port'])
    numbers = [f'{it.name} = {it.digits}' for enum, names in READ.items() for it in header.enums[enum] if it.name in names]
    queries = ', '.join(it.digits for it in header.enums['datagram_type'] if it.name in QUERIES)
    types = ', '.join(it.digits for it in header.enums['session_type'])
    return '\n'.join([f'"""The version and the limits of include/nbt.h, and its numbers that the tools read. {MADE}"""', f"VERSION = '{header.version}'", *lines,
                      f'SERVICES = ({services})', '# Numbers of packets.', *numbers, '# MSG_TYPE of fragments in words, and of queries; TYPE of port 139.', f'FRAGMENTS = {{{fragments}}}', f'QUERIES = ({queries})', f'SESSION_TYPES = frozenset(({types}))']) + '\n'
