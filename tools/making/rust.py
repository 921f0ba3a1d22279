"""The numbers, structures and calls of nbt.h for the crate for Rust."""
import re

from .header import ALIKE, MADE, camel, in_lines, plain

# By its module and its name: of which enumeration a type is, which of the members it has, what it is, what serde calls its members, and what
# a number is that none has, which may get a name then.
IN_RUST = {
    ('service', 'Operation'): ('operation', (), '', 'snake_case', 'number'),
    ('service', 'ResultCode'): ('result_code', (), '', '', 'number'),
    ('service', 'NodeType'): ('node_type', (), '', '', ''),
    ('service', 'Section'): ('section', ('ANSWER', 'AUTHORITY', 'ADDITIONAL'), 'Where a record stands.', 'lowercase', ''),
    ('datagram', 'Kind'): ('datagram_type', ('UNIQUE', 'GROUP', 'BROADCAST'), "What MSG_TYPE says of a fragment's datagram.", 'lowercase', 'fault'),
    ('datagram', 'Query'): ('datagram_type', ('FIND', 'FOUND', 'MISSING'), 'What MSG_TYPE says of a query packet.', 'lowercase', 'fault'),
    ('session', 'Kind'): ('session_type', (), '', 'lowercase', 'fault'),
}
MISSING = {'': (), 'number': ('/// The one with this number; the number itself where none has it.', '|number| -> u8 { number }'),
           'fault': ('/// The one with this number; `UnknownType` where none has it.', '|number| -> crate::Error { crate::Error::UNKNOWN_TYPE }')}
RUST_NAMES = {'FMT_ERR': 'FormatError', 'SRV_ERR': 'ServerFailure', 'NAM_ERR': 'NameError', 'IMP_ERR': 'NotImplemented', 'RFS_ERR': 'Refused',
              'ACT_ERR': 'ActiveError', 'CFT_ERR': 'Conflict', 'KEEPALIVE': 'KeepAlive'}
RUST_WORDS = {'OTHER_REFRESH': 'refresh'}
RUST_SAYS = {'NO_MEMORY': 'memory ran out', 'UNKNOWN_STATUS': "a number that this version of the crate doesn't know: [`crate::Error::number`] keeps it"}
RUST_TYPES = {'uint8_t': 'u8', 'uint16_t': 'u16', 'uint32_t': 'u32', 'uint64_t': 'u64', 'size_t': 'usize', 'void': 'c_void'}
# No copy of a station is good after a call that was given another.
HANDLE = """/// struct nbt_station.
#[repr(C)]
pub struct Handle {
    pub at: *mut c_void,
}"""
SERDE = '#[cfg_attr(feature = "serde", serde(%s))]'
# Numbers that are no type's, by the module in which they stand, and how wide they are.
RUST_NUMBERS = {'status': ('', 'u32'), 'line_kind': ('', 'u32'), 'request': ('', 'u32'), 'outcome': ('', 'u32'), 'record_type': ('record_type', 'u16'),
                'word': ('word', 'u16'), 'name_flag': ('name_flag', 'u16'), 'datagram_flag': ('datagram_flag', 'u8')}


def sentence(said):
    """What is said of a member, as one line of Rust's. A limit is no status."""
    said = re.sub(r'NBT_MOST_[A-Z_]+', lambda limit: f'`{limit[0]}`', said)
    said = re.sub(r'(?<!`)NBT_([A-Z_]+)', lambda name: f'[`Status::{camel(name[1])}`]', said).replace('*at', 'the place')
    return said[:1].upper() + said[1:] + '.' * (not said.endswith('.'))


def rust_name(name):
    return RUST_NAMES.get(name, camel(name))


def rust_status(each, statuses):
    """A status, and what is said of it: of one that is as another of another name, that."""
    group, said = each.group.removesuffix('.'), RUST_SAYS.get(each.name, each.said)
    alike = ALIKE.search(group)
    if alike:
        other = next((it.name for it in statuses if it.number == int(alike[1]) + each.number % 10), 'no other')
        group = f"{group.partition('; as those')[0]}: as NBT_{other}"
    said = '; '.join(filter(None, (group, said))) if alike else ': '.join(filter(None, (group, said)))
    return f'        /// {sentence(said)}\n        {rust_name(each.name)} {each.name} = {each.digits};'


def rust_statuses(header):
    told = [it for it in header.enums['status'] if it.name not in ('DONE', 'NO_ROOM')]
    placed = in_lines([f'{it}' + ' |' * (it != max(header.placed)) for it in sorted(header.placed)], '            ', 120)
    return f"""statuses! {{
    /// Why a call did nothing. Each is a number of `enum nbt_status`, which stands for one thing in all versions; its text
    /// is the library's words, as in `bad text`.
    Status {{
{chr(10).join(rust_status(it, told) for it in told)}
    }}
}}

impl Status {{
    /// Whether it comes with a place, in bytes of the input.
    pub fn has_place(self) -> bool {{
        matches!(self as u32,
{placed})
    }}
}}"""


def rust_enum(header, place, enum, names, says, case, missing):
    """A type of an enumeration, with its numbers and words."""
    title = says or header.titles[enum].partition('. ')[0].removesuffix('.') + '.'
    lines = [f'/// {title}', *['#[non_exhaustive]'] * (missing == 'number'), *[SERDE % f'rename_all = "{case}"'] * bool(case), f'{place[1]} {{']
    for it in header.enums[enum]:
        if not names or it.name in names:
            word = word_of(enum, it.name)
            rename = [] if case or enum != 'result_code' else [SERDE % f'rename = "{word}"']
            lines += [f'    {each}' for each in (f'/// {sentence(it.said)}', *rename, f'{rust_name(it.name)} = {it.digits}, "{word}";')]
    return '\n'.join(['numbered! {', *(f'    {each}' for each in (*lines, '}', *MISSING[missing])), '}'])


def word_of(enum, name):
    """The word of a number, as the library has it."""
    if enum == 'node_type' or name.endswith('_ERR'):
        return name
    return RUST_WORDS.get(name, name.lower())


def rust_constants(module, width, numbers, most):
    """Numbers of one width, in a module if it has a name."""
    lines = f'constants! {{ {width}:\n' + in_lines(numbers, '    ', most) + '\n}'
    return rust_module(module, [f'crate::codes::{lines}']) if module else lines


def rust_module(name, parts):
    inner = '\n\n'.join(parts)
    return f'pub mod {name} {{\n' + re.sub(r'^(?=.)', '    ', inner, flags=re.MULTILINE) + '\n}'


def rust_structure(header, name, fields):
    """The row of a structure as C has it."""
    rows = []
    for kind, _, field, length in fields:
        field, kind = {'type': 'kind'}.get(field, field), kind.removeprefix('nbt_')
        one = rust_structure_name(kind) if kind in header.structures else RUST_TYPES[kind]
        rows.append(f'{field}: [{one}; {length}],' if length else f'{field}: {one},')
    return f'    /// struct nbt_{name}.\n    {rust_structure_name(name)} {{\n' + in_lines(rows, '        ', 120) + '\n    }'


def rust_structure_name(name):
    return {'station': 'Handle'}.get(name, 'Found' + camel(name))


def rust_parameter(text):
    """A parameter of a call."""
    words = text.replace('*', ' * ').replace('struct nbt_', '').split()
    name, kinds = words[-1], [it for it in words[:-1] if it not in ('*', 'const')]
    stars, kind = words.count('*'), kinds[0]
    found = RUST_TYPES.get(kind) or ('bool' if kind == 'bool' else rust_structure_name(kind))
    pointer = ('*const ' if 'const' in words else '*mut ') if stars else ''
    return f"{'kind' if name == 'type' else name}: {'*mut ' * (stars - 1)}{pointer}{found}"


def rust_call(answer, name, parameters):
    given = ', '.join(rust_parameter(it.strip()) for it in plain(parameters).split(','))
    return f'    pub fn {name}({given})' + ' -> u32' * (answer != 'void') + ';'


def rust_file(header):
    parts = [f"""//! The numbers, structures and calls of include/nbt.h. {MADE}
//!
//! No pointer may be null, each has to be that of as many bytes as its length says, and what a call writes may overlap
//! nothing else of that call. Slices, and references to values apart, are such pointers. The library keeps none of them.

use std::ffi::c_void;

use crate::codes::{{constants, statuses, structures}};""", rust_statuses(header)]
    for enum, (module, width) in RUST_NUMBERS.items():
        # Those of records are handed out.
        numbers = [f'/// {sentence(it.said)}\n    ' * (enum == 'record_type') + f'{it.name} = {it.digits};' for it in header.enums[enum]
                   if enum != 'status' or it.name in ('DONE', 'NO_ROOM')]
        parts.append(rust_constants(module, width, numbers, 4 if enum == 'record_type' else 120))
    parts.append(rust_constants('', 'u32', [f'{name} = {number:_};' for name, number in header.limits.items()], 120))
    for module in dict.fromkeys(it for it, _ in IN_RUST):
        types = [rust_enum(header, place, *said) for place, said in IN_RUST.items() if place[0] == module]
        parts.append(rust_module(module, ['use crate::codes::numbered;', *types]))
    parts.append('structures! {\n' + '\n'.join(rust_structure(header, *each) for each in header.structures.items() if each[0] != 'station') + '\n}')
    parts.append(HANDLE)
    parts.append('extern "C" {\n' + '\n'.join(rust_call(*each) for each in header.calls) + '\n}')
    return '\n\n'.join(parts) + '\n'
