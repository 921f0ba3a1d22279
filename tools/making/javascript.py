"""The numbers and words of nbt.h for the package for JavaScript: tools/targets puts them into nbt.mjs and nbt.d.mts."""
from .header import in_lines

MADE = '/** Of include/nbt.h, by tools/lists.py --made. */'

# What a module has to have beside the calls of nbt.h.
HEAP = 'heap_give_back', 'heap_limit', 'heap_take'
LISTS = {'LINES': ('line_kind', str.lower), 'OUTCOMES': ('outcome', str), 'SECTIONS': ('section', str.lower),
         'REQUESTS': ('request', lambda name: name[0].lower() + name.title().replace('_', '')[1:])}
NUMBERS = {'Status': 'status', 'TYPE': 'record_type', 'SESSION': 'session_type'}
LIMITS = 'FIRST_ITEM', 'KEYS', 'MOST_KEYS', 'TAKE_ROOM'
TYPES = {'Section': 'SECTIONS', 'RequestKind': 'REQUESTS', 'TakenOutcome': 'OUTCOMES'}


def words_of(header, name):
    """The words of a list, each at the place of its number."""
    enum, spelled = LISTS[name]
    words = {each.number: spelled(each.name) for each in header.enums[enum]}
    return [f"'{words.get(number, '')}'" for number in range(max(words) + 1)]


def module_file(header):
    lines = [MADE]
    for name, enum in NUMBERS.items():
        numbers = in_lines([f'{each.name}: {each.digits},' for each in header.enums[enum]], '    ', 128)
        lines.append(f'export const {name} = Object.freeze({{\n{numbers}\n}});')
    lines += [f"export const {name} = [{', '.join(words_of(header, name))}];" for name in LISTS]
    lines.append('export const ' + ', '.join(f'{name} = {header.limits[name]:_}' for name in LIMITS) + ';')
    calls = sorted([*HEAP, *(name for _, name, _ in header.calls)])
    lines.append('/** What a module has to have. */\nexport const CALLS = [\n' + in_lines([f"'{name}'," for name in calls], '    ', 128) + '\n];')
    return '\n'.join(lines) + '\n'


def types_file(header):
    unions = {name: words_of(header, words) for name, words in TYPES.items()}
    unions['Section'] = unions['Section'][1:]
    said = {'Section': 'Where a record stands.', 'RequestKind': 'What a request asks for.', 'TakenOutcome': 'What became of a payload.'}
    return MADE + ''.join(f"\n/** {said[name]} */\nexport type {name} = {' | '.join(words)};" for name, words in unions.items()) + '\n'
