"""The lines of `nbt show` (docs/FORMATS.md): the text of the members that its objects have."""
from .objects import SECTIONS, front_of, shown
from .rdata import LINES

LEADS = dict(zip(SECTIONS, ('question', 'answer', 'authority', 'additional')))


def lines_of(port, payload):
    """What is said of a payload that came to a port: a line, and those of its parts."""
    members = shown(port, payload)
    if 'refused' in members:
        return [f'refused {members["refused"]}']
    if 'more' in members:
        return [f'more {members["more"]}']
    return [words_of(members), *parts_of(members)]


def front_lines(port, payload):
    """The lines that `--partial` adds."""
    front = front_of(port, payload)
    return [f'  {words_of(front)}', *parts_of(front)] if front else []


def parts_of(members):
    """The lines of the questions and records of a packet."""
    return [line for section in SECTIONS for item in members.get(section, ()) for line in item_lines(LEADS[section], item)]


def item_lines(lead, item):
    """The line of a question or a record, and those of its parts."""
    return [f'  {lead} {words_of(item)}', *(f'    {word}{line}' for part, word in LINES.items() for line in part_lines(item.get(part, [])))]


def part_lines(part):
    """What stands behind the word of each line of a part: there are several, or it is one value."""
    return [f' {words_of(it)}' for it in part] if isinstance(part, list) else [f'={part}']


def words_of(members):
    """The members of a packet or a part of one in a line: a name or a kind as it is, and all else after what it is."""
    words = []
    for name, value in members.items():
        if name in ('kind', 'name'):
            words.append(value)
        elif name not in (*SECTIONS, *LINES):
            words.append(f'{"port" if name == "to_port" else name}={text_in(value)}')
    return ' '.join(words)


def text_in(value):
    """A member in text: data that is empty has a word, and so has an empty set."""
    if isinstance(value, list):
        return '+'.join(value) or 'none'
    return 'empty' if value == '' else str(value)
