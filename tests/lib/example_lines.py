"""The lines of crates/nb_examples/examples as the program of nb_examples reads them: a call, its words, ` = ` and its answer.

What a file says once is written out here. `let NAME = BYTES` defines a word of the file: in later lines `{NAME}` is its
digits, `{NAME@48=c0}` has another byte at place 48, `{NAME:81}` is its first 81 bytes, `{NAME:81..}` those after them, and
`{NAME/7}` its bytes in pieces of 7, with spaces between. `each 0..82 LINE` is that line for each n from 0 to below 82: `{n}`,
`{82-n}` and `{4+n}` are numbers, and may be places, lengths and sizes. `{Key 10.0.0.5:138/0001}`, `{Name JOE<00>.A}`, and the same
name as a `{LentName ..}` or a `{DomainName ..}`, which may also be labels as `A.BC`, are what `Debug` prints. A brace before a space,
a quotation mark or a closing brace stands for itself, as in JSON.

In the words of a call letters in `'` are bytes too; in a capture, `;` in them is a line feed. A fragment for a table is
`ID:FLAGS:OFFSET:BYTES`, a group fragment of 10.0.0.5:138/ID from JOE<00> to FRED<20>, and may have after it what is otherwise:
`:kind=unique`, `:ip=10.0.0.6`, `:port=139`, `:from=ANN<00>`, `:to=FRED<20>.A`. A table's first number is how many keys it may
hold, or `8:2` where two of one address may be among them. A station is `NAMES/KEYS/LONGEST/ADDRESS`; what is left out from the
right on is 16 keys, 65,535 bytes, and 10.0.0.9:138; `<00..fd>` among its names is `<00>`, `<01>` and so on to `<fd>`.
"""
import pathlib
import re

FOLDER = pathlib.Path(__file__).resolve().parents[2] / 'crates' / 'nb_examples' / 'examples'
SUBJECTS = ('names', 'service', 'session', 'datagram', 'text', 'table', 'member', 'memory', 'quiet')
# Calls whose words end with a capture, and those whose first word is a station.
OF_CAPTURES = ('member.replay', 'member.within', 'member.commented', 'member.over', 'member.next', 'member.next_within')
OF_STATIONS = ('member.names', 'member.hears', 'member.take', 'member.run', 'member.two', *OF_CAPTURES[:4])
STATION = ('16', '65535', '10.0.0.9:138')
# A part of a word that has a long row of digits, which are written as runs.
LONG_DIGITS = re.compile(r'(?<![^ +])(?:[0-9a-f]{2}){33,}(?![^ +])')
# As many keys of one address as a table has of all.
ANY_SOURCE = '4294967295'


def word(data):
    """Bytes as a word: digits, and 07*99 for 16 or more equal bytes."""
    parts = re.finditer(rb'(.)\1{15,}|(?:(?!(.)\2{15}).)+', data, re.DOTALL)
    return '+'.join(f'{it[1].hex()}*{len(it[0])}' if it[1] else it[0].hex() for it in parts) or 'empty'


def bytes_of(text):
    """The bytes of parts joined by +: digits, letters in quotes or `empty`, each with *N after it."""
    whole = b''
    for part in text.split('+'):
        once, _, times = part.partition('*')
        piece = b'' if once == 'empty' else once[1:-1].encode() if once[0] == "'" else bytes.fromhex(once)
        whole += piece * int(times or 1)
    return whole


def number(text, n):
    """A number, or one that is made of n, as 72-n."""
    whole, sign, of_n = re.fullmatch(r'(\d*)([-+]?)(n?)', text).groups()
    return int(whole or 0) + (n * (-1 if sign == '-' else 1) if of_n else 0)


def spelled(labels):
    """Labels as packets spell them, as a word."""
    return word(b''.join(bytes([len(it)]) + it.encode() for it in labels) + b'\0')


def printed(kind, text):
    """A key, or a name without escapes, as `Debug` prints it."""
    if kind == 'Key':
        address, port, identifier = re.split('[:/]', text)
        return f'Key {{ ip: [{bytes(map(int, address.split("."))).hex()}], port: {port}, id: {int(identifier, 16)} }}'
    first, *scope = filter(None, text.split('.'))
    name = re.fullmatch(r'(\w*)<(\w\w)>', first)
    sixteen = name and name[1].encode().ljust(15) + bytes.fromhex(name[2])
    if kind == 'DomainName':
        letters = sixteen and ''.join(chr(ord('A') + int(digit, 16)) for digit in sixteen.hex())
        return f'DomainName {{ bytes: [{spelled([letters or first, *scope])}] }}'
    inner = '[%s]' if kind == 'LentName' else 'Scope { domain: DomainName { bytes: [%s] } }'
    return f'{kind} {{ bytes: [{word(sixteen)}], scope: {inner % spelled(scope)} }}'


def inside(text, words, n):
    """What stands in braces."""
    if ' ' in text:
        return printed(*text.split(' '))
    if n is not None and re.fullmatch(r'n|\d+[-+]n', text):
        return str(number(text, n))
    name, changes, length, size = re.fullmatch(r'(\w+)((?:@[^@:/]+)*)(?::([^/]+))?(?:/(.+))?', text).groups()
    data = bytearray(words[name])
    for change in changes.split('@')[1:]:
        place, byte = change.split('=')
        data[number(place, n)] = int(byte, 16)
    if length and length.endswith('..'):
        data = data[number(length[:-2], n) :]
    elif length:
        data = data[: number(length, n)]
    if size:
        size = number(size, n)
        return ' '.join(word(bytes(data[at : at + size])) for at in range(0, len(data), size))
    return data.hex() or 'empty'


def written_out(text, words, n=None):
    """A text with what stands in its braces."""
    return re.sub(r'\{([^ "}][^}]*)\}', lambda found: inside(found[1], words, n), text)


def fragment(step):
    """A fragment for a table, with all its parts."""
    identifier, flags, offset, data, *others = step.split(':')
    parts = {'kind': 'group', 'ip': '10.0.0.5', 'port': '138', 'from': 'JOE<00>', 'to': 'FRED<20>'}
    parts.update(other.split('=') for other in others)
    key = f'{parts["ip"]}:{parts["port"]}/{identifier}'
    return ','.join((parts['kind'], flags, key, offset, parts['from'], parts['to'], data))


def of_table(part):
    """The words of a table, after a key or none, with its limit for one address, and with whole fragments."""
    part = re.sub(r'^((?:\S+/\S+ )?\d+)(?= \d+(?: |$))', rf'\1:{ANY_SOURCE}', part)
    return ' '.join(fragment(it) if re.match(r'[0-9a-f]+:[0-9a-f]{2}:\d+:', it) else it for it in part.split(' '))


def all_between(found):
    """The names without letters whose last bytes are these and those between them."""
    first, last = (int(it, 16) for it in found.groups())
    return ','.join(f'<{it:02x}>' for it in range(first, last + 1))


def of_station(words):
    """The words after a station, which has all its parts."""
    station, *others = words.split(' ')
    names, *limits = station.split('/')
    names = re.sub(r'<(\w\w)\.\.(\w\w)>', all_between, names)
    limits += STATION[len(limits) :]
    if ':' not in limits[0]:
        limits[0] += f':{ANY_SOURCE}'
    return ' '.join(['/'.join((names, *limits)), *others])


def asked(call, words):
    """The words of a call as the program reads them."""
    if call == 'names.from_text':
        return words
    if call in OF_CAPTURES:
        words = re.sub(r"'[^']*'", lambda found: found[0].replace(';', '\n'), words)
    words = re.sub(r"'([^']*)'", lambda found: found[1].encode().hex(), words)
    if call == 'table.write_saved':
        *device, table = words.split(' ', 3)
        words = ' '.join((*device, of_table(table)))
    elif call.startswith('table.') and call != 'table.reassembled':
        words = ' | '.join(map(of_table, words.split(' | ')))
    if call in OF_STATIONS:
        words = of_station(words)
    if call == 'member.both':
        one, others = words.split(' ', 1)
        words = f'{of_station(one)} {of_station(others)}'
    return LONG_DIGITS.sub(lambda found: word(bytes.fromhex(found[0])), words)


def example(line):
    """A line as the program reads it, in whose answer a list of no bytes is empty."""
    question, _, answer = line.replace('[empty]', '[]').partition(' = ')
    call, _, words = question.partition(' ')
    return f'{call} {asked(call, words)} = {answer}' if words else f'{question} = {answer}'


def define(line, words):
    """Adds the word that a line defines."""
    name, text = line.removeprefix('let ').split(' = ', 1)
    words[name] = bytes_of(written_out(text, words))


def written_lines(subject):
    """The lines of a file as they are written."""
    return (FOLDER / f'{subject}.txt').read_text().splitlines()


def lines_of(subject, words):
    """The lines of a file, whose words are added to those."""
    for line in written_lines(subject):
        if line.startswith('let '):
            define(line, words)
        elif line.startswith('each '):
            _, places, repeated = line.split(' ', 2)
            first, end = map(int, places.split('..'))
            yield from (example(written_out(repeated, words, n)) for n in range(first, end))
        elif line and not line.startswith('#'):
            yield example(written_out(line, words))


def all_lines():
    """The lines of all files, each once: some are said in several, or by several loops."""
    return dict.fromkeys(line for subject in SUBJECTS for line in lines_of(subject, {}))


def definitions():
    """The bytes of each word that a file defines."""
    for subject in SUBJECTS:
        words = {}
        for line in written_lines(subject):
            if line.startswith('let '):
                define(line, words)
        yield from words.values()
