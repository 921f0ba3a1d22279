"""What a command line prints of an input by the model (tests/model), with `--json` and without, and how it ends: options, comments, malformed lines
and limits, from docs/FORMATS.md. For tests/program/beside_model.py and tests/fuzz.py."""
import functools
import getopt
import json
import re
from dataclasses import dataclass

from fuzz_inputs import OPTIONS
from model.building import built
from model.captures import LONGEST_LINE, comment_text, numbered, read_capture
from model.limits import INPUT, KEYS, MOST_KEYS, MOST_NAMES
from model.names import Refused, name_of_text, read_name, spelling_of, text_of
from model.objects import front_of, shown
from model.phrases import said
from model.reports import agrees, joined, listed, listed_text, report_text, reported, save
from model.tables import PER_SOURCE, Table
from model.text import front_lines, lines_of

COMMANDS = tuple(it for it in OPTIONS if it != 'help')
NAMING = ('--bytes',)
MOST = {'--keys': MOST_KEYS, '--per-source': MOST_KEYS, '--input-limit': (1 << 64) - 1}
# The numbers where no option says them.
USUAL = {'--keys': KEYS, '--per-source': PER_SOURCE, '--input-limit': INPUT}


@dataclass
class Wanted:
    """What is printed, a text and objects a line each, the status, and standard error."""

    lines: list
    objects: list
    status: int = 0
    errors: bytes = b''

    def output(self, is_json=False):
        lines = [json.dumps(it, separators=(',', ':')) for it in self.objects] if is_json else self.lines
        return ''.join(f'{it}\n' for it in lines).encode()


class Unknown(Exception):
    """A command line that clap answers."""


def wanted(words, given):
    """What a command prints of an input. Raises Unknown where clap answers."""
    if any('\udc80' <= it <= '\udcff' for it in ''.join(words)):
        return Wanted([], [], 3, b'nbt: read\n')
    command, (options, others) = words[0], parsed(words)
    options = USUAL | options
    try:
        if command == 'name':
            return Wanted([text_in(others[0]) if '--bytes' in options else spelling_of(name_in(others[0])).hex()], [])
        if command == 'build':
            return Wanted(built(others, '--broadcast' in options), [])
        if command in ('merge', 'list', 'agree'):
            return of_tables(command, options, given)
        station = stationed(others)
        if '--brief' in options and '--partial' in options:
            raise Refused('arguments')
        return saved(options, given) if command == 'save' else of_capture(command, options, station, given)
    except Refused as refused:
        return Wanted([], [], 1, f'nbt: {refused}\n'.encode())


def is_of_clap(status, output, errors):
    """Whether a run ends as a bad command line does, or prints a help or the version."""
    return status == 2 and bool(errors) and not output or status == 0 and bool(output) and not errors


def parsed(words):
    """The options of a command line with their values, and the words that are none. Options aren't shortened, or said twice."""
    if words[0] not in COMMANDS:
        raise Unknown(words[0])
    known = NAMING if words[0] == 'name' else OPTIONS[words[0]]
    try:
        given, names = getopt.gnu_getopt(words[1:], '', [it[2:] + '=' * (it in MOST) for it in known])
    except getopt.GetoptError as fault:
        raise Unknown(str(fault)) from None
    read = words[1:words.index('--') if '--' in words else len(words)]
    unknown = [it for it in read if it.startswith('--') and it.partition('=')[0] not in known]
    unknown += [value for option, value in given if option in MOST and not is_limit(value, MOST[option])]
    count = 1 if words[0] == 'name' else len(names) or 1 if words[0] in ('build', 'replay') else 0
    if unknown or len(dict(given)) < len(given) or len(names) != count:
        raise Unknown(unknown)
    return {option: int(value) if option in MOST else True for option, value in given}, names


def is_limit(value, most):
    """Whether a word is a number that a limit may be."""
    return re.fullmatch(r'\+?[0-9]+', value) is not None and 1 <= int(value) <= most


def name_in(text):
    """The name that a word says."""
    return name_of_text(text.encode('utf-8', 'surrogateescape'))


def text_in(digits):
    """What `nbt name --bytes` prints."""
    if not re.fullmatch(r'(?:[0-9A-Fa-f]{2})*', digits):
        raise Refused('bad hex')
    data = bytes.fromhex(digits)
    name, end = read_name(data, 0)
    if end < len(data):
        raise Refused(f'trailing bytes {end}')
    return text_of(name)


def stationed(texts):
    """The names of a station, judged from the left."""
    names = set()
    for each in texts:
        names.add(name_in(each))
        if len(names) > MOST_NAMES:
            raise Refused('too many names')
    return names


def of_tables(command, options, given):
    """What `nbt merge`, `list` and `agree` print."""
    if len(given) > INPUT:
        return Wanted([], [], 3, b'nbt: read\n')
    if command == 'agree':
        lines = agrees(given, '--list' in options).decode().splitlines()
        return Wanted(lines, [], int(lines != ['equal']))
    table = joined(given, options['--keys'], options['--per-source'])
    keys = listed(table)
    return Wanted([table.saved().hex()] if command == 'merge' else list(map(listed_text, keys)), keys)


def saved(options, given):
    """What `nbt save` prints."""
    _, lines, *ending = read_within(given, options['--input-limit'])
    table = Table(options['--keys'], options['--per-source'])
    save(lines, table)
    return Wanted([] if ending[0] else [table.saved().hex()], [], *ending)


def of_capture(command, options, names, given):
    """What `nbt show` and `nbt replay` print."""
    finished, lines, *ending = read_within(given, options['--input-limit'])
    table = Table(options['--keys'], options['--per-source'])
    answers = {it.number: told(command, table, names, it, options) for it in lines}
    comments = {number: comment_text(line) for number, line in finished if line.startswith(b'#')}
    texts, objects = [], []
    for number in sorted(answers.keys() | comments.keys() if '--comments' in options else answers):
        said_before = comments.get(number if number in comments else number - 1)
        text, moment, members = answers.get(number, ([comments.get(number)], {}, {}))
        texts += text
        objects.append({'line': number} | moment | ({} if said_before is None else {'comment': said_before}) | members)
    return Wanted(texts, objects, *ending)


def told(command, table, names, line, options):
    """The text of a line, its port and moment, and what is told of it, with its phrase or its front where that is asked for."""
    number, port, payload = line.number, line.port, line.payload
    moment = ({} if port is None else {'port': port}) | {'moment': line.moment}
    if command == 'replay':
        answer = reported(table, names, line)
        return [f'{number} {report_text(answer)}'], moment, answer
    if port is None:
        return [f'{number} tick {line.moment}'], moment, {'kind': 'tick'}
    first, *parts = [said(port, payload)] if '--brief' in options else lines_of(port, payload)
    more = front_lines(port, payload) if '--partial' in options else []
    phrase = {'brief': said(port, payload)} if '--brief' in options else {}
    front = front_of(port, payload) if '--partial' in options else {}
    return [f'{number} {port} {first}', *parts, *more], moment, phrase | shown(port, payload) | front


@functools.lru_cache(1)
def read_within(given, limit):
    """The lines of an input that are answered, with their numbers, those of them that say something, the status and standard
    error. In an input that is too long a line that isn't finished is malformed only by its length."""
    whole, cut = given[:limit], len(given) > limit
    finished = whole[:whole.rfind(b'\n') + 1] if cut else whole
    lines, malformed = read_capture(finished)
    if malformed is None and len(whole) - len(finished) > LONGEST_LINE:
        malformed = finished.count(b'\n') + 1
    if malformed is not None:
        return [it for it in numbered(finished) if it[0] < malformed], lines, 1, f'nbt: line {malformed}\n'.encode()
    return numbered(finished), lines, *((3, b'nbt: read\n') if cut else (0, b''))
