"""The command line of nbt-look-tshark."""
import argparse
import difflib
import ipaddress
import os

from nbt_pcap import arguments
from nbt_pcap.process import NAME, Stopped

from .filters import advice
from .vocabulary import KIND_SAME, KINDS, TABLES

USAGE = 'usage: %s FILE.., or -, --live or -i INTERFACE in place of FILE; --help says more' % NAME
SUMMARY = '--summary='
# Other words for tables.
TABLE_MEANT = {'conflict': 'refusals', 'conflicts': 'refusals'}
# Options of tshark, and what stands for them here.
OF_TSHARK = {
    '-Y': '--name, --host, --port and --kind choose packets', '-R': '--name, --host, --port and --kind choose packets',
    '-f': '--name, --host, --port and --kind choose packets', '-T': '--json prints an object of JSON for each packet',
    '-e': '--json prints an object of JSON for each packet', '-V': '--frame N prints all of a packet', '-x': '--frame N prints all of a packet',
    '-w': '--html PAGE writes a page, and nbt-look --lines the text of a capture', '-t': '--time start and --time utc say how times are printed'}


def options_of(words):
    parser = arguments.Words(prog=NAME, add_help=False, allow_abbrev=False)
    for each in ('-h', '--help'), ('--version',), ('--summary',), ('--json',), ('--quiet',), ('--live',):
        parser.add_argument(*each, action='store_true')
    parser.add_argument('--frame', type=number)
    parser.add_argument('--html')
    parser.add_argument('--name', dest='names', action='append', default=[])
    parser.add_argument('--host', dest='hosts', action='append', type=address, default=[])
    parser.add_argument('--kind', dest='kinds', action='append', type=kinds_in, default=[])
    parser.add_argument('--port', dest='given_ports', action='append', type=port, default=[])
    parser.add_argument('--time', choices=('start', 'utc'), default='start')
    parser.add_argument('--color', choices=('auto', 'always', 'never'), default='auto')
    parser.add_argument('-i', dest='interface')
    parser.add_argument('-r', dest='read')
    parser.add_argument('files', nargs='*')
    words, files, tables = ours(words)
    options = parser.parse_intermixed_args(words)
    options.files, options.tables = options.files + files, tables
    options.summary = options.summary or bool(tables)
    judge(options)
    return options


def ours(words):
    """The words but --summary=TABLE, the files after --, and the tables. Refuses an option that tshark has, and says what stands for it."""
    found, tables = [], []
    for place, each in enumerate(words):
        if each == '--':
            return found, words[place + 1:], tables
        if each[:2] in OF_TSHARK and not each.startswith('--'):
            raise Stopped(2, '%s is an option of tshark; here %s; --help says more' % (each[:2], OF_TSHARK[each[:2]]))
        if each.startswith(SUMMARY):
            tables += tables_in(each.removeprefix(SUMMARY))
        else:
            found.append(each)
    return found, [], tables


def judge(options):
    """Puts together what the words say, and refuses what doesn't go together."""
    options.kinds = [each for group in options.kinds for each in group]
    options.ports = [(each, each) for each in arguments.SERVICES] + [each for each in options.given_ports if isinstance(each, tuple)]
    options.session_ports = {str(each) for each, service in options.ports if service == 139}
    options.only_ports = [each for each in options.given_ports if isinstance(each, str)]
    options.live = options.live or options.interface is not None
    if options.help or options.version:
        return
    if options.summary:
        judge_words(options.files)
    judge_files(options)
    if options.frame is not None and (options.summary or options.live):
        raise Stopped(2, '--frame stands without --summary and a network; --help says more')
    if options.html is not None and (options.frame is not None or options.summary or options.json or options.live):
        raise Stopped(2, '--html stands without --frame, --summary, --json and a network; --help says more')
    arguments.judge_ports(options.ports)


def judge_files(options):
    """What is read: one file, or several, which are one capture then."""
    if options.read is not None and options.files:
        raise Stopped(2, USAGE)
    options.files = options.files if options.read is None else [options.read]
    if options.live == bool(options.files):
        raise Stopped(2, USAGE)
    options.is_merged = len(options.files) > 1
    if options.is_merged and '-' in options.files:
        raise Stopped(2, 'several files are read by their names, and standard input has none; --help says more')
    if options.is_merged and options.html is not None:
        raise Stopped(2, '--html takes one file; mergecap -w ALL FILE.. makes one of several')
    # tshark is given several by a pipe.
    options.file = None if options.live else '-' if options.is_merged else options.files[0]


def number(text):
    if text.isascii() and text.isdigit() and 1 <= int(text) < 2**32:
        return int(text)
    raise argparse.ArgumentTypeError('the number of a frame is wanted, as 4')


def address(text):
    try:
        return str(ipaddress.ip_address(text))
    except ValueError:
        raise argparse.ArgumentTypeError('an address is wanted, as 10.0.0.6') from None


def port(text):
    """A port that is wanted, as a text, or a service with a port that stands for it."""
    if '=' in text:
        return arguments.mapped(text)
    if text.isascii() and text.isdigit() and 1 <= int(text) <= 65_535:
        return str(int(text))
    raise argparse.ArgumentTypeError('a port is wanted, as 137, or a service and a port, as 137=20137')


def tables_in(text):
    """Tables of the summary, with commas between them, by their titles."""
    found = [TABLE_MEANT.get(each, each) for each in text.split(',')]
    for each in found:
        if each not in TABLES:
            near = difflib.get_close_matches(each, TABLES, 1)
            why = ': perhaps %s' % near[0] if near else '; they are ' + ', '.join(TABLES)
            raise Stopped(2, 'argument --summary: %s is no table%s; --help says more' % (each or 'nothing', why))
    return [TABLES[each][0] for each in found]


def judge_words(files):
    """Refuses the names of tables that stand where files do."""
    for each in files:
        if not os.path.lexists(each) and all(word in TABLES or word in TABLE_MEANT for word in each.split(',')):
            raise Stopped(2, f'there is no file {each}; tables stand in the word of their option, {SUMMARY}{each}; --help says more')


def kinds_in(text):
    """Kinds with commas between them."""
    found = [KIND_SAME.get(each, each) for each in text.split(',')]
    for each in found:
        if each not in KINDS:
            raise argparse.ArgumentTypeError(advice(each))
    return found
